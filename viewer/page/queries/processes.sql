-- The processes, in the order of their first frame, with how many of their threads make calls of 32 bits, and with the
-- packages of their users, some and how many: a package has the same id for each user of the device, but for the
-- hundred thousands. ?1: the most rows.
-- needs: database/schema.sql: package, side_time; database/views.sql: device, process, thread
-- makes: columns: upid, device, called, pid, threads, met, frames, first_seq, last_seq, ended, ended_after, uid,
--   command, narrow, packages, packages_n, first_ts, last_ts
SELECT p.upid, p.device, d.name AS called, p.pid, coalesce(t.threads, 0) AS threads, p.met, p.frames, p.first_seq, p.last_seq, p.ended,
  p.ended_after, p.uid, p.command, coalesce(t.narrow, 0) AS narrow,
  (SELECT group_concat(name, ', ') FROM (SELECT DISTINCT g.name FROM package g
    WHERE g.uid IN (p.uid, p.uid % 100000) ORDER BY g.name LIMIT 3)) AS packages,
  (SELECT count(DISTINCT g.name) FROM package g WHERE g.uid IN (p.uid, p.uid % 100000)) AS packages_n,
  x.ts AS first_ts, y.ts AS last_ts
FROM process p LEFT JOIN device d USING (device)
LEFT JOIN (SELECT upid, count(*) AS threads, count(*) FILTER (WHERE bits = 32) AS narrow FROM thread GROUP BY upid) t
  USING (upid)
  LEFT JOIN side_time x ON x.seq = p.first_seq LEFT JOIN side_time y ON y.seq = p.last_seq
ORDER BY p.upid LIMIT ?1
