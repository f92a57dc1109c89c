-- How many bytes of the capture each process wrote by all its openings, the most first, and its user.
-- needs: database/schema.sql: raw_frame, raw_thread; database/views.sql: process; rules/nodes.sql: who
-- makes: columns: who, uid, bytes
SELECT w.who, x.uid, x.bytes
FROM (SELECT min(p.upid) AS upid, max(p.uid) AS uid, sum(b.bytes) AS bytes
  FROM (SELECT t.upid, sum(32 + f.command_length + f.attachment_length) AS bytes
      FROM raw_frame f JOIN raw_thread t USING (utid) GROUP BY t.upid) b JOIN process p USING (upid)
  GROUP BY coalesce(p.pid, -p.upid)) x JOIN who w USING (upid)
ORDER BY x.bytes DESC, x.upid
