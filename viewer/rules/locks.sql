-- V4: locks that are held over calls, which are findings of their own, one for each method that holds one.
-- needs: database/schema.sql: finding, raw_call, raw_record, raw_send, raw_thread, side_time; nodes.sql: who;
--   counts.sql: sent; rule.sql: lossy; judging.py: call_name, counted, duration
-- makes: temporary tables: held_over, held_time, served_meanwhile, waits_for_lock, usual_served; indexes: held_over_by,
--   served_meanwhile_of

-- ---- the rules

-- V4 maybe: {OFTEN} calls or more waited {OLD} times as long as usual, until its own call ended: mostly for a lock.
--   next: the locks that the thread holds while it makes that call: whether it can let go of them before
--   rests on: OFTEN, LONG, OLD
--   met by: `holds_a_lock()`: a service waits 1.1 s for another one, and three calls to the service wait with it
--   fault: a lock held over a call

-- ---- what they say of which finding

-- The calls over :LONG that threads made within calls that they served.
-- beside: rule.sql
CREATE TEMP TABLE held_over AS
SELECT c.place, c.closer, c.parent, p.upid, p.node_upid AS server, p.ptr, p.code, x.ts AS since, z.ts AS until
FROM sent p CROSS JOIN raw_send s CROSS JOIN raw_call c CROSS JOIN raw_record r CROSS JOIN side_time x
  CROSS JOIN side_time z
WHERE p.longest > :LONG AND NOT p.oneway AND p.upid IN (SELECT node_upid FROM sent)
  AND p.upid NOT IN (SELECT upid FROM lossy) AND s.generation = p.generation AND c.place = s.place AND c.parent NOTNULL
  AND r.place = s.place AND r.code = p.code AND x.seq = c.seq AND z.seq = c.seq + c.dur_seq AND z.ts - x.ts > :LONG;
CREATE INDEX temp.held_over_by ON held_over(upid, until);
-- When each of these processes made such calls, as long as they follow one another.
CREATE TEMP TABLE held_time AS
SELECT upid, min(place) AS place, max(closer) AS closer
FROM (SELECT upid, place, closer, sum(begins) OVER (PARTITION BY upid ORDER BY place) AS n
  FROM (SELECT upid, place, closer, coalesce(place > max(closer) OVER (PARTITION BY upid ORDER BY place
      ROWS BETWEEN UNBOUNDED PRECEDING AND 1 PRECEDING), 1) AS begins FROM held_over))
GROUP BY upid, n;
-- The calls that it got then.
CREATE TEMP TABLE served_meanwhile AS
SELECT v.place, t.upid, r.code, r.ptr, x.ts AS since, z.ts AS until
FROM held_time h JOIN raw_thread t USING (upid) CROSS JOIN raw_call v ON v.utid = t.utid
  AND v.place BETWEEN h.place AND h.closer JOIN raw_record r ON r.place = v.place
  JOIN side_time x ON x.seq = v.seq JOIN side_time z ON z.seq = v.seq + v.dur_seq
WHERE v.served;
CREATE INDEX temp.served_meanwhile_of ON served_meanwhile(upid, code, ptr, since);
-- Those that came during such a call and ended soon after it, each with the last one that had ended by then, `held`, and
-- the method within which that was made. A lock lets none of their path through until it is free.
CREATE TEMP TABLE waits_for_lock AS
SELECT w.*, h.place AS held, h.parent, m.code AS by_code, m.ptr AS by_ptr
FROM served_meanwhile w JOIN held_over h ON h.place = (SELECT o.place FROM held_over o
    WHERE o.upid = w.upid AND o.until <= w.until ORDER BY o.until DESC LIMIT 1)
  JOIN raw_record m ON m.place = h.parent
WHERE w.until - w.since > :LONG AND w.since >= h.since AND w.until - h.until <= :LONG
  AND w.place NOT IN (SELECT parent FROM held_over)
  AND NOT EXISTS (SELECT 1 FROM served_meanwhile o WHERE (o.upid, o.code, o.ptr) = (w.upid, w.code, w.ptr)
    AND o.since BETWEEN h.since AND h.until AND o.until < h.until);
-- The median of all that were served on their paths.
CREATE TEMP TABLE usual_served AS
SELECT upid, code, ptr, dur
FROM (SELECT *, row_number() OVER (path ORDER BY dur) AS nth, count(*) OVER path AS n
  FROM (SELECT t.upid, r.code, r.ptr, z.ts - x.ts AS dur
    FROM (SELECT upid FROM waits_for_lock GROUP BY 1 HAVING count(*) >= :OFTEN) w JOIN raw_thread t USING (upid)
      CROSS JOIN raw_call v ON v.utid = t.utid JOIN raw_record r ON r.place = v.place
      JOIN side_time x ON x.seq = v.seq JOIN side_time z ON z.seq = v.seq + v.dur_seq
    WHERE (t.upid, r.code, r.ptr) IN (SELECT upid, code, ptr FROM waits_for_lock))
  WINDOW path AS (PARTITION BY upid, code, ptr))
WHERE nth = (n + 1) / 2;
DELETE FROM waits_for_lock WHERE until - since <= :OLD * (SELECT dur FROM usual_served u
  WHERE (u.upid, u.code, u.ptr) = (waits_for_lock.upid, waits_for_lock.code, waits_for_lock.ptr));
INSERT INTO finding(section, what, place, seq, upid, utid, code, ptr, relation, about, node, waiting, rule, other, note)
SELECT 'slow', 'lock', l.parent, r.seq, l.upid, r.utid, r.code, r.ptr, 'at', l.upid, r.ptr, l.n, 'V4', l.held,
  counted(l.n, 'call') || ' waited up to ' || duration(l.longest) || ', until its call at ' || l.held
    || ' ended, ' || call_name(h.code, h.server, h.ptr)
    || coalesce(' to ' || (SELECT who FROM who WHERE upid = h.server), '') || ': '
    || (SELECT group_concat(n || ' of ' || call, ', ')
      FROM (SELECT call_name(w.code, w.upid, w.ptr) AS call, count(*) AS n FROM waits_for_lock w
        WHERE (w.upid, w.by_code, w.by_ptr) = (l.upid, l.by_code, l.by_ptr)
        GROUP BY 1 ORDER BY n DESC, call LIMIT :NAMED))
FROM (SELECT upid, by_code, by_ptr, parent, held, count(*) AS n, max(until - since) AS longest FROM waits_for_lock
    GROUP BY 1, 2, 3 HAVING count(*) >= :OFTEN) l
  JOIN held_over h ON h.place = l.held JOIN raw_record r ON r.place = l.parent;
