-- V5: methods that got slow, which are findings of their own, one for each method of an object.
-- needs: database/schema.sql: finding, raw_call, raw_delivery, raw_record, raw_thread, side_time; counts.sql: sent;
--   rule.sql: lossy; locks.sql: waits_for_lock
-- after: used_up.sql
-- makes: temporary tables: took_long, took, at_first, got_slow

-- ---- the rules

-- V5 maybe: From this call on it took over {LONG}, and {OLD} times as long as any of the first quarter.
--   next: what changed in this process then: what the method works on, or waits for
--   rests on: LONG, OLD, OFTEN, ENOUGH, NEARLY_ALL, VERY_LONG
--   met by: `gets_slow()`: the last three calls of twelve take 600 ms
--   fault: a method that got slow

-- ---- what they say of which finding

-- The methods of objects of which a call took over :LONG, and all calls that these served.
-- beside: rule.sql
CREATE TEMP TABLE took_long AS
SELECT node_upid AS upid, code, ptr FROM sent
WHERE longest > :LONG AND NOT oneway AND node_upid NOT IN (SELECT upid FROM lossy);
CREATE TEMP TABLE took AS
SELECT v.place, v.seq, v.utid, t.upid, r.code, r.ptr, x.ts AS since, z.ts - x.ts AS dur,
  row_number() OVER (PARTITION BY t.upid, r.code, r.ptr ORDER BY v.place) AS nth,
  count(*) OVER (PARTITION BY t.upid, r.code, r.ptr) AS n
FROM (SELECT DISTINCT upid FROM took_long) JOIN raw_thread t USING (upid) CROSS JOIN raw_call v ON v.utid = t.utid
  JOIN raw_record r ON r.place = v.place
  JOIN side_time x ON x.seq = v.seq JOIN side_time z ON z.seq = v.seq + v.dur_seq
WHERE (t.upid, r.code, r.ptr) IN (SELECT upid, code, ptr FROM took_long);
-- The longest of the first quarter.
CREATE TEMP TABLE at_first AS
SELECT upid, code, ptr, count(*) AS n, max(dur) AS longest FROM took WHERE nth * 4 <= n GROUP BY 1, 2, 3
HAVING count(*) >= :ENOUGH;
-- The methods of which nearly all calls took far longer since one did, and the first of these.
CREATE TEMP TABLE got_slow AS
SELECT t.upid, t.code, t.ptr, min(t.place) AS place, count(*) AS n, min(t.dur) AS least, u.n AS first,
  u.longest AS usual
FROM at_first u JOIN took t USING (upid, code, ptr)
WHERE t.dur > max(:LONG, :OLD * u.longest) GROUP BY 1, 2, 3
HAVING count(*) >= :OFTEN AND count(*) >= :NEARLY_ALL * (max(t.n) - min(t.nth) + 1)
  AND max(t.since) - min(t.since) > :VERY_LONG;
-- What waits for a lock that V4 tells of is slow by that.
DELETE FROM got_slow WHERE (upid, code, ptr) IN (
  SELECT w.upid, w.code, w.ptr FROM waits_for_lock w JOIN finding f USING (upid) WHERE f.rule = 'V4');
-- One that waits for such a method of another process is slow by that one.
DELETE FROM got_slow WHERE (upid, code, ptr) IN (
  SELECT o.upid, o.code, o.ptr
  FROM got_slow g JOIN raw_delivery d USING (place) JOIN raw_call c ON c.place = d.send
    JOIN took o ON o.place = c.parent);
INSERT INTO finding(section, what, place, seq, upid, utid, code, ptr, relation, about, node, rule, said, how_many,
  how_long, of_how_many, usually)
SELECT 'slow', 'slower', g.place, c.seq, g.upid, c.utid, g.code, g.ptr, 'at', g.upid, g.ptr, 'V5',
  'since then {how_many:call} took {how_long} or more, the first {of_how_many} {usually} or less', g.n, g.least,
  g.first, g.usual
FROM got_slow g JOIN took c USING (place);
