-- Q: pools that are used up, which are findings of their own, one for each server.
-- needs: database/schema.sql: finding, raw_call, raw_delivery, raw_record, raw_send, raw_thread, side_time; nodes.sql:
--   who; ages.sql: process_life; waits.sql: occupies, step; pools.sql: kept_by, kept_by_caller, kept_by_method,
--   kept_for, pool_looper, pool_wait; judging.py: counted, duration
-- after: calls.sql
-- makes: temporary tables: usual_wait, told_by_call, keeper, waited_for, used_up; indexes: keeper_of

-- ---- what findings are called

-- pools are called: pools that calls use up

-- ---- the rules

-- Q1 real: Calls of others waited over {VERY_LONG} and {OLD} times as long as usual, while these kept all known loopers
--   busy.
--   next: the method that the path names: how long it takes, and who calls it so often
--   rests on: VERY_LONG, NEARLY_ALL, OFTEN, OLD
--   met by: `calls_wait()`: slow calls keep the only looper busy, one after another
--   where frames are missing: M2
-- Q2 maybe: Calls waited over {VERY_LONG}, while these kept all known loopers of the server busy.
--   next: the method that the path names: how long it takes
--   rests on: VERY_LONG, NEARLY_ALL
--   met by: `two_loopers()`: one call waited
-- Q3 maybe: {OFTEN} calls or more of others waited over {LONG}, while calls of this process kept all known loopers
--     busy.
--   next: what this process calls so often, and whether it can call less often, or one after another
--   rests on: LONG, NEARLY_ALL, OFTEN
--   met by: `queue()`: a client keeps both loopers of a service busy, and three calls wait
--   fault: a queue behind the calls of one process
-- Q4 explained: {OFTEN} calls or more waited over {LONG}, while one method kept all known loopers of the server busy.
--   next: how long the method takes, and whether it waits for a lock
--   rests on: LONG, NEARLY_ALL, OFTEN
--   met by: `queue()`: several clients keep both loopers of a service busy
--   fault: a queue behind one method

-- ---- what they say of which finding

-- The median of the waits of all calls to those servers where one waited over :VERY_LONG.
CREATE TEMP TABLE usual_wait AS
SELECT server, dur
FROM (SELECT server, dur, row_number() OVER (PARTITION BY server ORDER BY dur) AS nth,
    count(*) OVER (PARTITION BY server) AS n
  FROM (SELECT t.upid AS server, max(y.ts - x.ts, 0) AS dur
    FROM (SELECT 1 FROM pool_wait WHERE until - since > :VERY_LONG LIMIT 1) CROSS JOIN raw_call v JOIN raw_delivery d USING (place)
      JOIN raw_send s ON s.place = d.send JOIN raw_thread t ON t.utid = v.utid JOIN side_time x ON x.seq = s.seq
      JOIN side_time y ON y.seq = v.seq
    WHERE v.depth = 1 AND s.certain
      AND t.upid IN (SELECT server FROM pool_wait WHERE until - since > :VERY_LONG)))
WHERE nth = (n + 1) / 2;
-- If a call keeps the pool busy to the end, or is in a ring, that call is the finding, also where the loopers wait for
-- it by other calls.
CREATE TEMP TABLE told_by_call AS
WITH RECURSIVE told(at) AS (SELECT id FROM finding WHERE rule IN ('C3', 'C6', 'C8', 'C10', 'C11')
    AND EXISTS (SELECT 1 FROM pool_wait)
  UNION SELECT s.id FROM told t JOIN step s ON s.next = t.at LEFT JOIN finding f ON f.id = s.id
    WHERE f.id IS NULL OR f.rule = 'C7')
SELECT upid AS server FROM occupies WHERE id IN (SELECT at FROM told);
-- The processes whose calls kept its loopers busy, with when each call did so; `before` is how long a looper was busy
-- with calls of the process before.
CREATE TEMP TABLE keeper AS
SELECT server, caller AS upid, utid, busy_since AS since, busy_until AS until,
  sum(busy_until - busy_since) OVER (PARTITION BY server, caller, utid ORDER BY busy_since)
    - (busy_until - busy_since) AS before
FROM (SELECT DISTINCT server, caller, utid, place, busy_since, busy_until FROM kept_by);
CREATE INDEX temp.keeper_of ON keeper(server, upid, utid, since);
-- How long each wait was, and how long calls of the process that waits kept loopers busy meanwhile: who waits for its own
-- calls delays itself.
CREATE TEMP TABLE waited_for AS
SELECT w.server, w.until - w.since AS ns, (
  SELECT sum(
    coalesce((SELECT k.before + min(k.until, w.until) - k.since FROM keeper k WHERE k.server = w.server
      AND k.upid = t.upid AND k.utid = l.utid AND k.since <= w.until ORDER BY k.since DESC LIMIT 1), 0)
    - coalesce((SELECT k.before + min(k.until, w.since) - k.since FROM keeper k WHERE k.server = w.server
      AND k.upid = t.upid AND k.utid = l.utid AND k.since <= w.since ORDER BY k.since DESC LIMIT 1), 0))
  FROM pool_looper l WHERE l.upid = w.server) AS own
FROM pool_wait w JOIN raw_thread t USING (utid);
-- If most calls waited so long, the median is no measure of what is usual. `delayed` are those that waited for others.
CREATE TEMP TABLE used_up AS
SELECT w.server, count(*) AS n, max(w.ns) AS longest, u.dur AS usual, sum(w.own < (1 - :NEARLY_ALL) * w.ns) AS delayed,
  sum((w.ns > :OLD * u.dur OR u.dur > :VERY_LONG) AND w.own < (1 - :NEARLY_ALL) * w.ns) >= :OFTEN AS is_real,
  iif(max(w.ns) > :VERY_LONG, NULL, c.upid) AS caller, c.n AS of_caller
FROM waited_for w LEFT JOIN usual_wait u USING (server) LEFT JOIN kept_by_caller c USING (server)
WHERE w.server NOT IN (SELECT server FROM told_by_call)
GROUP BY w.server;
-- Named are the method that kept its loopers longest, and those that took their share, too.
INSERT INTO finding(section, what, place, seq, upid, utid, code, ptr, relation, about, node, calls, waiting, rule,
  note, culprit)
SELECT 'pools', 'used up', m.place, r.seq, u.server, m.utid, m.code, m.ptr, 'at', u.server,
  iif(m.ns > :NEARLY_ALL * m.whole, m.ptr, NULL),
  (SELECT group_concat(call, ', ') FROM (SELECT o.call FROM kept_by_method o WHERE o.server = u.server
      AND (o.nth = 1 OR o.ns >= (1 - :NEARLY_ALL) * o.whole) ORDER BY o.nth LIMIT :NAMED)),
  u.n,
  CASE WHEN u.caller NOTNULL THEN 'Q3' WHEN u.longest <= :VERY_LONG THEN 'Q4' WHEN u.is_real THEN 'Q1' ELSE 'Q2' END,
  counted(u.n, 'call') || ' waited up to ' || duration(u.longest)
    || coalesce(' (the median is ' || nullif(duration(u.usual), '') || ')', '') || ' for '
    || (SELECT iif(p.known, 'its ', '') || counted(count(DISTINCT b.utid), 'looper') FROM kept_by b
      JOIN process_life p ON p.upid = b.server WHERE b.server = u.server)
    || ': ' || (SELECT group_concat(n || ' of ' || who, ', ') FROM (SELECT c.who, count(*) AS n
      FROM pool_wait l JOIN raw_thread t USING (utid) JOIN who c ON c.upid = t.upid WHERE l.server = u.server
      GROUP BY c.upid ORDER BY n DESC, c.upid LIMIT :NAMED))
    || coalesce('; ' || u.of_caller || ' of ' || (SELECT who FROM who WHERE upid = u.caller) || ' kept them busy', '')
    || coalesce('; the loopers wait for ' || (SELECT who FROM who WHERE upid = k.upid), ''), coalesce(u.caller, k.upid)
FROM used_up u JOIN kept_by_method m ON m.server = u.server AND m.nth = 1 JOIN raw_record r ON r.place = m.place
  LEFT JOIN kept_for k ON k.server = u.server AND k.ns >= :NEARLY_ALL * m.whole
WHERE u.longest > :VERY_LONG OR u.delayed >= :OFTEN AND (u.caller NOTNULL OR m.ns >= :NEARLY_ALL * m.whole);
