-- W4, W12, W13: listeners that fall behind, which are findings of their own, one for each node: oneway sends to it wait
-- longer and longer.
-- needs: database/schema.sql: finding, raw_delivery, raw_record, raw_send, raw_thread, side_time; nodes.sql: node_of;
--   records.sql: to_frozen; counts.sql: sent; ages.sql: last, process_life; rule.sql: lossy
-- after: used_up.sql
-- makes: temporary tables: late_node, slow_wait, by_quarter, not_come, behind, burst; indexes: slow_wait_of,
--   not_come_of

-- ---- what findings are called

-- queues are called: oneway sends that wait longer and longer

-- ---- the rules

-- W4 maybe: Its receiver falls behind: sends to one object wait longer and longer, at last over {VERY_LONG}.
--   next: how long the receiver takes for each send, and how often they are sent
--   rests on: VERY_LONG, OLD, ENOUGH, GROWN
--   met by: `falls_behind()`: a listener takes one event every 170 ms
-- W12 maybe: A burst: nearly all sends to one object are of this process, and come faster than it takes them, at last
--     over {VERY_LONG} late; of these it takes each in less than {LONG}.
--   next: whether the sender can send less often, or several in one
--   rests on: VERY_LONG, LONG, NEARLY_ALL, OLD, ENOUGH, GROWN
--   met by: `bursts()`: a client sends one each 5 ms, and its receiver takes 15 ms for each
--   fault: bursts of oneway sends
-- W13 explained: A short burst: nearly all sends to one object are of this process, and come faster than it takes them,
--     at last over {LONG} late.
--   next: whether the sender can send less often, or several in one
--   rests on: VERY_LONG, LONG, NEARLY_ALL, ENOUGH, GROWN
--   met by: `bursts()`: a client sends 120, one each 5 ms, and its receiver takes 15 ms for each
--   fault: short bursts of oneway sends

-- ---- what they say of which finding

-- How long each oneway send waited for its delivery, or if it did not come, for the end of its receiver; but not those
-- that waited for a thaw. Which of those that wait for one node a delivery belongs to may be a guess, which keeps their
-- order, as the driver does. Of these, those of the nodes for which one that came waited over :LONG.
-- beside: counts.sql
CREATE TEMP TABLE late_node AS
SELECT DISTINCT node_upid AS upid, ptr, cookie FROM sent WHERE oneway AND waited > :LONG;
CREATE TEMP TABLE slow_wait AS
SELECT *, until - since AS wait
FROM (SELECT s.place, n.upid, n.ptr, n.cookie, x.ts AS since, coalesce(y.ts, p.ended, last.ts) AS until,
    y.ts NOTNULL AS came
  FROM (SELECT 1 FROM late_node LIMIT 1) CROSS JOIN raw_send s CROSS JOIN node_of n USING (generation)
    CROSS JOIN raw_record r USING (place) JOIN process_life p USING (upid)
    JOIN side_time x ON x.seq = s.seq LEFT JOIN raw_delivery d ON d.place = s.delivery
    LEFT JOIN raw_record c ON c.place = d.place LEFT JOIN raw_thread t ON t.utid = d.utid
    LEFT JOIN side_time y ON y.seq = d.seq, last
  WHERE (n.upid, n.ptr, n.cookie) IN (SELECT upid, ptr, cookie FROM late_node)
    AND r.flags & :TF_ONE_WAY AND NOT r.flags & :TF_UPDATE_TXN AND s.refused IS NULL
    AND s.place NOT IN (SELECT place FROM to_frozen)
    AND (d.place IS NULL OR (t.upid, c.ptr, c.cookie) = (n.upid, n.ptr, n.cookie))
    AND n.upid NOT IN (SELECT upid FROM lossy));
CREATE INDEX temp.slow_wait_of ON slow_wait(upid, ptr, cookie, place);
-- The first and the last quarter of those that came: how many they are, their median, and the least.
CREATE TEMP TABLE by_quarter AS
SELECT upid, ptr, cookie, quarter, min(wait) AS least, max(iif(nth = (n + 1) / 2, wait, NULL)) AS median, n
FROM (SELECT *, row_number() OVER (PARTITION BY upid, ptr, cookie, quarter ORDER BY wait) AS nth,
    count(*) OVER (PARTITION BY upid, ptr, cookie, quarter) AS n
  FROM (SELECT *, ntile(4) OVER (PARTITION BY upid, ptr, cookie ORDER BY place) AS quarter FROM slow_wait WHERE came))
WHERE quarter IN (1, 4) GROUP BY 1, 2, 3, 4;
-- The first one that did not come. Later ones did not either: the driver keeps the order of a node.
CREATE TEMP TABLE not_come AS
SELECT upid, ptr, cookie, min(place) AS place, min(since) AS since, max(wait) AS wait, count(*) AS n FROM slow_wait
WHERE NOT came GROUP BY 1, 2, 3;
CREATE UNIQUE INDEX temp.not_come_of ON not_come(upid, ptr, cookie);
-- A listener that hangs takes nothing any more: of one that falls behind others came while what did not come waited.
CREATE TEMP TABLE behind AS
SELECT s.upid, s.ptr, s.cookie, u.place, u.n AS missing, u.wait, min(s.wait) AS quickest, u.wait AS least
FROM not_come u JOIN slow_wait s USING (upid, ptr, cookie)
WHERE s.came AND u.wait > :VERY_LONG GROUP BY 1, 2, 3
HAVING sum(s.wait < u.wait / :OLD) >= :ENOUGH AND sum(s.until > u.since) >= :ENOUGH;
INSERT INTO behind
SELECT z.upid, z.ptr, z.cookie, (SELECT place FROM slow_wait s WHERE s.came
    AND (s.upid, s.ptr, s.cookie) = (z.upid, z.ptr, z.cookie) ORDER BY s.wait DESC, place LIMIT 1), 0,
  (SELECT max(wait) FROM slow_wait s WHERE s.came AND (s.upid, s.ptr, s.cookie) = (z.upid, z.ptr, z.cookie)), a.least,
  z.least
FROM by_quarter a JOIN by_quarter z USING (upid, ptr, cookie)
WHERE a.quarter = 1 AND z.quarter = 4 AND z.n >= :ENOUGH AND z.least > max(:LONG, :GROWN * a.median)
  AND (z.upid, z.ptr, z.cookie) NOT IN (SELECT upid, ptr, cookie FROM behind);
-- A burst, of one sender; its receiver takes each as soon as it has taken the one before.
CREATE TEMP TABLE burst AS
SELECT b.upid, b.ptr, b.cookie, t.upid AS sender, count(*) AS n, w.each
FROM behind b JOIN slow_wait o USING (upid, ptr, cookie) JOIN raw_send s ON s.place = o.place
  JOIN raw_thread t ON t.utid = s.utid
  JOIN (SELECT upid, ptr, cookie, count(*) AS n, (max(iif(came, until, NULL)) - min(iif(came, until, NULL)))
      / nullif(sum(came) - 1, 0) AS each, max(iif(came, until - max(since, before), NULL)) AS longest
    FROM (SELECT *, lag(until, 1, 0) OVER (PARTITION BY upid, ptr, cookie ORDER BY place) AS before FROM slow_wait)
    GROUP BY 1, 2, 3) w USING (upid, ptr, cookie)
WHERE w.longest < :LONG GROUP BY 1, 2, 3, 4 HAVING count(*) >= :NEARLY_ALL * w.n;
INSERT INTO finding(section, what, place, seq, upid, utid, code, ptr, cookie, relation, about, node, rule, culprit,
  said, how_long, usually, how_many, other_upid)
SELECT 'queues', 'behind', b.place, r.seq, b.upid, r.utid, r.code, b.ptr, b.cookie, 'at', b.upid, b.ptr,
  CASE WHEN k.sender IS NULL THEN 'W4' WHEN b.least > :VERY_LONG THEN 'W12' ELSE 'W13' END, k.sender,
  iif(k.sender NOTNULL, '{who} sent {how_many}, and one waited {how_long}; each takes {usually}',
    'one waited {how_long}, an earlier one {usually}' || iif(b.missing, '; {how_many:send} did not come', '')),
  b.wait, coalesce(k.each, b.quickest), coalesce(k.n, b.missing), k.sender
FROM behind b JOIN raw_record r USING (place) LEFT JOIN burst k USING (upid, ptr, cookie)
WHERE k.sender NOTNULL OR b.least > :VERY_LONG;
