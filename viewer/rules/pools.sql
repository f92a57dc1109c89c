-- Pools that are used up: calls that waited for their delivery, while all loopers of their server were busy, and what
-- kept these busy.
-- needs: database/schema.sql: finding, raw_call, raw_delivery, raw_record, raw_send, raw_thread, side_time;
--   database/views.sql: sent_to; nodes.sql: node_of; counts.sql: sent; ages.sql: last, life; rule.sql: lossy;
--   waits.sql: queued; judging.py: call_name
-- makes: temporary tables: served_late, long_wait, looper_says, pool_looper, late_part, late_call, busy, full_wait,
--   pool_wait, full_time, kept_by, kept_by_method, kept_by_caller, kept_for; indexes: pool_looper_of, late_part_of,
--   busy_at, full_wait_of

-- The calls that waited over :LONG, from the send to the delivery to a thread that was in no call; or to the end, over
-- :VERY_LONG.
-- beside: counts.sql
CREATE TEMP TABLE served_late AS
SELECT s.place, s.utid, t.upid AS server, x.ts AS since, y.ts AS until, v.place AS got
FROM (SELECT 1 FROM sent WHERE waited > :LONG LIMIT 1) CROSS JOIN raw_send s
  JOIN raw_call v ON v.place = s.delivery JOIN raw_thread t ON t.utid = v.utid JOIN side_time x ON x.seq = s.seq
  JOIN side_time y ON y.seq = v.seq
WHERE s.generation IN (SELECT generation FROM sent WHERE waited > :LONG)
  AND v.depth = 1 AND s.certain AND y.ts - x.ts > :LONG;
CREATE TEMP TABLE long_wait AS
SELECT place, utid, server, since, until, got FROM served_late WHERE server NOT IN (SELECT upid FROM lossy)
UNION ALL SELECT f.place, f.utid, q.upid, x.ts, x.ts + f.age, 9223372036854775807
FROM queued q JOIN waits w USING (id) JOIN finding f USING (id) JOIN side_time x USING (seq)
WHERE f.age > :VERY_LONG AND q.upid NOT IN (SELECT upid FROM lossy);

-- ---- when the loopers of these servers were busy

-- When a thread says that it is a looper, or that it is none any more, and when it takes its first call.
CREATE TEMP TABLE looper_says AS
SELECT r.utid, r.kind <> :BC_EXIT_LOOPER AS enters, r.place, x.ts
FROM (SELECT 1 FROM long_wait LIMIT 1) CROSS JOIN raw_record r JOIN raw_thread t USING (utid)
  JOIN side_time x ON x.seq = r.seq
WHERE r.kind IN (:BC_ENTER_LOOPER, :BC_REGISTER_LOOPER, :BC_EXIT_LOOPER)
  AND t.upid IN (SELECT server FROM long_wait);
INSERT INTO looper_says
SELECT f.utid, 1, f.place, x.ts
FROM (SELECT t.utid, (SELECT c.place FROM raw_call c WHERE c.utid = t.utid AND c.served AND c.depth = 1
      ORDER BY c.place LIMIT 1) AS place
    FROM raw_thread t WHERE t.upid IN (SELECT server FROM long_wait)) f
  JOIN raw_call c USING (place) JOIN side_time x ON x.seq = c.seq;
CREATE TEMP TABLE pool_looper AS
SELECT t.utid, t.upid, s.since, min(coalesce(s.stops, last.ts), coalesce(l.ended, last.ts)) AS until
FROM (SELECT utid, min(iif(enters, ts, NULL)) AS since,
    iif(max(iif(enters, place, 0)) < max(iif(enters, 0, place)), max(iif(enters, 0, ts)), NULL) AS stops
  FROM looper_says GROUP BY utid) s JOIN raw_thread t USING (utid) LEFT JOIN life l USING (utid), last
WHERE s.since NOTNULL;
CREATE INDEX temp.pool_looper_of ON pool_looper(upid);
-- From where to where there was a wait, without what there was of an earlier one; and where the one before began.
CREATE TEMP TABLE late_part(server INTEGER, place INTEGER, got INTEGER, before INTEGER);
INSERT INTO late_part
SELECT server, place, got, lag(place, 1, 0) OVER (PARTITION BY server ORDER BY place)
FROM (SELECT server, max(place, reached) AS place, max(got, reached) AS got
  FROM (SELECT server, place, got, coalesce(max(got) OVER (PARTITION BY server ORDER BY place
      ROWS BETWEEN UNBOUNDED PRECEDING AND 1 PRECEDING), 0) AS reached FROM long_wait));
CREATE INDEX temp.late_part_of ON late_part(server, place);
-- The calls that loopers were in meanwhile: those that began then, and the last one that began before.
CREATE TEMP TABLE late_call AS
SELECT k.utid, k.until, (SELECT b.place FROM raw_call b WHERE b.utid = k.utid AND b.depth = 1 AND b.place >= p.before
    AND b.place < p.place ORDER BY b.place DESC LIMIT 1) AS place
FROM late_part p CROSS JOIN pool_looper k ON k.upid = p.server
UNION SELECT k.utid, k.until, c.place
FROM late_part p CROSS JOIN pool_looper k ON k.upid = p.server CROSS JOIN raw_call c ON c.utid = k.utid AND c.depth = 1
  AND c.place >= p.place AND c.place < p.got;

-- What a looper is in meanwhile: a call that it serves or makes, and a oneway transaction until it frees it, or to the
-- end if it did nothing since. Where these overlap, the later one begins when the one before it ends. `before` is how
-- long it was busy before, as far as there were waits. `since` is an INTEGER, or the index would not find it.
CREATE TEMP TABLE busy AS
SELECT utid, place, since, until,
  sum(until - since) OVER (PARTITION BY utid ORDER BY since) - (until - since) AS before
FROM (SELECT utid, place, until, CAST(max(since, coalesce(max(until) OVER (PARTITION BY utid ORDER BY since
      ROWS BETWEEN UNBOUNDED PRECEDING AND 1 PRECEDING), since)) AS INTEGER) AS since
  FROM (SELECT k.utid, c.place, x.ts AS since, coalesce(z.ts, k.until) AS until
    FROM late_call k JOIN raw_call c USING (place) JOIN side_time x ON x.seq = c.seq
      LEFT JOIN side_time z ON z.seq = c.seq + c.dur_seq
    UNION ALL SELECT k.utid, d.place, x.ts, coalesce(z.ts, k.until)
    FROM (SELECT 1 FROM pool_looper LIMIT 1) CROSS JOIN raw_delivery d CROSS JOIN pool_looper k USING (utid)
      CROSS JOIN raw_record r USING (place) CROSS JOIN raw_thread t USING (utid) CROSS JOIN side_time x ON x.seq = d.seq
      LEFT JOIN raw_record f ON f.place = d.freed_by LEFT JOIN side_time z ON z.seq = f.seq
    WHERE d.utid IN (SELECT utid FROM pool_looper) AND (SELECT p.got FROM late_part p WHERE p.server = k.upid
        AND p.place < coalesce(d.freed_by, 9223372036854775807) ORDER BY p.place DESC LIMIT 1) > r.place
      AND r.flags & :TF_ONE_WAY AND coalesce(f.utid = d.utid, t.last_record = d.place)))
WHERE until > since;
CREATE INDEX temp.busy_at ON busy(utid, since);

-- ---- the pools that were used up

-- Each looper that was there for the whole of a wait was busy for nearly all of it.
CREATE TEMP TABLE full_wait AS
SELECT w.* FROM long_wait w
WHERE EXISTS (SELECT 1 FROM pool_looper k WHERE k.upid = w.server AND k.since <= w.since AND k.until >= w.until)
  AND NOT EXISTS (SELECT 1 FROM pool_looper k WHERE k.upid = w.server AND k.since <= w.since AND k.until >= w.until
    AND coalesce((SELECT b.before + min(b.until, w.until) - b.since FROM busy b
          WHERE b.utid = k.utid AND b.since <= w.until ORDER BY b.since DESC LIMIT 1), 0)
      - coalesce((SELECT b.before + min(b.until, w.since) - b.since FROM busy b
          WHERE b.utid = k.utid AND b.since <= w.since ORDER BY b.since DESC LIMIT 1), 0)
      < :NEARLY_ALL * (w.until - w.since));
CREATE INDEX temp.full_wait_of ON full_wait(place);
-- Where calls waited over :VERY_LONG, these alone say for what.
CREATE TEMP TABLE pool_wait AS
SELECT * FROM full_wait WHERE until - since > :VERY_LONG
  OR server NOT IN (SELECT server FROM full_wait WHERE until - since > :VERY_LONG);
-- The times when such calls waited, each as long as they follow one another.
CREATE TEMP TABLE full_time AS
SELECT server, min(since) AS since, max(until) AS until
FROM (SELECT server, since, until, sum(begins) OVER (PARTITION BY server ORDER BY since, place) AS n
  FROM (SELECT server, place, since, until, coalesce(since > max(until) OVER (PARTITION BY server ORDER BY since, place
      ROWS BETWEEN UNBOUNDED PRECEDING AND 1 PRECEDING), 1) AS begins FROM pool_wait))
GROUP BY server, n;
-- What its loopers were in then, for how long, and who called, if another one did.
CREATE TEMP TABLE kept_by AS
SELECT p.server, b.utid, b.place, min(b.until, p.until) - max(b.since, p.since) AS ns, p.since, p.until,
  b.since AS busy_since, b.until AS busy_until, t.upid AS caller
FROM full_time p CROSS JOIN pool_looper k ON k.upid = p.server CROSS JOIN busy b ON b.utid = k.utid
  AND b.since < p.until AND b.since >= coalesce((SELECT max(x.since) FROM busy x WHERE x.utid = k.utid
    AND x.since <= p.since), p.since)
  LEFT JOIN raw_delivery d ON d.place = b.place LEFT JOIN raw_send s ON s.place = d.send
  LEFT JOIN raw_thread t ON t.utid = s.utid
WHERE b.until > p.since;
-- The same by method, the one that kept them longest first. `own` is a call that a looper makes, and serves none.
CREATE TEMP TABLE kept_by_method AS
SELECT server, place, utid, code, ptr, call, ns, sum(ns) OVER (PARTITION BY server) AS whole,
  row_number() OVER (PARTITION BY server ORDER BY ns DESC, place) AS nth
FROM (SELECT k.server, k.place, k.utid, r.code, r.ptr, max(k.ns), sum(k.ns) AS ns,
    iif(s.place NOTNULL,
      'a call of its own, ' || call_name(r.code, coalesce(n.upid, -t.upid), coalesce(n.ptr, r.handle)),
      iif(r.flags & :TF_ONE_WAY, 'oneway ', '') || call_name(r.code, t.upid, r.ptr)) AS call
  FROM kept_by k JOIN raw_record r USING (place) JOIN raw_thread t ON t.utid = r.utid LEFT JOIN raw_send s USING (place)
    LEFT JOIN node_of n ON n.generation = s.generation
  GROUP BY k.server, call, r.ptr);
-- The process that did so by its calls and oneway sends for nearly all of that time, if these were several, also at once.
CREATE TEMP TABLE kept_by_caller AS
SELECT m.server, c.upid, c.n
FROM kept_by_method m JOIN (
    SELECT server, upid, sum(ns) AS ns, sum(n) AS n, max(n) AS at_once
    FROM (SELECT server, caller AS upid, since, sum(ns) AS ns, count(*) AS n FROM kept_by
      GROUP BY 1, 2, 3)
    GROUP BY 1, 2) c USING (server)
WHERE m.nth = 1 AND c.ns >= :NEARLY_ALL * m.whole AND c.n >= :OFTEN AND c.at_once > 1;
-- A process that answers the calls which loopers make meanwhile, for nearly all of that time.
CREATE TEMP TABLE kept_for AS
SELECT k.server, s.upid, sum(min(coalesce(z.ts, k.until), k.until) - max(x.ts, k.since)) AS ns
FROM kept_by k JOIN raw_call o USING (place) CROSS JOIN raw_call c ON c.utid = k.utid AND c.place >= o.place
    AND c.place < coalesce(o.closer, (SELECT max(place) FROM raw_record)) AND c.served = 0 AND c.depth <= 2
  JOIN sent_to s ON s.place = c.place JOIN side_time x ON x.seq = c.seq
  LEFT JOIN side_time z ON z.seq = c.seq + c.dur_seq
WHERE s.upid > 0 AND x.ts < k.until AND coalesce(z.ts > k.since, 1) GROUP BY 1, 2;
