-- What stays of the things that a process holds some of at the end, or when it ended: the least that it held at any time
-- of each slice. Things are those of growth.sql, from 0 for buffers to 4 for calls being served. Steps count back from
-- the end, since what came before the recording is not known.
-- needs: database/schema.sql: raw_call, raw_delivery, raw_generation, raw_record, raw_slice, raw_thread;
--   database/numbers.sql: kind; database/views.sql: open_call, unfreed
-- makes: columns: thing, upid, slice, least
WITH kept AS MATERIALIZED (
  SELECT 0 AS thing, t.upid, count(*) AS left FROM unfreed d JOIN raw_thread t USING (utid) GROUP BY 2
  UNION ALL SELECT 1, t.upid, CAST(min(total(r.data_size), 9e18) AS INTEGER) FROM unfreed d
    JOIN raw_thread t USING (utid) JOIN raw_record r USING (place) GROUP BY 2
  UNION ALL SELECT 2, upid, sum(strong) FROM raw_generation GROUP BY 2
  UNION ALL SELECT 3 + c.served, t.upid, count(*) FROM open_call c JOIN raw_thread t USING (utid) GROUP BY 1, 2),
some AS MATERIALIZED (SELECT * FROM kept WHERE left > 0),
step AS (
  SELECT k.thing, k.upid, r.seq, 0 AS starts, iif(k.thing, r.data_size, 1) AS by
  FROM raw_delivery d JOIN raw_thread t USING (utid) JOIN raw_record r USING (place) JOIN some k USING (upid)
  WHERE k.thing < 2
  UNION ALL SELECT k.thing, k.upid, f.seq, 0, -iif(k.thing, r.data_size, 1)
  FROM raw_delivery d JOIN raw_thread t USING (utid) JOIN raw_record r USING (place)
    JOIN raw_record f ON f.place = d.freed_by JOIN some k USING (upid) WHERE k.thing < 2
  UNION ALL SELECT k.thing, k.upid, r.seq, 0, iif(n.name = 'BC_ACQUIRE', 1, -1)
  FROM kind n JOIN raw_record r ON r.kind = n.number JOIN raw_thread t USING (utid) JOIN some k USING (upid)
  WHERE n.name IN ('BC_ACQUIRE', 'BC_RELEASE') AND k.thing = 2
  UNION ALL SELECT k.thing, k.upid, c.seq, 0, 1
  FROM raw_call c JOIN raw_thread t USING (utid) JOIN some k ON k.upid = t.upid AND k.thing = 3 + c.served
  UNION ALL SELECT k.thing, k.upid, c.seq + c.dur_seq, 0, -1
  FROM raw_call c JOIN raw_thread t USING (utid) JOIN some k ON k.upid = t.upid AND k.thing = 3 + c.served
  WHERE c.dur_seq NOTNULL
  UNION ALL SELECT k.thing, k.upid, s.first_seq, 1, 0 FROM some k, raw_slice s)
SELECT thing, upid, slice, max(min(level), 0) AS least
FROM (SELECT s.thing, s.upid, sum(s.starts) OVER sofar - 1 AS slice,
    k.left - sum(s.by) OVER (PARTITION BY s.thing, s.upid) + sum(s.by) OVER sofar AS level
  FROM step s JOIN some k USING (thing, upid)
  WINDOW sofar AS (PARTITION BY s.thing, s.upid ORDER BY s.seq, s.starts DESC ROWS UNBOUNDED PRECEDING))
GROUP BY thing, upid, slice
