-- The most that each process held, and what it holds at the very end or held at its own end; those that hold most then
-- come first. Of its buffers, how much space the driver has given for data and offsets, each rounded up to 8 bytes, and
-- how much of this for oneway transactions. A call ends with its thread. ended_slice: the slice of its end, if it has
-- one. ?1: the most rows.
-- needs: database/schema.sql: raw_capture, raw_generation, raw_level, raw_record, raw_slice, raw_thread;
--   database/numbers.sql: flag, kind; database/views.sql: open_call, process, thread, unfreed
-- makes: columns: upid, ended, space, oneway_space, buffers, buffers_left, bytes, bytes_left, refs, refs_left, calls,
--   calls_left, served, served_left, ended_slice
WITH lived AS MATERIALIZED (SELECT p.upid, iif(p.ended_after <= c.last_seq, p.ended_after, NULL) AS ended_after,
    (SELECT max(slice) FROM raw_slice WHERE first_seq <= p.ended_after) AS slice FROM process p, raw_capture c),
  left_over AS MATERIALIZED (
    SELECT upid, count(*) AS buffers, min(total(data_size), 9e18) AS bytes, min(total(space), 9e18) AS space,
      min(total(iif(oneway, space, 0)), 9e18) AS oneway
    FROM (SELECT t.upid, r.data_size, k.name <> 'BR_REPLY' AND r.flags & f.number AS oneway,
        max(8, (r.data_size + 7) / 8 * 8 + (r.offsets_size + 7) / 8 * 8) AS space
      FROM unfreed d JOIN raw_record r USING (place) JOIN raw_thread t ON t.utid = d.utid
        JOIN kind k ON k.number = r.kind JOIN flag f ON f.name = 'TF_ONE_WAY') GROUP BY 1),
  calling AS MATERIALIZED (
    SELECT t.upid, sum(NOT c.served) AS calls, sum(c.served) AS served FROM open_call c JOIN thread t USING (utid)
      JOIN lived v USING (upid), raw_capture x
    WHERE t.ended_after IS NULL OR t.ended_after >= coalesce(v.ended_after, x.last_seq + 1)
    GROUP BY 1),
  counted AS MATERIALIZED (SELECT upid, sum(strong) AS refs FROM raw_generation GROUP BY 1),
  levels AS (SELECT l.upid, l.slice, v.slice IS NOT NULL AND l.slice > v.slice AND v.ended_after IS NOT NULL AS ended,
      l.buffers, l.bytes, l.refs, l.calls, l.served
    FROM raw_level l JOIN lived v USING (upid) ORDER BY l.upid, l.slice)
SELECT l.upid, v.ended_after IS NOT NULL AS ended,
  CAST(coalesce(b.space, 0) AS INTEGER) AS space, CAST(coalesce(b.oneway, 0) AS INTEGER) AS oneway_space,
  max(iif(l.ended, 0, l.buffers)) AS buffers, coalesce(b.buffers, 0) AS buffers_left,
  max(iif(l.ended, 0, l.bytes)) AS bytes, CAST(coalesce(b.bytes, 0) AS INTEGER) AS bytes_left,
  max(iif(l.ended, 0, l.refs)) AS refs, coalesce(g.refs, 0) AS refs_left,
  max(iif(l.ended, 0, l.calls)) AS calls, coalesce(o.calls, 0) AS calls_left,
  max(iif(l.ended, 0, l.served)) AS served, coalesce(o.served, 0) AS served_left,
  iif(v.ended_after NOTNULL, v.slice, NULL) AS ended_slice
FROM levels l JOIN lived v USING (upid) LEFT JOIN left_over b USING (upid) LEFT JOIN calling o USING (upid)
  LEFT JOIN counted g USING (upid)
GROUP BY l.upid ORDER BY buffers_left DESC, calls_left + served_left DESC, refs_left DESC, max(l.buffers) DESC, l.upid
LIMIT ?1
