-- Calls of main threads that took long, by method: how many, the longest, all together, and where the longest is. ?1:
-- the most rows, ?2: how long a call takes at least, in nanoseconds; ?3: the processes that make them, as JSON, or
-- NULL.
-- needs: database/schema.sql: raw_call, raw_record, side_time; database/joined_views.sql: txn
-- makes: columns: client_upid, server_upid, ptr, handle, code, interface, calls, longest, total, place, ts
WITH slow AS MATERIALIZED (
  SELECT c.place FROM raw_call c JOIN side_time x ON x.seq = c.seq JOIN side_time z ON z.seq = c.seq + c.dur_seq
  WHERE NOT c.served AND z.ts - x.ts >= ?2)
SELECT t.client_upid, t.server_upid, t.ptr, t.handle, t.code, r.interface, count(*) AS calls, max(t.dur) AS longest,
  CAST(min(total(t.dur), 9e18) AS INTEGER) AS total, t.place, t.ts
FROM slow JOIN txn t USING (place) JOIN raw_record r USING (place)
WHERE t.main_thread AND (?3 IS NULL OR t.client_upid IN (SELECT value FROM json_each(?3)))
GROUP BY t.client_upid, t.server_upid, t.ptr, t.handle, t.code, r.interface ORDER BY longest DESC LIMIT ?1
