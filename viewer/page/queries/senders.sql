-- The processes that send, the most sends first. ?1: the most rows.
-- needs: database/joined_views.sql: sender
-- makes: columns: upid, uid, calls, oneway, failed, bytes, sends_per_s, bytes_per_s
SELECT upid, uid, calls, oneway, failed, bytes, sends_per_s, bytes_per_s
FROM sender ORDER BY calls + oneway DESC, upid LIMIT ?1
