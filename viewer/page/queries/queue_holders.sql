-- What the threads of a server were in while a send waited for one, by caller and method, the longest first. ?1: the
-- place of the send; ?2: the most rows.
-- needs: database/schema.sql: capture, raw_call, raw_delivery, raw_frame, raw_record, raw_send, raw_thread, side_time;
--   database/joined_views.sql: txn; database/time_views.sql: queue_holder; rules/nodes.sql: node_of
-- makes: columns: own, oneway, client_upid, to_upid, to_ptr, code, n, dur, threads
SELECT h.own, h.oneway, t.client_upid, coalesce(n.upid, -t.client_upid) AS to_upid,
  coalesce(n.ptr, t.handle) AS to_ptr, t.code, count(*) AS n, sum(h.dur) AS dur, count(DISTINCT h.utid) AS threads
FROM queue_holder h LEFT JOIN txn t ON t.place = h.send LEFT JOIN node_of n ON n.generation = t.generation
WHERE h.place = ?1 GROUP BY 1, 2, 3, 4, 5, 6 ORDER BY dur DESC LIMIT ?2
