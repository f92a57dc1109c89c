-- A call, and the calls that were made within it, in their order, each with its own time. ?1: the place of the call.
-- needs: database/schema.sql: raw_call, raw_record, raw_send; database/views.sql: thread; database/joined_views.sql:
--   txn; database/time_views.sql: call_tree; rules/nodes.sql: node_of
-- makes: columns: level, place, is_unknown, ts, since, dur, queue, work, below, back, why, is_open, certain,
--   client_upid, client_tid, main_thread, server_upid, server_tid, server_thread, to_upid, to_ptr, code, interface,
--   outcome
SELECT c.level, c.place, c.is_unknown, t.ts, c.since, c.dur, c.queue, c.work, c.below, c.back, c.why, c.is_open,
  c.certain, t.client_upid, u.tid AS client_tid, t.main_thread, t.server_upid, g.tid AS server_tid,
  g.name AS server_thread, coalesce(n.upid, -t.client_upid) AS to_upid, coalesce(n.ptr, t.handle) AS to_ptr, t.code,
  r.interface, t.outcome
FROM call_tree c JOIN txn t USING (place) JOIN raw_record r USING (place) LEFT JOIN thread u ON u.utid = t.client_utid
  LEFT JOIN thread g ON g.utid = t.server_utid LEFT JOIN node_of n ON n.generation = t.generation
WHERE c.root = ?1 ORDER BY c.n
