-- The threads that take calls; those that serve something come first, the longest before others. ?1: the most rows.
-- needs: database/schema.sql: raw_call, raw_record, raw_thread; database/views.sql: open_call, thread, unfreed;
--   database/joined_views.sql: looper
-- makes: columns: upid, thread, tid, serving, ts, age, oneway, code, ptr, interface, client_upid, calling, called_upid,
--   handle, called_ptr, called_code, own_interface
SELECT l.upid, l.thread, t.tid, l.serving, l.ts, l.age, l.oneway, l.code, l.ptr, r.interface, l.client_upid, l.calling,
  l.called_upid, c.handle, l.called_ptr, l.called_code, c.interface AS own_interface
FROM looper l JOIN thread t USING (utid) LEFT JOIN raw_record r ON r.place = l.serving
  LEFT JOIN raw_record c ON c.place = l.calling
ORDER BY l.serving IS NULL, l.calling IS NULL, l.age DESC, l.utid LIMIT ?1
