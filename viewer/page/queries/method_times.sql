-- Methods by the time of their calls, those first that took most of it together; with the users of caller and server, and
-- the device. ?1: the most rows of all callers together, and of each caller; ?2: the processes that are caller or
-- server, as JSON, or NULL.
-- needs: database/schema.sql: call_interface, package, raw_call, raw_delivery, raw_record, raw_send, raw_thread,
--   side_time; database/views.sql: device, process; database/time_views.sql: method_time; rules/nodes.sql: node_of
-- makes: columns: client_upid, server_upid, call, oneway, calls, per_s, median, p95, p99, longest, queue_median,
--   queue_p95, queue_longest, work_median, work_p95, work_longest, client_uid, server_uid, device, client_package,
--   server_package, all_rows
SELECT m.client_upid, m.server_upid, m.call, m.oneway, m.calls, m.per_s, m.median, m.p95, m.p99, m.longest,
  m.queue_median, m.queue_p95, m.queue_longest, m.work_median, m.work_p95, m.work_longest, c.uid AS client_uid,
  s.uid AS server_uid, coalesce(d.name, 'device ' || d.device) AS device,
  (SELECT group_concat(name, ', ') FROM package x WHERE x.uid IN (c.uid, c.uid % 100000)) AS client_package,
  (SELECT group_concat(name, ', ') FROM package x WHERE x.uid IN (s.uid, s.uid % 100000)) AS server_package, m.all_rows
FROM (SELECT *, row_number() OVER (PARTITION BY client_upid IS NULL ORDER BY longest DESC, calls DESC, call) AS nth,
    count(*) OVER (PARTITION BY client_upid IS NULL) AS all_rows FROM method_time
    WHERE ?2 IS NULL OR server_upid IN (SELECT value FROM json_each(?2))
      OR client_upid IN (SELECT value FROM json_each(?2))) m
  LEFT JOIN process c ON c.upid = m.client_upid LEFT JOIN process s ON s.upid = m.server_upid
  LEFT JOIN device d ON d.device = s.device
WHERE m.nth <= ?1 ORDER BY m.client_upid IS NOT NULL, m.nth
