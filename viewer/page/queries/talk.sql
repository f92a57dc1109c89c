-- Who talks to whom, the most sends first, with the users of caller and server, and the device. ?1: the most rows; ?2:
-- the processes that are caller or server, as JSON, or NULL.
-- needs: database/schema.sql: package; database/views.sql: device, process; rules/matters.sql: traffic
-- makes: columns: upid, handle, node_upid, ptr, code, oneway, delivered, one_fits, sends, failed, open, bytes, buffers,
--   buffers_peak, longest, longest_seq, client_uid, server_uid, device, client_package, server_package, all_rows
SELECT t.upid, t.handle, t.node_upid, t.ptr, t.code, t.oneway, t.delivered, t.one_fits, t.sends, t.failed, t.open,
  t.bytes, t.buffers, t.buffers_peak, t.longest, t.longest_seq, c.uid AS client_uid, s.uid AS server_uid,
  coalesce(d.name, 'device ' || c.device) AS device,
  (SELECT group_concat(name, ', ') FROM package x WHERE x.uid IN (c.uid, c.uid % 100000)) AS client_package,
  (SELECT group_concat(name, ', ') FROM package x WHERE x.uid IN (s.uid, s.uid % 100000)) AS server_package, t.all_rows
FROM (SELECT *, count(*) OVER () AS all_rows FROM traffic
    WHERE ?2 IS NULL OR upid IN (SELECT value FROM json_each(?2)) OR node_upid IN (SELECT value FROM json_each(?2))
    ORDER BY sends DESC LIMIT ?1) t
  LEFT JOIN process c ON c.upid = t.upid LEFT JOIN process s ON s.upid = t.node_upid
  LEFT JOIN device d ON d.device = c.device
ORDER BY t.sends DESC
