-- Views that join what a question needs: both ends of a transaction, with times, names and outcome; who holds whose
-- object; who asked to be told of whose death; descriptors; loopers and what they serve; and senders in sum. They have
-- numbers in place of names, and joined lines, as views.sql has.
-- needs: schema.sql: argument, book_handle, capture, finding, method, object_interface, object_service, package,
--   raw_call, raw_capture, raw_delivery, raw_generation, raw_interface, raw_object, raw_process, raw_record, raw_send,
--   raw_service, raw_thread, side_device, side_process, side_thread, side_time; numbers.sql: kind, verdict;
--   rules/nodes.sql: node_of, who; rules/matters.sql: traffic; rules/defects.sql: call_text
-- makes: views: txn, holder, death_request, fd_sent, looper, sender

-- The outcome of a call is how its thread saw it end; that of a oneway transaction is what became of it at the driver.
CREATE VIEW txn AS
SELECT
  s.place,
  s.seq,
  b.ts,
  (r.flags & :TF_ONE_WAY) <> 0 AS oneway,
  t.upid AS client_upid,
  s.utid AS client_utid,
  wc.who AS client,
  coalesce(u.tid, t.thread) = coalesce(q.pid, p.process) AS main_thread,
  r.handle,
  s.generation,
  coalesce(g.upid, n.upid) AS server_upid,
  d.utid AS server_utid,
  ws.who AS server,
  coalesce(e.ptr, n.ptr) AS ptr,
  coalesce(i.name, k.interface) AS interface,
  r.code,
  coalesce(m.method, k.method) AS method,
  coalesce(coalesce(i.name, k.interface) || coalesce('.' || coalesce(m.method, k.method), ' code ' || r.code),
    'code ' || r.code) AS call,
  r.data_size,
  r.offsets_size,
  a.data_size AS reply_size,
  CASE WHEN s.refused NOTNULL THEN 'refused' WHEN c.place NOTNULL THEN v.name WHEN d.place NOTNULL THEN 'delivered'
    WHEN s.confirmed NOTNULL THEN 'confirmed' ELSE 'unknown' END AS outcome,
  f.name AS error,
  s.delivery,
  d.freed_by,
  coalesce(c.closer, s.refused) AS closer,
  y.ts - b.ts AS wait,
  z.ts - b.ts AS dur,
  s.certain,
  coalesce(sd.name, 'device ' || p.device) AS device,
  q.uid AS client_uid,
  (SELECT group_concat(name) FROM package x WHERE x.uid = q.uid OR x.uid = q.uid % 100000) AS client_package,
  sq.uid AS server_uid,
  (SELECT group_concat(name) FROM package x WHERE x.uid = sq.uid OR x.uid = sq.uid % 100000) AS server_package,
  ga.text AS arguments,
  gr.text AS returned
FROM raw_send s JOIN raw_record r USING (place) JOIN raw_thread t USING (utid) JOIN raw_process p USING (upid)
  LEFT JOIN side_thread u USING (device, process, thread) LEFT JOIN side_process q USING (device, process)
  LEFT JOIN side_device sd ON sd.device = p.device
  LEFT JOIN raw_call c USING (place) LEFT JOIN verdict v ON v.number = c.verdict
  LEFT JOIN raw_delivery d ON d.place = s.delivery LEFT JOIN raw_record e ON e.place = d.place
  LEFT JOIN raw_thread g ON g.utid = d.utid LEFT JOIN node_of n ON n.generation = s.generation
  LEFT JOIN who wc ON wc.upid = t.upid LEFT JOIN who ws ON ws.upid = coalesce(g.upid, n.upid)
  LEFT JOIN raw_process sp ON sp.upid = coalesce(g.upid, n.upid)
  LEFT JOIN side_process sq ON (sq.device, sq.process) = (sp.device, sp.process)
  LEFT JOIN call_text k ON (k.code, k.upid, k.ptr) = (r.code, coalesce(n.upid, -t.upid), coalesce(n.ptr, r.handle))
  LEFT JOIN raw_interface i ON i.id = r.interface LEFT JOIN method m ON (m.interface, m.code) = (i.name, r.code)
  LEFT JOIN raw_record x ON x.place = coalesce(s.refused, iif(c.verdict = 3, c.closer, NULL))
  LEFT JOIN kind f ON f.number = x.kind LEFT JOIN raw_record a ON a.place = iif(c.verdict = 1, c.closer, NULL)
  LEFT JOIN side_time b ON b.seq = s.seq LEFT JOIN side_time y ON y.seq = d.seq
  LEFT JOIN side_time z ON z.seq = c.seq + c.dur_seq
  LEFT JOIN argument ga ON ga.place = s.place LEFT JOIN argument gr ON gr.place = iif(c.verdict = 1, c.closer, NULL)
WHERE r.kind IN (:BC_TRANSACTION, :BC_TRANSACTION_SG);

-- A row for each handle that a process holds at the end, unless it ended before the last frame. Its counts are those of
-- the capture, with those that the driver's books have of the beginning: references from before, and handles that no
-- record names.
CREATE VIEW holder AS
SELECT
  h.upid,
  wh.who,
  h.handle,
  h.generation,
  h.strong,
  h.weak,
  h.buffers,
  h.given_by,
  h.held_since,
  x.ts AS since,
  coalesce(n.upid, h.node_upid) AS owner_upid,
  wo.who AS owner,
  coalesce(n.ptr, h.ptr) AS ptr,
  i.name AS interface,
  v.name AS service
FROM (
    SELECT g.upid, g.handle, g.id AS generation, coalesce(b.strong + c.strong, g.strong) AS strong,
      coalesce(b.weak + c.weak, g.weak) AS weak, g.held_strong + g.held_weak AS buffers, g.given_by, g.held_since,
      NULL AS node_upid, NULL AS ptr
    FROM (SELECT max(id) AS id, sum(acquired - released) AS strong, sum(increfs - decrefs) AS weak FROM raw_generation
        GROUP BY upid, handle) c
      JOIN raw_generation g USING (id)
      LEFT JOIN book_handle b ON (b.moment, b.upid, b.handle) = ('begin', g.upid, g.handle)
    UNION ALL
    SELECT b.upid, b.handle, NULL, b.strong, b.weak, 0, NULL, NULL, b.node_upid, b.ptr
    FROM book_handle b
    WHERE b.moment = 'begin'
      AND NOT EXISTS (SELECT 1 FROM raw_generation g WHERE (g.upid, g.handle) = (b.upid, b.handle))) h
  LEFT JOIN raw_record r ON r.place = h.held_since LEFT JOIN side_time x USING (seq)
  LEFT JOIN node_of n USING (generation)
  LEFT JOIN who wh ON wh.upid = h.upid LEFT JOIN who wo ON wo.upid = coalesce(n.upid, h.node_upid)
  LEFT JOIN object_interface j ON (j.upid, j.ptr) = (coalesce(n.upid, h.node_upid), coalesce(n.ptr, h.ptr))
  LEFT JOIN raw_interface i ON i.id = j.interface
  LEFT JOIN object_service o ON (o.upid, o.ptr) = (coalesce(n.upid, h.node_upid), coalesce(n.ptr, h.ptr))
  LEFT JOIN raw_service v ON v.id = o.service
WHERE (h.strong > 0 OR h.weak > 0 OR h.buffers > 0) AND h.upid NOT IN (
  SELECT p.upid FROM raw_process p JOIN side_process s USING (device, process), raw_capture c
  WHERE s.ended_after < c.last_seq);

-- The next record of a process with the cookie of a request ends it: a clear, or the news of the death. A second
-- request does not.
CREATE VIEW death_request AS
SELECT
  q.place,
  q.seq,
  x.ts,
  q.upid,
  wq.who,
  q.handle,
  q.cookie,
  q.generation,
  n.upid AS owner_upid,
  wo.who AS owner,
  n.ptr,
  i.name AS interface,
  v.name AS service,
  CASE WHEN u.place IS NOT NULL THEN 'unread' WHEN q.ended_by IS NULL THEN 'waiting'
    WHEN e.kind = :BR_DEAD_BINDER THEN 'notified' ELSE 'cleared' END AS outcome,
  q.ended_by,
  y.ts AS ended
FROM (
    SELECT r.*,
      (SELECT g.id FROM raw_generation g WHERE g.upid = r.upid AND g.handle = r.handle AND g.begin <= r.place
        ORDER BY g.begin DESC LIMIT 1) AS generation
    FROM (
        SELECT r.place, r.seq, t.upid, r.kind, r.handle, r.cookie,
          min(CASE WHEN r.kind <> :BC_REQUEST_DEATH_NOTIFICATION THEN r.place END) OVER (PARTITION BY t.upid, r.cookie
            ORDER BY r.place DESC ROWS BETWEEN UNBOUNDED PRECEDING AND 1 PRECEDING) AS ended_by
        FROM raw_record r JOIN raw_thread t USING (utid)
        WHERE r.kind IN (:BC_REQUEST_DEATH_NOTIFICATION, :BC_CLEAR_DEATH_NOTIFICATION, :BR_DEAD_BINDER)) r
    WHERE r.kind = :BC_REQUEST_DEATH_NOTIFICATION) q
  LEFT JOIN raw_record e ON e.place = q.ended_by
  LEFT JOIN (SELECT place FROM finding WHERE rule IN ('D12', 'D13')) u ON u.place = q.place
  LEFT JOIN node_of n USING (generation)
  LEFT JOIN who wq ON wq.upid = q.upid LEFT JOIN who wo ON wo.upid = n.upid
  LEFT JOIN object_interface j ON (j.upid, j.ptr) = (n.upid, n.ptr) LEFT JOIN raw_interface i ON i.id = j.interface
  LEFT JOIN object_service o ON (o.upid, o.ptr) = (n.upid, n.ptr)
  LEFT JOIN raw_service v ON v.id = o.service
  LEFT JOIN side_time x ON x.seq = q.seq LEFT JOIN side_time y ON y.seq = e.seq;

-- A row for each FD object, and for each FDA object, which has `count` descriptors. First those that came, then those
-- of sends without a delivery. The call is that by which they went, or that which the reply answers.
CREATE VIEW fd_sent AS
SELECT
  f.sent,
  f.received,
  f.idx,
  x.ts,
  f.sender_upid,
  ws.who AS sender,
  f.receiver_upid,
  wr.who AS receiver,
  f.reply,
  k.interface,
  f.code,
  k.method,
  coalesce(k.call, 'code ' || f.code) AS call,
  f.count,
  f.fd,
  f.received_fd
FROM (
    SELECT d.send AS sent, d.place AS received, a.idx, d.seq, s.upid AS sender_upid, t.upid AS receiver_upid,
      r.kind = :BR_REPLY AS reply, coalesce(c.code, r.code) AS code, coalesce(n.upid, -g.upid, t.upid) AS upid,
      coalesce(n.ptr, c.handle, r.ptr) AS ptr, coalesce(a.num_fds, 1) AS count, o.fd, a.fd AS received_fd
    FROM raw_object a JOIN raw_delivery d USING (place) JOIN raw_record r USING (place)
      JOIN raw_thread t ON t.utid = d.utid
      LEFT JOIN raw_send w ON w.place = d.send LEFT JOIN raw_thread s ON s.utid = w.utid
      LEFT JOIN raw_object o ON (o.place, o.idx) = (d.send, a.idx)
      LEFT JOIN raw_record c ON r.kind = :BR_REPLY AND c.place = d.call
      LEFT JOIN raw_send e ON e.place = c.place LEFT JOIN raw_generation g ON g.id = e.generation
      LEFT JOIN node_of n ON n.generation = e.generation
    WHERE a.sort IN (:FD, :FDA)
    UNION ALL
    SELECT s.place, NULL, o.idx, s.seq, t.upid, n.upid, r.kind IN (:BC_REPLY, :BC_REPLY_SG), r.code,
      coalesce(n.upid, -g.upid), coalesce(n.ptr, r.handle), coalesce(o.num_fds, 1), o.fd, NULL
    FROM raw_object o JOIN raw_send s USING (place) JOIN raw_record r USING (place)
      JOIN raw_thread t ON t.utid = s.utid LEFT JOIN raw_generation g ON g.id = s.generation
      LEFT JOIN node_of n ON n.generation = s.generation
    WHERE o.sort IN (:FD, :FDA) AND s.delivery IS NULL) f
  LEFT JOIN who ws ON ws.upid = f.sender_upid LEFT JOIN who wr ON wr.upid = f.receiver_upid
  LEFT JOIN call_text k ON (k.code, k.upid, k.ptr) = (f.code, f.upid, f.ptr)
  LEFT JOIN side_time x ON x.seq = f.seq;

-- A row for each thread that takes calls: it says that it is a looper, or was seen to serve a call that came within no
-- other one. What it serves at the end is the innermost call, or a oneway transaction after which it did nothing; what
-- it calls is its innermost call without an answer, if that came later. Threads that ended before the last frame are
-- left out.
CREATE VIEW looper AS
WITH said AS MATERIALIZED (
    SELECT utid, max(CASE WHEN kind <> :BC_EXIT_LOOPER THEN place END) AS entered,
      max(kind = :BC_REGISTER_LOOPER) AS spawned,
      max(CASE WHEN kind = :BC_EXIT_LOOPER THEN place ELSE 0 END) AS left_at
    FROM raw_record WHERE kind IN (:BC_ENTER_LOOPER, :BC_REGISTER_LOOPER, :BC_EXIT_LOOPER) GROUP BY utid),
  taker AS (
    SELECT utid, entered, spawned FROM said WHERE entered > left_at
    UNION ALL
    SELECT DISTINCT utid, NULL, NULL FROM raw_call
    WHERE served AND depth = 1 AND utid NOT IN (SELECT utid FROM said)),
  unanswered AS MATERIALIZED (
    SELECT utid, max(CASE WHEN served THEN place END) AS serving, max(CASE WHEN served THEN 0 ELSE place END) AS calling
    FROM open_call GROUP BY utid),
  at_work AS MATERIALIZED (
    SELECT k.utid, k.entered, k.spawned, coalesce(u.serving, d.place) AS serving,
      CASE WHEN u.calling > coalesce(u.serving, d.place, 0) THEN u.calling END AS calling
    FROM taker k LEFT JOIN unanswered u USING (utid) LEFT JOIN raw_thread t USING (utid)
      LEFT JOIN raw_record r ON r.place = t.last_record AND r.kind IN (:BR_TRANSACTION, :BR_TRANSACTION_SEC_CTX)
        AND r.flags & :TF_ONE_WAY
      LEFT JOIN unfreed d ON d.place = r.place)
SELECT
  l.utid,
  t.upid,
  wt.who,
  u.name AS thread,
  l.entered,
  l.spawned,
  l.serving,
  r.seq,
  (r.flags & :TF_ONE_WAY) <> 0 AS oneway,
  x.ts,
  CASE WHEN l.serving NOTNULL THEN CAST((SELECT value FROM capture WHERE key = 'until_ts') AS BIGINT) - x.ts END AS age,
  coalesce(i.name, k.interface) AS interface,
  r.ptr,
  r.code,
  coalesce(m.method, k.method) AS method,
  coalesce(coalesce(i.name, k.interface) || coalesce('.' || coalesce(m.method, k.method), ' code ' || r.code),
    'code ' || r.code) AS call,
  s.upid AS client_upid,
  ws.who AS client,
  d.send,
  l.calling,
  coalesce(n.upid, -g.upid) AS called_upid,
  wq.who AS called,
  coalesce(n.ptr, q.handle) AS called_ptr,
  y.interface AS called_interface,
  q.code AS called_code,
  y.method AS called_method,
  coalesce(y.call, 'code ' || q.code) AS called_call
FROM at_work l
  JOIN raw_thread t USING (utid) JOIN raw_process p USING (upid), raw_capture z
  LEFT JOIN side_thread u USING (device, process, thread)
  LEFT JOIN raw_record r ON r.place = l.serving LEFT JOIN raw_interface i ON i.id = r.interface
  LEFT JOIN call_text k ON (k.code, k.upid, k.ptr) = (r.code, t.upid, r.ptr)
  LEFT JOIN method m ON (m.interface, m.code) = (i.name, r.code)
  LEFT JOIN raw_delivery d ON d.place = l.serving
  LEFT JOIN raw_send w ON w.place = d.send LEFT JOIN raw_thread s ON s.utid = w.utid
  LEFT JOIN raw_record q ON q.place = l.calling LEFT JOIN raw_send o ON o.place = l.calling
  LEFT JOIN raw_generation g ON g.id = o.generation LEFT JOIN node_of n ON n.generation = o.generation
  LEFT JOIN call_text y ON (y.code, y.upid, y.ptr) = (q.code, coalesce(n.upid, -g.upid), coalesce(n.ptr, q.handle))
  LEFT JOIN who wt ON wt.upid = t.upid LEFT JOIN who ws ON ws.upid = s.upid LEFT JOIN who wq ON wq.upid = n.upid
  LEFT JOIN side_time x ON x.seq = r.seq
WHERE u.ended_after IS NULL OR u.ended_after >= z.last_seq;

-- The rates are for the whole time of the capture, and NULL without a side list.
CREATE VIEW sender AS
SELECT
  a.upid,
  w.who,
  s.uid,
  a.calls,
  a.oneway,
  a.failed,
  a.bytes,
  (a.calls + a.oneway) / b.seconds AS sends_per_s,
  a.bytes / b.seconds AS bytes_per_s
FROM (
    SELECT upid, sum(CASE WHEN oneway THEN 0 ELSE sends END) AS calls,
      sum(CASE WHEN oneway THEN sends ELSE 0 END) AS oneway, sum(failed) AS failed, sum(bytes) AS bytes
    FROM traffic GROUP BY upid) a
  JOIN raw_process p USING (upid) LEFT JOIN side_process s USING (device, process) LEFT JOIN who w USING (upid),
  (SELECT nullif(CAST((SELECT value FROM capture WHERE key = 'until_ts') AS BIGINT)
    - CAST((SELECT value FROM capture WHERE key = 'first_ts') AS BIGINT), 0) / 1e9 AS seconds) b;
