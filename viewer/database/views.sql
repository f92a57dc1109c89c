-- The views, which docs/DATABASE.md describes. A view can't have parameters, so raw_tables.py puts the numbers in.
-- needs: schema.sql: argument, book_process, capture, data_hash, object_interface, object_service, raw_call,
--   raw_delivery, raw_frame, raw_generation, raw_interface, raw_level, raw_object, raw_process, raw_record, raw_send,
--   raw_service, raw_thread, side_device, side_map, side_pc, side_process, side_thread, side_time, symbol; numbers.sql:
--   cause, kind, sort, verdict; rules/nodes.sql: node_of; rules/matters.sql: traffic; rules/defects.sql: call_text,
--   program
-- makes: views: device, process, thread, frame, record, interface, service, object, call, open_call, unfreed, handle,
--   send, delivery, status, level, reference, listing, came_to, sent_to, node_interface, stack, node_service, talk

CREATE VIEW device AS
SELECT DISTINCT p.device, s.name, s.driver FROM raw_process p LEFT JOIN side_device s USING (device);

-- Also the processes that have no frame, and that the driver's books have. DuckDB reads a UNION only without a function
-- that it lacks, such as iif.
CREATE VIEW process AS
SELECT p.upid, p.device, p.process, coalesce(s.pid, CASE WHEN p.process < :NO_PID THEN p.process END) AS pid, s.name,
  s.opening, s.met, s.opened, s.ended_after, s.ended, p.first_seq, p.last_seq, p.frames, s.command, s.uid
FROM raw_process p LEFT JOIN side_process s USING (device, process)
UNION ALL
SELECT b.upid, b.device, b.pid, b.pid, b.name, NULL, 'in-mid-life', NULL, NULL, NULL, NULL, NULL, 0, NULL, NULL
FROM book_process b;

CREATE VIEW thread AS
SELECT t.utid, t.upid, p.device, p.process, t.thread, coalesce(s.tid, iif(t.thread < :NO_PID, t.thread, NULL)) AS tid,
  s.name, s.ended_after, s.ended, s.why, t.first_seq, t.last_seq, t.frames, t.last_record, t.last_write, s.bits
FROM raw_thread t JOIN raw_process p USING (upid) LEFT JOIN side_thread s USING (device, process, thread);

CREATE VIEW frame AS
SELECT f.seq, f.place, f.utid, t.upid, iif(f.direction = :WRITE, 'write', 'read') AS direction, f.command_length,
  f.attachment_length, f.records, x.ts
FROM raw_frame f JOIN raw_thread t USING (utid) LEFT JOIN side_time x USING (seq);

CREATE VIEW record AS
SELECT r.place, r.seq, r.utid, t.upid, k.name AS kind, r.handle, r.ptr, r.cookie, r.address, r.code, r.flags,
  r.flags & :TF_ONE_WAY AS oneway, r.sender_pid, r.sender_euid, r.data_size, r.offsets_size, r.offsets, r.extra,
  r.attachment, r.value, x.ts, i.name AS interface, v.name AS service, h.hash AS data_hash, g.text AS arguments
FROM raw_record r JOIN raw_thread t USING (utid) LEFT JOIN kind k ON k.number = r.kind
  LEFT JOIN side_time x USING (seq) LEFT JOIN interface i ON i.id = r.interface
  LEFT JOIN service v ON v.id = r.service LEFT JOIN data_hash h USING (place) LEFT JOIN argument g USING (place);

CREATE VIEW interface AS SELECT id, name FROM raw_interface;
CREATE VIEW service AS SELECT id, name FROM raw_service;

CREATE VIEW object AS
SELECT o.place, o.idx, o.offset, s.name AS sort, o.flags, o.binder, o.handle, o.fd, o.cookie, o.num_fds, o.buffer,
  o.length, o.parent, o.parent_offset, c.name AS bad
FROM raw_object o LEFT JOIN sort s ON s.number = o.sort LEFT JOIN cause c ON c.number = o.bad;

-- The reply to the code _NTF names the interface of the node that is asked.
CREATE VIEW call AS
SELECT c.place, c.seq, c.utid, t.upid, iif(c.served, 'served', 'made') AS side, c.depth, c.parent, r.code, r.flags,
  r.handle, s.generation, r.ptr, r.cookie, r.sender_pid, r.data_size, v.name AS verdict, c.closer,
  c.seq + c.dur_seq AS closer_seq, c.dur_seq, b.ts, z.ts - b.ts AS dur, s.delivery, s.certain, i.name AS interface
FROM raw_call c JOIN raw_thread t USING (utid) JOIN raw_record r USING (place)
  LEFT JOIN verdict v ON v.number = c.verdict LEFT JOIN raw_send s ON s.place = c.place
  LEFT JOIN side_time b ON b.seq = c.seq LEFT JOIN side_time z ON z.seq = c.seq + c.dur_seq
  LEFT JOIN raw_record a ON a.place = iif(r.code = :_NTF, c.closer, NULL)
  LEFT JOIN interface i ON i.id = coalesce(r.interface, a.interface);

-- What is open at the end: the calls without an answer, and the deliveries whose buffer was not freed.
CREATE VIEW open_call AS SELECT * FROM raw_call WHERE verdict = 0;
CREATE VIEW unfreed AS SELECT * FROM raw_delivery WHERE freed_by IS NULL;

CREATE VIEW handle AS
SELECT g.id AS generation, g.upid, g.handle, g.n, g.begin, g.end, g.given_by, g.held_since, g.strong, g.weak,
  g.held_strong, g.held_weak, g.acquired, g.released, g.increfs, g.decrefs
FROM raw_generation g;

CREATE VIEW send AS
SELECT s.place, s.seq, s.utid, t.upid, k.name AS kind, r.handle, s.generation, r.code, r.flags,
  r.flags & :TF_ONE_WAY AS oneway,
  r.data_size,
  CASE WHEN s.refused IS NOT NULL THEN 'refused' WHEN s.delivery IS NOT NULL THEN 'delivered'
    WHEN s.confirmed IS NOT NULL THEN 'confirmed' ELSE 'unknown' END AS outcome,
  s.confirmed, s.refused, s.delivery, s.certain, s.fits, x.ts, i.name AS interface
FROM raw_send s JOIN raw_thread t USING (utid) JOIN raw_record r USING (place) LEFT JOIN kind k ON k.number = r.kind
  LEFT JOIN side_time x ON x.seq = s.seq
  LEFT JOIN interface i ON i.id = iif(r.kind IN (:BC_REPLY, :BC_REPLY_SG), NULL, r.interface);

-- The code, the handle and the interface of a BR_REPLY are those of the call that it answers.
CREATE VIEW delivery AS
SELECT d.place, d.seq, d.utid, t.upid, k.name AS kind, r.address, r.data_size,
  iif(r.kind = :BR_REPLY, c.code, r.code) AS code, iif(r.kind = :BR_REPLY, c.handle, NULL) AS handle, r.ptr, r.cookie,
  iif(r.kind = :BR_REPLY, 0, r.flags & :TF_ONE_WAY) AS oneway, d.call, d.send, d.freed_by, f.utid AS freed_by_utid,
  d.dur_seq, d.held,
  b.ts, z.ts - b.ts AS dur, i.name AS interface
FROM raw_delivery d JOIN raw_thread t USING (utid) JOIN raw_record r USING (place)
  LEFT JOIN kind k ON k.number = r.kind LEFT JOIN raw_record c ON c.place = d.call
  LEFT JOIN raw_record f ON f.place = d.freed_by LEFT JOIN side_time b ON b.seq = d.seq
  LEFT JOIN side_time z ON z.seq = d.seq + d.dur_seq
  LEFT JOIN interface i ON i.id = iif(r.kind = :BR_REPLY, c.interface, r.interface);

-- The replies that have a number in place of data. In a redacted capture it is not that number.
CREATE VIEW status AS
SELECT place, status AS value FROM raw_record
WHERE kind = :BR_REPLY AND data_size = 4 AND flags & :TF_STATUS_CODE
  AND NOT EXISTS (SELECT 1 FROM capture WHERE (key, value) = ('payloads', 'redacted'));

CREATE VIEW level AS SELECT upid, slice, buffers, bytes, refs, calls, served FROM raw_level;

-- Each reference that is taken or let go, with the counts after it. The report counts in the same way.
CREATE VIEW reference AS
SELECT r.place, r.seq, r.utid, t.upid, r.handle, k.name AS kind,
  sum((r.kind = :BC_ACQUIRE) - (r.kind = :BC_RELEASE)) OVER changes AS strong,
  sum((r.kind = :BC_INCREFS) - (r.kind = :BC_DECREFS)) OVER changes AS weak
FROM raw_record r JOIN raw_thread t USING (utid) JOIN kind k ON k.number = r.kind
WHERE r.kind BETWEEN :BC_INCREFS AND :BC_DECREFS
WINDOW changes AS (PARTITION BY t.upid, r.handle ORDER BY r.place ROWS UNBOUNDED PRECEDING);

-- A row is a line of `./listing`.
CREATE VIEW listing AS
SELECT r.place, r.seq, p.device, p.process, t.thread, k.name AS kind, r.handle, printf('0x%x', r.ptr) AS ptr,
  printf('0x%x', r.cookie) AS cookie, r.code, r.flags, r.sender_pid, r.data_size, printf('0x%x', r.address) AS address,
  i.name AS interface
FROM raw_record r JOIN raw_thread t USING (utid) JOIN raw_process p USING (upid) LEFT JOIN kind k ON k.number = r.kind
  LEFT JOIN interface i ON i.id = iif(r.kind IN (:BC_REPLY, :BC_REPLY_SG, :BR_REPLY), NULL, r.interface);

-- Which node each transaction reached; and to which one each was sent, or if that is not known, to which handle, with
-- the process that sent it.
CREATE VIEW came_to AS
SELECT d.place, r.code, t.upid, r.ptr, r.interface
FROM raw_delivery d JOIN raw_record r USING (place) JOIN raw_thread t ON t.utid = d.utid WHERE r.kind <> :BR_REPLY;
CREATE VIEW sent_to AS
SELECT s.place, r.code, coalesce(n.upid, -g.upid) AS upid, coalesce(n.ptr, r.handle) AS ptr, r.interface
FROM raw_send s JOIN raw_record r USING (place) JOIN raw_generation g ON g.id = s.generation
  LEFT JOIN node_of n ON n.generation = s.generation;

CREATE VIEW node_interface AS
SELECT o.upid, o.ptr, i.name AS interface, o.n, o.others
FROM object_interface o JOIN interface i ON i.id = o.interface WHERE o.upid > 0;

-- The frames of the stacks. The map of a frame is that of the call from which its function returns to pc.
CREATE VIEW stack AS
SELECT f.stack, f.idx, coalesce(y.inlined, 0) AS inlined, f.pid, f.pc, f.path, f.build_id, f.address, y.function,
  y.source
FROM (SELECT p.stack, p.idx, p.pid, p.pc, m.path, m.build_id,
    CAST(m.address + (p.pc - m.start) AS INTEGER) AS address
  FROM side_pc p LEFT JOIN side_map m ON m.memory = p.memory AND m.end >= p.pc
    AND m.start = (SELECT max(start) FROM side_map x WHERE x.memory = p.memory AND x.start < p.pc)) f
  LEFT JOIN symbol y ON y.build_id = f.build_id AND y.address = f.address;

CREATE VIEW node_service AS
SELECT o.upid, o.ptr, v.name AS service, x.interface, o.registered, o.n, o.others,
  iif(o.registered IS NULL, 'inferred', 'bytes') AS rests_on
FROM object_service o LEFT JOIN service v ON v.id = o.service LEFT JOIN node_interface x USING (upid, ptr)
WHERE o.upid > 0;

-- Who talks to whom, by the names that are the same in another capture.
CREATE VIEW talk AS
SELECT a.program || ' on ' || a.device AS caller, b.program || ' on ' || b.device AS server, x.interface, x.method,
  t.code, x.call, t.oneway, sum(t.sends) AS sends, sum(t.failed) AS failed, sum(t.refused) AS refused,
  sum(t.open) AS open, sum(t.bytes) AS bytes, sum(t.buffers) AS buffers, max(t.longest) AS longest
FROM traffic t JOIN program a ON a.upid = t.upid LEFT JOIN program b ON b.upid = t.node_upid
  JOIN call_text x ON x.code = t.code AND x.upid = coalesce(t.node_upid, -t.upid)
    AND x.ptr = coalesce(t.ptr, t.handle)
GROUP BY a.program, a.device, b.program, b.device, x.interface, x.method, t.code, x.call, t.oneway;
