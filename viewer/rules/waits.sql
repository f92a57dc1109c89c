-- What open calls wait for, and what the threads do that could take them.
-- needs: database/schema.sql: book_call, book_open, book_process, finding, raw_call, raw_delivery, raw_process,
--   raw_record, raw_send, raw_thread, side_calls, side_thread, side_time; database/views.sql: came_to, open_call,
--   process, sent_to, thread; records.sql: from_before, to_frozen; ages.sql: last, life, old, process_life; rule.sql:
--   narrowed; judging.py: call_name, duration
-- after: counts.sql
-- makes: temporary tables: waits, few, waits_for, main_thread, ring_step, ring, lock_step, lock_way, lock_ring,
--   own_ring, serves_on, queued, loop, taker, taken, came, occupies, pool, full_pool, pool_ring, step, waited; indexes:
--   waits_id, waits_process, waits_place, waits_thread, waits_server, waits_delivery, next_wait, ring_step_from,
--   lock_step_from, lock_way_from, lock_ring_of, own_ring_of, queued_at, came_place, pool_of, full_pool_of,
--   pool_ring_of, step_from, step_to

-- Open calls, and what they wait for: the innermost call that the thread that got the call has made since; or, for a
-- call that nobody got, the calls of the process that should get it. A call back to a process that waits for this very
-- thread goes to the thread that waits: it is under way.
-- The places of calls from before the recording are below 0, and a thread without a frame is its id below 0.
CREATE TEMP TABLE waits AS
SELECT f.id, f.place, f.upid, f.utid, s.delivery, v.utid AS server, v.verdict AS replied,
  coalesce(st.upid, f.target) AS server_upid, 'the call at ' || f.place AS called
FROM finding f JOIN raw_send s USING (place) LEFT JOIN raw_call v ON v.place = s.delivery
  LEFT JOIN raw_thread st ON st.utid = v.utid
WHERE f.section = 'calls' AND f.what = 'open'
UNION ALL SELECT b.id, b.place, b.upid, coalesce(b.utid, -b.tid), b.delivery, coalesce(b.server_utid, -b.server_tid),
  iif(b.delivery NOTNULL, 0, NULL), b.server, 'the call from before by thread ' || b.tid
FROM from_before b;
-- And served calls whose callers were not recorded.
INSERT INTO waits
SELECT f.id, f.place, NULL, NULL, f.place, f.utid, v.verdict, f.upid, 'the call at ' || f.place
FROM narrowed n CROSS JOIN finding f JOIN raw_delivery d USING (place) JOIN raw_call v USING (place)
WHERE n.processes AND f.section = 'served' AND f.what = 'open' AND d.send IS NULL;
CREATE UNIQUE INDEX temp.waits_id ON waits(id);
CREATE INDEX temp.waits_process ON waits(upid);
CREATE INDEX temp.waits_place ON waits(place);
CREATE INDEX temp.waits_thread ON waits(utid, place);
CREATE INDEX temp.waits_server ON waits(server, upid);
CREATE INDEX temp.waits_delivery ON waits(delivery);
CREATE TEMP TABLE few AS SELECT upid FROM waits GROUP BY upid HAVING count(*) <= :FEW;
CREATE TEMP TABLE waits_for AS
SELECT w.id, (SELECT n.id FROM waits n WHERE n.utid = w.server AND n.place > w.delivery ORDER BY n.place DESC LIMIT 1)
  AS next, 0 AS by_main
FROM waits w WHERE w.delivery IS NOT NULL
UNION SELECT w.id, n.id, 0 FROM waits w JOIN waits n ON n.upid = w.server_upid
WHERE w.delivery IS NULL AND w.upid IN (SELECT upid FROM few) AND w.server_upid IN (SELECT upid FROM few)
  AND NOT EXISTS (SELECT 1 FROM waits x WHERE x.server = w.utid AND x.upid = w.server_upid);
DELETE FROM waits_for WHERE next IS NULL;
-- A thread that got a call and makes none itself may wait for the main thread of its process, which serves for it: so
-- does libgbinder. If the main thread is in a call, the call may wait for that one.
CREATE TEMP TABLE main_thread AS
SELECT p.upid, coalesce(t.utid, -p.pid) AS utid FROM process p LEFT JOIN thread t ON t.upid = p.upid AND t.tid = p.pid
WHERE p.upid IN (SELECT server_upid FROM waits) AND p.pid NOTNULL;
INSERT INTO waits_for
SELECT w.id, (SELECT n.id FROM waits n WHERE n.utid = m.utid ORDER BY n.place DESC LIMIT 1) AS next, 1
FROM waits w JOIN main_thread m ON m.upid = w.server_upid
WHERE w.replied = 0 AND w.server <> m.utid AND w.id NOT IN (SELECT id FROM waits_for) AND next NOTNULL;
CREATE INDEX temp.next_wait ON waits_for(id);
-- What was open throughout may be a long poll: a call that is young is in no ring with it.
CREATE TEMP TABLE ring_step AS
SELECT id, next FROM waits_for
WHERE id NOT IN (SELECT id FROM from_before) AND next NOT IN (SELECT id FROM from_before)
  OR id IN (SELECT id FROM old) AND next IN (SELECT id FROM old);
CREATE INDEX temp.ring_step_from ON ring_step(id);
CREATE TEMP TABLE ring AS
WITH RECURSIVE chain(id, at, length) AS (SELECT id, id, 0 FROM waits
  UNION SELECT c.id, n.next, c.length + 1 FROM chain c JOIN ring_step n ON n.id = c.at WHERE c.length < :STEPS
  LIMIT max(:MOST_STEPS, 2 * :STEPS * (SELECT count(*) FROM waits)))
SELECT DISTINCT w.id FROM chain c JOIN waits w ON w.id = c.id JOIN waits e ON e.id = c.at
WHERE c.length > 0 AND e.server_upid = w.upid AND (e.delivery IS NULL OR e.server <> w.utid
  AND e.replied = 0 AND w.utid IN (SELECT utid FROM main_thread));
INSERT INTO ring SELECT n.next FROM ring_step n JOIN ring r ON r.id = n.id WHERE n.next NOT IN (SELECT id FROM ring);

-- ---- rings over processes

-- A thread that serves a call, makes none, and did nothing in the last :LONG may wait for a lock, and each other thread
-- of its process that is in a call may have that lock: the call may wait for each of these calls. By such steps, and by
-- those from a call to the one that its thread makes, calls of several processes may wait for each other. All of them
-- are old, and were delivered: what nobody got waits for a thread, and for no lock.
CREATE TEMP TABLE lock_step AS
WITH stuck AS (SELECT w.* FROM waits w WHERE w.delivery NOTNULL AND w.replied = 0 AND w.id IN (SELECT id FROM old))
SELECT w.id, n.id AS next, 1 AS by_lock
FROM last, stuck w LEFT JOIN raw_thread t ON t.utid = w.server LEFT JOIN side_time x ON x.seq = t.last_seq
  JOIN stuck n ON n.upid = w.server_upid AND n.utid <> w.server
WHERE w.server_upid IN (SELECT upid FROM few) AND coalesce(last.ts - x.ts > :LONG, 1)
  AND NOT EXISTS (SELECT 1 FROM waits_for f WHERE f.id = w.id AND NOT f.by_main)
UNION ALL
SELECT w.id, n.id, 0 FROM stuck w JOIN waits_for f USING (id) JOIN stuck n ON n.id = f.next WHERE NOT f.by_main;
CREATE INDEX temp.lock_step_from ON lock_step(id);
CREATE TEMP TABLE lock_way AS
WITH RECURSIVE way(id, at, length, by_lock) AS (SELECT id, next, 1, by_lock FROM lock_step
  UNION SELECT w.id, s.next, w.length + 1, max(w.by_lock, s.by_lock) FROM way w JOIN lock_step s ON s.id = w.at
    WHERE w.length < :STEPS AND w.at <> w.id
  LIMIT max(:MOST_STEPS, 2 * :STEPS * (SELECT count(*) FROM waits)))
SELECT DISTINCT id, at, by_lock FROM way;
CREATE INDEX temp.lock_way_from ON lock_way(id, at);
-- The calls of such a ring, each with the first call that it may wait for there.
CREATE TEMP TABLE lock_ring AS
SELECT s.id, min(n.place) AS place, n.id AS next FROM lock_step s JOIN waits n ON n.id = s.next
WHERE s.id IN (SELECT id FROM lock_way WHERE at = id AND by_lock)
  AND EXISTS (SELECT 1 FROM lock_way w WHERE w.id = s.next AND w.at = s.id) GROUP BY s.id;
CREATE UNIQUE INDEX temp.lock_ring_of ON lock_ring(id);

-- ---- rings of one thread

-- A thread that waits in a call of its own may get a call that comes back to it, and serves that within its own one.
-- If it does nothing more, its own call waits for ever too: `outer` is the place of that.
CREATE TEMP TABLE own_ring AS
SELECT w.id, max(o.place) AS outer FROM waits w JOIN finding f USING (id) JOIN old USING (id)
  JOIN waits o ON o.utid = w.server AND o.place < w.delivery JOIN raw_thread t ON t.utid = w.server
  JOIN raw_record r ON r.place = w.delivery
WHERE w.replied = 0 AND f.age > :VERY_LONG AND t.last_seq <= r.seq GROUP BY 1;
CREATE UNIQUE INDEX temp.own_ring_of ON own_ring(id);

-- ---- the pools of threads of processes that should get what waits

-- The threads that serve a call from before the capture, as the side list of a flight recorder or the driver's books
-- say: they have not replied to as many calls as they served then, and had not ended at the last frame.
CREATE TEMP TABLE serves_on AS
SELECT p.upid, coalesce(t.utid, -c.thread) AS utid FROM (SELECT device, process, thread, served FROM side_calls
    UNION ALL SELECT p.device, p.process, coalesce(t.thread, b.tid), count(*)
      FROM book_call b JOIN raw_process p USING (upid) LEFT JOIN raw_thread t ON t.utid = b.utid
      WHERE b.moment = 'begin' AND b.side = 'served' GROUP BY 1, 2, 3
    UNION ALL SELECT p.device, p.pid, b.server_tid, count(*) FROM book_open b JOIN book_process p ON p.upid = b.server
      WHERE b.server_tid NOTNULL GROUP BY 1, 2, 3) c
  JOIN process p USING (device, process) JOIN process_life l USING (upid)
  LEFT JOIN raw_thread t ON t.upid = p.upid AND t.thread = c.thread
  LEFT JOIN side_thread s ON (s.device, s.process, s.thread) = (c.device, c.process, c.thread), last
WHERE coalesce(l.ended_after = last.seq, 1) AND coalesce(s.ended_after >= last.seq, 1)
  AND c.served > (SELECT count(*) FROM finding f JOIN raw_record r USING (place)
    WHERE f.section = 'strays' AND f.utid = t.utid AND r.kind IN (:BC_REPLY, :BC_REPLY_SG));

-- What was sent to a process and waits there: calls and oneway sends that nobody got, but not what waits for a thaw.
CREATE TEMP TABLE queued(id INTEGER, place INTEGER, upid INTEGER);
INSERT INTO queued
SELECT w.id, w.place, w.server_upid AS upid FROM waits w
WHERE w.delivery IS NULL AND w.server_upid NOTNULL
  AND NOT EXISTS (SELECT 1 FROM waits x WHERE x.server = w.utid AND x.upid = w.server_upid)
UNION ALL SELECT id, place, target FROM finding
WHERE section = 'oneway' AND place NOT IN (SELECT place FROM to_frozen);
CREATE INDEX temp.queued_at ON queued(upid);
-- The threads of such a process that may take calls and had not ended at the last frame: those that said that they are
-- loopers, those that were seen to take one, and those that serve one from before the capture. How many there may be at
-- most is not in a capture.
-- beside: records.sql
CREATE TEMP TABLE loop AS
SELECT r.utid, r.kind, max(r.place)
FROM (SELECT 1 FROM finding WHERE section IN ('calls', 'oneway', 'books') LIMIT 1) CROSS JOIN raw_record r
WHERE r.kind IN (:BC_ENTER_LOOPER, :BC_REGISTER_LOOPER, :BC_EXIT_LOOPER)
GROUP BY 1;
CREATE TEMP TABLE taker AS
SELECT t.utid, t.upid, t.last_record, 0 AS earlier
FROM raw_thread t JOIN life l USING (utid) LEFT JOIN loop o USING (utid), last
WHERE t.upid IN (SELECT upid FROM queued) AND coalesce(l.ended_after = last.seq, 1) AND CASE WHEN o.kind IS NULL
  THEN EXISTS (SELECT 1 FROM raw_call c WHERE c.utid = t.utid AND c.served AND c.depth = 1)
  ELSE o.kind <> :BC_EXIT_LOOPER END;
UPDATE taker SET earlier = 1 WHERE utid IN (SELECT utid FROM serves_on);
INSERT INTO taker SELECT s.utid, s.upid, NULL, 1 FROM serves_on s
WHERE s.upid IN (SELECT upid FROM queued) AND NOT EXISTS (SELECT 1 FROM taker t WHERE t.utid = s.utid);
-- What each of them is in: the innermost open call, or else a oneway transaction after which it has done nothing, or a
-- call from before the capture.
CREATE TEMP TABLE taken AS
WITH innermost AS MATERIALIZED (
  SELECT utid, max(place) AS place FROM (SELECT 1 FROM taker LIMIT 1) CROSS JOIN open_call GROUP BY utid)
SELECT k.utid, k.upid, k.earlier, coalesce(c.place, o.place) AS place, c.served, x.ts,
  coalesce(l.ended, last.ts) AS until,
  coalesce((SELECT call_name(v.code, v.upid, v.ptr) FROM came_to v WHERE v.place = r.place),
    (SELECT call_name(v.code, v.upid, v.ptr) FROM sent_to v WHERE v.place = r.place), call_name(r.code, NULL, NULL))
  AS call
FROM last, taker k LEFT JOIN life l ON l.utid = k.utid
  LEFT JOIN innermost i ON i.utid = k.utid LEFT JOIN raw_call c ON c.place = i.place
  LEFT JOIN raw_record o ON o.place = k.last_record AND o.kind IN (:BR_TRANSACTION, :BR_TRANSACTION_SEC_CTX)
    AND o.flags & :TF_ONE_WAY AND c.place IS NULL
  LEFT JOIN raw_record r ON r.place = coalesce(c.place, o.place) LEFT JOIN side_time x ON x.seq = r.seq;
-- The finding of what a thread is in: the open call that it makes or serves, also one from before, or the buffer.
CREATE TEMP TABLE came AS
SELECT id, place, section FROM finding WHERE section IN ('served', 'buffers') AND EXISTS (SELECT 1 FROM taken);
CREATE INDEX temp.came_place ON came(place, section);
CREATE TEMP TABLE occupies AS
SELECT t.upid, coalesce((SELECT w.id FROM waits w WHERE w.delivery = t.place OR w.place = t.place),
  (SELECT c.id FROM came c WHERE c.place = t.place ORDER BY c.section DESC),
  (SELECT w.id FROM waits w WHERE w.server = t.utid AND w.place < 0 AND t.place IS NULL ORDER BY w.delivery DESC))
  AS id
FROM taken t WHERE t.place NOTNULL OR t.earlier;
DELETE FROM occupies WHERE id IS NULL;
-- Of a process that was met in mid-life, other threads may take calls too.
CREATE TEMP TABLE pool AS
SELECT t.upid, count(*) AS threads, sum(t.place NOTNULL OR t.earlier) AS busy,
  (SELECT count(*) FROM queued q WHERE q.upid = t.upid) AS n,
  iif(p.known, iif(count(*) = 1, 'its only looper is', 'its ' || count(*) || ' loopers are'),
      iif(count(*) = 1, 'a looper is', count(*) || ' loopers are')) || ' in '
    || group_concat(DISTINCT iif(t.place IS NULL, iif(t.earlier, 'a call from before the capture', NULL),
      iif(t.served, '', iif(t.served IS NULL, 'oneway ', 'a call of its own, ')) || t.call))
    || iif(max(t.earlier AND t.place IS NULL), '',
      coalesce(' since ' || nullif(duration(max(0, max(t.until) - min(t.ts))), ''), ''))
  AS doing
FROM taken t JOIN process_life p USING (upid) GROUP BY t.upid;
CREATE UNIQUE INDEX temp.pool_of ON pool(upid);
-- A pool of which all threads are in something that is a finding too.
CREATE TEMP TABLE full_pool AS
SELECT upid, n, doing || '; ' || iif(n = 1, '1 send waits', n || ' sends wait') AS doing FROM pool
WHERE threads = busy AND upid IN (SELECT upid FROM occupies);
CREATE UNIQUE INDEX temp.full_pool_of ON full_pool(upid);

-- A call that keeps a full pool busy, of a process that waits for another one: if that one calls back with another
-- thread than the one that got the call, no thread is left to take it. `next` is the first such call back.
CREATE TEMP TABLE pool_ring AS
SELECT k.id, n.id AS next, min(n.place) AS place
FROM last, occupies o JOIN full_pool USING (upid) JOIN waits k ON k.id = o.id AND k.upid = o.upid
  JOIN raw_thread t ON t.utid = k.server JOIN side_time x ON x.seq = t.last_seq
  JOIN waits n ON n.upid = k.server_upid AND n.server_upid = k.upid
WHERE n.delivery IS NULL AND last.ts - x.ts > :LONG
  AND NOT EXISTS (SELECT 1 FROM waits_for f WHERE f.id = k.id AND NOT f.by_main)
GROUP BY 1;
CREATE UNIQUE INDEX temp.pool_ring_of ON pool_ring(id);

-- What waits for what. The steps go from a full pool to what its threads are in, from a call that nobody got to the
-- pool, and from a call to the one that it waits for: a pool is its process below 0.
CREATE TEMP TABLE step AS
SELECT -h.upid AS id, h.id AS next FROM occupies h JOIN full_pool USING (upid)
UNION SELECT w.id, -w.server_upid FROM waits w JOIN full_pool p ON p.upid = w.server_upid WHERE w.delivery IS NULL
UNION SELECT n.id, n.next FROM waits_for n JOIN waits w USING (id) WHERE w.delivery NOTNULL;
CREATE INDEX temp.step_from ON step(id);
CREATE INDEX temp.step_to ON step(next);
-- How many wait for each call, directly or not, and at its pools. waiting.py counts them: the pairs of calls of which
-- one waits for the other may be the square of the calls.
CREATE TEMP TABLE waited(id INTEGER PRIMARY KEY, n INTEGER NOT NULL) STRICT;
