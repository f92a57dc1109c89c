-- A, C, T, U: calls and served calls that are open.
-- needs: database/schema.sql: finding, raw_call, raw_delivery, raw_record, raw_thread, side_time; nodes.sql: who;
--   records.sql: from_before; paths.sql: path_of; ages.sql: ended, last, life, old; rule.sql: lossy; waits.sql:
--   full_pool, lock_ring, own_ring, pool, pool_ring, ring, step, waited, waits, waits_for; pools.sql: full_wait;
--   judging.py: counted, duration
-- makes: temporary tables: keeps_busy

-- ---- what findings are called

-- calls open are called: calls without an answer
-- calls crossed are called: calls closed by what is no answer
-- served open are called: served calls not replied
-- served crossed are called: served calls closed by what is no reply
-- books are called: calls open throughout

-- ---- the rules

-- B1 maybe: Open throughout, by the driver's books of beginning and end: a long poll, or it hangs.
--   next: whether the call waits for an event; else what the server's thread does, by its stack
--   of a part: what its process or its server does is not recorded
--   met by: `open_throughout()`
-- C1 maybe: The server replied over {LONG} before the calling thread ended, and the thread never read the reply.
--   next: why the caller's thread went on without reading, and ended
--   rests on: LONG
--   met by: `unread`: a client never reads a reply
-- C2 explained: It was answered, and its thread had not read the answer yet.
--   rests on: LONG
--   met by: `answer_unread()`: the reply is 50 ms old at the end
-- C3 real: Each waits for the other: the calls go round in a ring.
--   next: the call that closes the ring: its process calls a process that it serves meanwhile
--   rests on: OLD, LONG
--   met by: `embrace`: two processes call each other
--   where frames are missing: M2
--   ring: yes
-- C4 maybe: It was delivered, and not replied.
--   next: what the server's thread has done since it got the call
--   met by: `hung`: a service never replies
-- C5 maybe: No answer, and no delivery that fits.
--   next: whether the server takes calls at all, and which objects its handles lead to
--   met by: `hangs_nowhere()`: a call to a handle whose node is not known
-- C6 real: It keeps a thread busy in a pool that has no free thread, and sends wait there.
--   next: what the server's thread has done since it got the call; then how many threads the pool has
--   rests on: VERY_LONG, OLD, LONG
--   met by: `hello-stuck`: the only looper never comes back from `waitForever`
--   title: calls that keep a pool busy
--   where frames are missing: M2
-- C7 explained: It waits for another call, or for a pool that is busy with others.
--   rests on: OLD, LONG
--   met by: `others_queue()`: two calls wait for a service whose only looper hangs
-- C8 real: A ring over processes, mostly of locks, for over {OLD} times as long as others of its path took.
--   next: the locks that the threads of the ring hold while they call
--   rests on: ENOUGH, OLD, LONG
--   met by: `ring_of_locks()`: each of two services serves a call of the other one, and does nothing more
--   where frames are missing: M2
--   ring: yes
-- C9 maybe: A ring over processes, mostly of locks: each keeps a call for which the next one waits.
--   next: the locks that the threads of the ring hold while they call
--   rests on: OLD, LONG
--   met by: `ring_of_locks()`, with two earlier calls of each path
--   ring: yes

-- C10 real: Its thread got it within a call of its own, and hangs in it for over {VERY_LONG}: mostly for its own lock.
--   next: the lock that the thread holds over the outer call, at the place in the note, and takes again in this one
--   rests on: VERY_LONG, OLD, LONG
--   met by: `comes_back_and_hangs()`: a call comes back to a thread that waits, and that never replies
--   where frames are missing: M2
--   ring: yes
-- C11 real: A ring through a pool: its process, or that which should get it, waits and has no free thread for a call
--     back.
--   next: how many threads the pool has, and what calls out of it while it serves: the call back needs one more
--   rests on: VERY_LONG, OLD, LONG
--   met by: `calls_back_to_a_full_pool()`: a service calls a client with its only looper, and another thread calls back
--   where frames are missing: M2
--   ring: yes
-- C12 maybe: No answer, and the process that should answer was not recorded.
--   next: the copy of the driver's transactions at the end, which has all processes: which thread has the call
--   met by: `calls_what_is_not_recorded()`: a client is recorded, and not the service that hangs
-- C13 maybe: It was delivered, and not replied; whether its caller still waits was not recorded.
--   next: what the thread has done since it got the call; whether the caller lives, by the driver's transactions
--   met by: `serves_what_is_not_recorded()`: a service is recorded, and not its client

-- ---- what they say of which finding

-- A: one finding with an open call.
UPDATE finding SET rule = 'A1', lead = w.id FROM waits w
WHERE section IN ('served', 'buffers') AND w.delivery = finding.place AND w.id <> finding.id
  AND (w.replied = 0 OR section = 'served');
-- A call that failed because its server ended, and the served call there.
UPDATE finding SET rule = 'A1', lead = f.id
FROM raw_delivery d JOIN raw_call c ON c.place = d.send JOIN raw_record e ON e.place = c.closer
  JOIN finding f ON f.place = c.place
WHERE finding.rule IS NULL AND finding.section = 'served' AND finding.what = 'open' AND d.place = finding.place
  AND +f.section = 'calls' AND e.kind = :BR_DEAD_REPLY;
UPDATE finding SET rule = 'A1', lead = coalesce(v.lead, v.id) FROM finding v
WHERE finding.rule IS NULL AND finding.section = 'buffers' AND +v.section = 'served' AND v.what = 'open'
  AND v.place = finding.place;

-- C, T, U: calls and served calls that are open.
UPDATE finding SET rule = 'T1' WHERE rule IS NULL AND section IN ('calls', 'served') AND what = 'open'
  AND finding.id IN (SELECT id FROM ended);
-- An answer that came after the end of its thread found nobody; one that came before may have been read late.
UPDATE finding SET rule = CASE WHEN l.ended_after < c.seq + c.dur_seq THEN 'T1'
    WHEN coalesce(l.ended, last.ts) - (SELECT ts FROM side_time x WHERE x.seq = c.seq + c.dur_seq) > :LONG THEN 'C1'
    ELSE 'C2' END,
  said = 'replied at {other}',
  other = c.closer
FROM waits w JOIN raw_call c ON c.place = w.delivery JOIN life l ON l.utid = w.utid, last
WHERE rule IS NULL AND w.id = finding.id AND w.replied = 2;
UPDATE finding SET rule = 'C3'
WHERE rule IS NULL AND id IN (SELECT id FROM ring) AND finding.id IN (SELECT id FROM old);
UPDATE finding SET rule = 'C8'
WHERE rule IS NULL AND id IN (SELECT id FROM lock_ring) AND n_good >= :ENOUGH;
UPDATE finding SET rule = 'C10', other = o.outer FROM own_ring o WHERE rule IS NULL AND o.id = finding.id;
-- What waits for another call, and the call that a full pool waits for. If frames are missing, a delivery may be too.
UPDATE finding SET waiting = w.n FROM waited w WHERE w.id = finding.id;
UPDATE finding SET rule = 'C7', note = coalesce((SELECT p.doing FROM waits w JOIN full_pool p ON p.upid = w.server_upid
    WHERE w.id = finding.id AND w.delivery IS NULL), (SELECT n.called FROM waits_for f JOIN waits n ON n.id = f.next
    WHERE f.id = finding.id))
WHERE rule IS NULL AND upid NOT IN (SELECT upid FROM lossy) AND coalesce(target, 0) NOT IN (SELECT upid FROM lossy)
  AND id IN (SELECT w.id FROM waits w WHERE w.delivery IS NULL AND w.server_upid IN (SELECT upid FROM full_pool)
    UNION SELECT f.id FROM waits_for f JOIN waits w USING (id) WHERE w.delivery NOTNULL AND NOT f.by_main);
-- Or waited for a pool that was used up, and since then only for a while.
UPDATE finding SET rule = 'C7', said = 'it waited {how_long} for a looper', how_long = l.until - l.since
FROM full_wait l
WHERE rule IS NULL AND section = 'calls' AND what = 'open' AND l.place = finding.place
  AND age - (l.until - l.since) <= max(:LONG, :OLD * coalesce(longest, 0));
UPDATE finding SET rule = 'U1' WHERE rule IS NULL AND section IN ('calls', 'served', 'books') AND what = 'open'
  AND n_good >= :ENOUGH AND coalesce(age <= :USUAL * longest, age_seq <= :USUAL * longest_seq);
-- What the pools lead to in which an old call waits for long.
CREATE TEMP TABLE keeps_busy AS
WITH RECURSIVE way(at) AS (SELECT -w.server_upid FROM waits w JOIN finding q USING (id) JOIN old USING (id)
    WHERE w.delivery IS NULL AND q.rule = 'C7' AND q.age > :VERY_LONG
  UNION SELECT s.next FROM way w JOIN step s ON s.id = w.at)
SELECT at AS id FROM way;
UPDATE finding SET rule = 'C6'
WHERE rule IS NULL AND finding.id IN (SELECT id FROM old) AND finding.id IN (SELECT id FROM keeps_busy);
-- If it waits for a call back to that pool, both are the ring; but a call back whose caller has ended is none.
DELETE FROM pool_ring WHERE next NOT IN (SELECT id FROM finding WHERE rule = 'C7');
UPDATE finding SET rule = 'C11' WHERE rule = 'C6' AND id IN (SELECT id FROM pool_ring);
UPDATE finding SET rule = 'C11' WHERE id IN (SELECT p.next FROM pool_ring p JOIN finding f USING (id)
  WHERE f.rule = 'C11');
UPDATE finding SET rule = 'U2'
WHERE rule IS NULL AND section IN ('calls', 'served') AND what = 'open' AND n_good >= :ENOUGH
  AND coalesce(age > max(:LONG, :OLD * longest), age_seq > :OLD * longest_seq);
-- Several calls of one path that all wait longer than any that came to a good end are no chance.
UPDATE finding SET rule = 'U6' WHERE rule IS NULL AND section IN ('calls', 'served') AND what = 'open' AND later = 0
  AND age IS NOT NULL AND finding.id NOT IN (SELECT id FROM old)
  AND finding.id NOT IN (SELECT id FROM (SELECT id, count(*) OVER (PARTITION BY section, code, about, node) AS n
      FROM finding WHERE rule IS NULL AND section IN ('calls', 'served') AND what = 'open' AND n_good >= :ENOUGH
        AND age > max(:VERY_LONG, :USUAL * longest)) WHERE n >= :OFTEN);
UPDATE finding SET rule = 'C9' WHERE rule IS NULL AND id IN (SELECT id FROM lock_ring);
UPDATE finding SET rule = 'B1' WHERE rule IS NULL AND section = 'books';
UPDATE finding SET rule = iif(w.delivery IS NULL, 'C5', 'C4') FROM waits w WHERE rule IS NULL AND w.id = finding.id;
-- What the threads do that have such a call, or could take it; how many wait for it; and the next call of its ring.
UPDATE finding SET note = iif(waiting > 0, counted(waiting, 'waits', 'wait') || ' for it; ', '')
  || CASE WHEN section = 'books' THEN (SELECT 'thread ' || b.tid || ' of ' || o.who || ' waits for '
        || coalesce('thread ' || b.server_tid || ' of ', '') || s.who
        || iif(b.delivery IS NULL, ', where no thread got it', '')
        || coalesce((SELECT ', and that for ' || n.called FROM waits_for x JOIN waits n ON n.id = x.next
          WHERE x.id = b.id), '')
      FROM from_before b JOIN who o USING (upid) JOIN who s ON s.upid = b.server WHERE b.id = finding.id)
    WHEN w.delivery IS NULL THEN coalesce('not got: ' || (SELECT doing FROM pool p WHERE p.upid = w.server_upid),
      'not got')
    ELSE (SELECT who FROM who WHERE upid = w.server_upid) || ' got it at ' || w.delivery
      || coalesce((SELECT iif(x.by_main, ', and its main thread waits for ', ', and waits for ') || n.called
          FROM waits_for x JOIN waits n ON n.id = x.next WHERE x.id = finding.id),
        (SELECT iif(t.last_seq <= d.seq, ', and thread ' || t.thread || ' has done nothing since', '')
          FROM raw_thread t JOIN raw_call d ON d.place = w.delivery WHERE t.utid = w.server), '')
      || coalesce((SELECT ', within its own call at ' || outer FROM own_ring o WHERE o.id = finding.id), '') END
  || coalesce((SELECT '; in a ring with ' || n.called || ' of ' || o.who || ', ' || q.path
    FROM (SELECT id, next FROM lock_ring UNION ALL SELECT id, next FROM pool_ring
        UNION ALL SELECT next, id FROM pool_ring) l
      JOIN waits n ON n.id = l.next JOIN path_of q ON q.id = l.next JOIN who o ON o.upid = n.upid
    WHERE l.id = finding.id), '')
FROM waits w WHERE w.id = finding.id
  AND (rule IN ('B1', 'C3', 'C4', 'C5', 'C6', 'C8', 'C9', 'C10', 'U2') OR rule = 'C11');
UPDATE finding SET rule = 'C4' WHERE rule IS NULL AND section = 'served' AND what = 'open';
-- How long what hangs has been open, at least: the recording ended before it did.
UPDATE finding SET note = 'open for ≥ ' || duration(age) || coalesce('; ' || note, '')
WHERE (rule IN ('B1', 'C3', 'C4', 'C5', 'C6', 'C7', 'C8', 'C9', 'C10', 'U2') OR rule = 'C11')
  AND section IN ('calls', 'served', 'books')
  AND what = 'open' AND age NOTNULL;
