-- Which stacks tell of a finding, and whose they are: first that of the call that its record comes of, then that of the
-- call that wrote its record. A record that was read has no stack of its own, and what libbinder has to say of handles
-- and buffers its threads write later, in whatever call comes next.
-- needs: database/schema.sql: finding, raw_call, raw_delivery, raw_generation, raw_object, raw_record, raw_send,
--   raw_thread, side_call; freeze_facts.sql: freeze_record; records.sql: dead_record
-- after: defects.sql
-- makes: tables: finding_stack; temporary tables: tells

CREATE TEMP TABLE tells AS
-- A handle: the call whose reply gave it, or the send of another process that did. Who keeps what others send is at
-- fault itself, so its own stack comes before that, unless the one that sent it takes nothing back.
SELECT f.id, iif(r.kind = :BR_REPLY OR f.rule = 'H13', 1, 4) AS n, iif(r.kind = :BR_REPLY, d.call, d.send) AS place,
  iif(r.kind = :BR_REPLY, 'the call whose reply gave the handle', 'the send that gave the handle') AS whose
FROM finding f JOIN raw_generation g ON g.id = f.generation JOIN raw_delivery d ON d.place = g.given_by
  JOIN raw_record r ON r.place = d.place
WHERE f.section = 'handles' AND f.what <> 'balanced' AND EXISTS (SELECT 1 FROM side_call)
-- A reply that was read: the call that it answers. A transaction that was read: the reply to it, and its send.
UNION ALL SELECT f.id, 1, iif(r.kind = :BR_REPLY, d.call, c.closer),
  iif(r.kind = :BR_REPLY, 'the call that it answers', 'the reply to it')
FROM finding f JOIN raw_delivery d USING (place) JOIN raw_record r USING (place)
  LEFT JOIN raw_call c ON c.place = f.place AND c.served
WHERE f.section <> 'handles' AND EXISTS (SELECT 1 FROM side_call)
UNION ALL SELECT f.id, 2, d.send, 'the send of it' FROM finding f JOIN raw_delivery d USING (place)
  JOIN raw_record r USING (place)
WHERE f.section <> 'handles' AND r.kind <> :BR_REPLY AND EXISTS (SELECT 1 FROM side_call)
-- A call that came back to a thread that waits, and one that others wait for: the call of the thread over which it holds
-- its lock.
UNION ALL SELECT f.id, 0, f.other,
  iif(f.rule = 'C10', 'the call within which its thread got it', 'the call that its thread made meanwhile')
FROM finding f WHERE f.rule IN ('C10', 'V4') AND EXISTS (SELECT 1 FROM side_call)
-- An error reply: the send that the driver refused.
UNION ALL SELECT f.id, 1, s.place, 'the send that was refused' FROM finding f JOIN raw_send s ON s.refused = f.place
WHERE f.section IN ('refused', 'strays') AND EXISTS (SELECT 1 FROM side_call)
-- A death, or a freeze notification: the request for it. A node: the first send that handed it over.
UNION ALL SELECT f.id, 1, (SELECT max(q.place) FROM dead_record q WHERE q.upid = f.upid AND q.cookie = f.cookie
  AND q.kind = :BC_REQUEST_DEATH_NOTIFICATION AND q.place < f.place), 'the request for it'
FROM finding f WHERE f.section = 'deaths' AND EXISTS (SELECT 1 FROM side_call)
UNION ALL SELECT f.id, 1, (SELECT max(q.place) FROM freeze_record q WHERE q.upid = f.upid AND q.cookie = f.cookie
  AND q.kind = :BC_REQUEST_FREEZE_NOTIFICATION AND q.place < f.place), 'the request for it'
FROM finding f WHERE f.section = 'freezes' AND EXISTS (SELECT 1 FROM side_call)
UNION ALL SELECT f.id, 1, min(s.place), 'the first send that handed it over'
FROM finding f JOIN raw_object o ON o.binder = f.ptr AND o.sort IN (:BINDER, :WEAK_BINDER)
  JOIN raw_send s ON s.place = o.place JOIN raw_thread t ON t.utid = s.utid AND t.upid = f.upid
WHERE f.section = 'nodes' AND f.what <> 'balanced' AND EXISTS (SELECT 1 FROM side_call) GROUP BY f.id
-- The record itself. What libbinder takes as it serves a call, and writes with the reply, its own functions write alone:
-- that stack comes after the one of the send.
UNION ALL SELECT f.id, iif(EXISTS (SELECT 1 FROM raw_generation g JOIN raw_call c ON c.place = g.given_by AND c.served
    JOIN raw_record a ON a.place = c.closer JOIN raw_record o ON o.place = f.place AND o.seq = a.seq
    WHERE g.id = f.generation), 5, 3), f.place,
  iif(f.section IN ('handles', 'frees'), 'the call that wrote it, which may be a later one', 'its own call')
FROM finding f WHERE f.what <> 'balanced' AND EXISTS (SELECT 1 FROM side_call);

-- `n` rises with each stack of a finding.
CREATE TABLE finding_stack(id INTEGER, n INTEGER, place INTEGER NOT NULL, seq INTEGER NOT NULL, stack INTEGER NOT NULL,
  whose TEXT NOT NULL, PRIMARY KEY(id, n)) STRICT;
INSERT INTO finding_stack
SELECT t.id, row_number() OVER (PARTITION BY t.id ORDER BY t.n), t.place, r.seq, c.stack, t.whose
FROM tells t JOIN raw_record r USING (place) JOIN side_call c ON c.seq = r.seq;
