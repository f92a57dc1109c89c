-- E: calls and sends that failed, and oneway sends that may be spam.
-- needs: database/schema.sql: finding, raw_call, raw_object, raw_record, raw_send, raw_thread, side_time; records.sql:
--   told_death
-- after: late.sql
-- makes: temporary tables: failure, too_late, got_call, in_freeze, takes_no_fds; indexes: failure_of, got_call_by,
--   in_freeze_of

-- ---- what findings are called

-- calls failed are called: calls that failed
-- refused are called: sends that were refused
-- spam are called: oneway sends that may be spam

-- ---- the rules

-- E1 real: Sent to an object after its death notification: {OFTEN} times or more, or more than once and over {VERY_LONG}
--   later.
--   next: what the process does when it is told of the death: it keeps the handle and goes on
--   rests on: OFTEN, VERY_LONG
--   met by: `dead-user`: three calls after BR_DEAD_BINDER
--   where frames are missing: M3
-- E2 maybe: Sent to an object after BR_DEAD_REPLY had told its end: repeatedly, or over {VERY_LONG} later.
--   next: what the process does with BR_DEAD_REPLY: it keeps the handle and goes on
--   rests on: VERY_LONG
--   met by: `dead_reply_before()`
-- E3 explained: The process, or the thread, that serves it ended.
--   met by: `news_during_calls()`: two calls were under way when the server ended
-- E4 maybe: The process that serves it was frozen.
--   next: who froze the process, and whether it should have been frozen
--   rests on: OFTEN
--   of a part: whether it was thawed later is not recorded
--   met by: `goes_on_calling_the_frozen()`: three calls of one thread in one freeze
-- E5 real: The driver refused it.
--   next: the note, if it says why; then the size and the objects of the call, or what filled the receiver
--   met by: `too-large`: a call with more data than fits
--   where frames are missing: M3
-- E6 real: The driver took the call, and could not deliver the call or its reply.
--   next: the reply, and the file descriptors that the receiver has open
--   met by: `descriptors`: the receiver can't open the file descriptor of a call
--   where frames are missing: M3
-- E7 maybe: The driver warns: much of the space of the receiver for oneway sends holds what this process sent.
--   next: how often the process sends, and how long the receiver takes for each
--   met by: `spam()`
-- E8 explained: The process that serves it was frozen then, and was thawed later.
--   met by: `frozen()`: the service gets a call later
-- E11 real: Sent {TOO_MANY} times or more, for over {VERY_LONG}, to an object after BR_DEAD_REPLY had told its end.
--   next: what the process does with BR_DEAD_REPLY: it keeps the handle and goes on
--   rests on: TOO_MANY, VERY_LONG
--   met by: `dead_reply_before()`: ten calls in 1.1 s
--   where frames are missing: M3
-- E12 real: Its thread called what was frozen {TOO_MANY} times or more, for over {VERY_LONG}.
--   next: what the process does with BR_FROZEN_REPLY: it calls again at once
--   rests on: TOO_MANY, VERY_LONG
--   met by: `goes_on_calling_the_frozen()`: ten calls in 1.2 s
--   where frames are missing: M3

-- E13 maybe: Sent to an object after its death notification: twice soon after, or once over {VERY_LONG} later.
--   next: what the process does when it is told of the death: it may keep the handle
--   rests on: OFTEN, VERY_LONG
--   met by: `calls_the_dead()`: one call 1.5 s after BR_DEAD_BINDER, or two soon after it

-- ---- what they say of which finding

-- The error reply that closed a failed call or refused a send: its kind, and the send.
CREATE TEMP TABLE failure AS
SELECT f.id, e.kind, f.generation, f.place, e.place AS reply, e.utid, s.refused = e.place AS refused FROM finding f
  JOIN raw_call c USING (place) JOIN raw_record e ON e.place = c.closer LEFT JOIN raw_send s USING (place)
WHERE f.section = 'calls' AND f.what = 'failed'
UNION ALL SELECT f.id, e.kind, f.generation, s.place, e.place, e.utid, 1 FROM finding f JOIN raw_record e USING (place)
  JOIN raw_send s ON s.refused = f.place WHERE f.section = 'refused'
UNION ALL SELECT f.id, e.kind, NULL, NULL, e.place, e.utid, 1 FROM finding f JOIN raw_record e USING (place)
WHERE f.section = 'refused' AND NOT EXISTS (SELECT 1 FROM raw_send s WHERE s.refused = f.place);
CREATE UNIQUE INDEX temp.failure_of ON failure(id);
-- The first news that an object has ended: of its death, or by BR_DEAD_REPLY. One thread reads it while others send,
-- and a process may keep the handle in several places: a single send of a thread with a code soon after says nothing.
CREATE TEMP TABLE too_late AS
SELECT id, rule, place, n > 1 OR coalesce(since > :VERY_LONG, 0) AS certain,
  n >= :OFTEN OR n > 1 AND coalesce(longest > :VERY_LONG, 0) AS again,
  n >= :TOO_MANY AND coalesce(longest > :VERY_LONG, 0) AS goes_on
FROM (SELECT e.id, n.rule, n.place, count(*) OVER alike AS n, x.ts - y.ts AS since,
    max(x.ts - y.ts) OVER alike AS longest
  FROM failure e JOIN finding f USING (id)
    JOIN (SELECT 'E1' AS rule, generation, min(place) AS place FROM told_death GROUP BY 2
      UNION ALL SELECT 'E2', generation, min(reply) FROM failure WHERE kind = :BR_DEAD_REPLY GROUP BY 2) n
    ON n.generation = e.generation
    JOIN raw_record s ON s.place = e.place JOIN raw_record t ON t.place = n.place
    LEFT JOIN side_time x ON x.seq = s.seq LEFT JOIN side_time y ON y.seq = t.seq
  WHERE e.kind = :BR_DEAD_REPLY AND n.place < e.place
  WINDOW alike AS (PARTITION BY n.rule, e.generation, e.utid, f.code));
UPDATE finding SET rule = CASE t.rule WHEN 'E1' THEN iif(t.again, 'E1', 'E13') ELSE iif(t.goes_on, 'E11', 'E2') END,
  said = 'told at {other}',
  other = t.place
FROM (SELECT id, min(rule) AS rule, place, again, goes_on FROM too_late WHERE certain GROUP BY id) t
WHERE finding.rule IS NULL AND t.id = finding.id;
-- A process that was frozen gets no calls until it is thawed.
CREATE TEMP TABLE got_call AS
SELECT t.upid, c.place FROM (SELECT 1 FROM failure WHERE kind = :BR_FROZEN_REPLY LIMIT 1) CROSS JOIN raw_call c
  JOIN raw_thread t USING (utid)
WHERE c.served AND t.upid IN (SELECT target FROM failure e JOIN finding f USING (id) WHERE e.kind = :BR_FROZEN_REPLY);
CREATE INDEX temp.got_call_by ON got_call(upid, place);
-- How many calls of its thread were refused in the same freeze, up to the same call that the process got or the end,
-- and for how long.
CREATE TEMP TABLE in_freeze AS
SELECT id, thawed, count(*) OVER one AS n, max(ts) OVER one - min(ts) OVER one AS lasted
FROM (SELECT e.id, e.utid, f.target, (SELECT min(c.place) FROM got_call c WHERE c.upid = f.target AND c.place > e.reply)
    AS thawed, x.ts FROM failure e JOIN finding f USING (id) LEFT JOIN side_time x ON x.seq = f.seq
  WHERE e.kind = :BR_FROZEN_REPLY AND f.target NOTNULL)
WINDOW one AS (PARTITION BY utid, target, thawed);
CREATE UNIQUE INDEX temp.in_freeze_of ON in_freeze(id);
UPDATE finding SET rule = iif(n >= :TOO_MANY AND coalesce(lasted > :VERY_LONG, 0), 'E12', 'E4'),
  said = 'one of {how_many:call} that its thread made while {who} was frozen',
  other_upid = target,
  how_many = n
FROM in_freeze z WHERE rule IS NULL AND z.id = finding.id AND n >= :OFTEN;
UPDATE finding SET rule = 'E8',
  said = '{who} was frozen, and got a call again at {other}',
  other_upid = target,
  other = thawed
FROM in_freeze z WHERE rule IS NULL AND z.id = finding.id AND thawed NOTNULL;
UPDATE finding SET rule = CASE e.kind WHEN :BR_DEAD_REPLY THEN 'E3' WHEN :BR_FROZEN_REPLY THEN 'E4'
  ELSE iif(e.refused, 'E5', 'E6') END
FROM failure e WHERE rule IS NULL AND e.id = finding.id;

-- A caller that takes no file descriptors, and a reply that has some.
CREATE TEMP TABLE takes_no_fds AS
SELECT f.id
FROM finding f JOIN raw_record r USING (place) JOIN raw_send s USING (place) JOIN raw_call c ON c.place = s.delivery
WHERE f.rule = 'E6' AND NOT r.flags & :TF_ACCEPT_FDS
  AND EXISTS (SELECT 1 FROM raw_object o WHERE o.place = c.closer AND o.sort IN (:FD, :FDA));
UPDATE finding SET note = 'the call takes no file descriptors (TF_ACCEPT_FDS), and its reply has some'
WHERE id IN (SELECT id FROM takes_no_fds);
UPDATE finding SET rule = 'E7' WHERE rule IS NULL AND section = 'spam';
