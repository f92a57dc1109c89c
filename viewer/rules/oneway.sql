-- W, E3, U1: oneway sends that never came, and the buffers that they wait for.
-- needs: database/schema.sql: finding, raw_delivery, raw_record, raw_thread, side_time; records.sql: to_frozen;
--   ages.sql: ended, old, process_life; failures.sql: failure; rule.sql: lossy; limits.sql: no_looper; judging.py:
--   counted
-- after: buffers.sql
-- makes: temporary tables: last_oneway

-- ---- what findings are called

-- oneway are called: oneway sends that never came

-- ---- the rules

-- W1 explained: Dropped for a newer one (TF_UPDATE_TXN).
--   met by: `oneway_never_came()`, with TF_UPDATE_TXN
-- W2 explained: It waits for the oneway delivery before it to be freed.
--   rests on: LONG
--   met by: `oneway_after_another()`
-- W3 maybe: Sent and confirmed, and never seen to come.
--   next: what the receiver does: whether its threads take what is sent
--   rests on: OLD, LONG
--   met by: `oneway`: a reader leaves three sends unread
-- W5 explained: Its handler is at work: the last thing that its thread did. libbinder frees the buffer at the return.
--   rests on: OLD, LONG, ENOUGH, VERY_LONG
--   met by: `oneway_handler()`: a handler is at work for 500 ms, and a send waits
--   fault: oneway handlers at work
-- W6 maybe: Sends wait for its handler, at work for over {OLD} times as long as others or, if few, over {VERY_LONG}.
--   next: what the thread of the handler has done since it got it
--   rests on: OLD, LONG, ENOUGH, VERY_LONG
--   met by: `oneway_handler()`: a handler is at work for 1100 ms, and a send waits
--   fault: oneway handlers at work
-- W7 explained: Its receiver was frozen, and reads it only after the thaw.
--   rests on: TOO_MANY, VERY_LONG
--   met by: `sends_to_the_frozen()`: nine sends
--   fault: oneway sends to what is frozen
-- W8 maybe: Its receiver was frozen, and this process went on: {TOO_MANY} such sends or more, for over {VERY_LONG}.
--   next: whether the sender can tell that the receiver is frozen, and stop or drop what it sends
--   rests on: TOO_MANY, VERY_LONG
--   met by: `pending`: twelve sends in 1.4 s to a service that stays frozen
--   fault: oneway sends to what is frozen
-- W9 real: {OFTEN} or more sends have waited over {VERY_LONG} for it, and its thread went on with other work.
--   next: what the thread did after it: nothing frees the buffer, and nothing else comes to the object until then
--   rests on: OFTEN, VERY_LONG, OLD, LONG
--   met by: `blocked_object()`: a thread goes on, and three sends wait for its buffer
--   where frames are missing: M2
-- W10 real: {OFTEN} or more sends have waited over {VERY_LONG} for its handler, at work {OLD} times as long as others.
--   next: what the thread of the handler has done since it got it
--   rests on: OFTEN, VERY_LONG, OLD, LONG, ENOUGH
--   met by: `blocked_object()`: the fourth handler does not return
--   fault: oneway handlers at work
--   where frames are missing: M2
-- W11 explained: It waits at a receiver whose space for oneway sends became full later: the refused sends tell of that.
--   met by: `full_at_a_frozen()`: a frozen client takes nothing, and a send to it is refused

-- ---- what they say of which finding

UPDATE finding SET rule = 'W1' WHERE rule IS NULL AND section = 'oneway'
  AND (SELECT flags & :TF_UPDATE_TXN FROM raw_record r WHERE r.place = finding.place);
-- What one process sent to another one that was frozen, of one code.
UPDATE finding SET
  rule = iif(n >= :TOO_MANY AND coalesce(lasted > :VERY_LONG, 0), 'W8', 'W7'),
  said = '{who} was frozen' || iif(n = 1, '', ' when {how_many:send} with {of_how_many:byte} were sent'
    || iif(lasted > 0, ', within {how_long}', '')),
  other_upid = target,
  how_many = n,
  of_how_many = bytes,
  how_long = lasted
FROM (SELECT f.id, count(*) OVER alike AS n, sum(r.data_size) OVER alike AS bytes,
    max(x.ts) OVER alike - min(x.ts) OVER alike AS lasted
  FROM finding f JOIN raw_record r USING (place) LEFT JOIN side_time x ON x.seq = f.seq
  WHERE f.section = 'oneway' AND f.rule IS NULL AND f.place IN (SELECT place FROM to_frozen)
  WINDOW alike AS (PARTITION BY f.upid, f.target, f.code)) z
WHERE z.id = finding.id;
UPDATE finding SET rule = 'E3' WHERE rule IS NULL AND section = 'oneway' AND finding.id IN (SELECT id FROM ended);
UPDATE finding SET rule = 'U1' WHERE rule IS NULL AND section = 'oneway' AND n_good >= :ENOUGH
  AND coalesce(age <= :USUAL * longest, age_seq <= :USUAL * longest_seq);
UPDATE finding SET rule = 'W2', said = 'the one at {other}', other = f.place
FROM finding f JOIN raw_record r ON r.place = f.place
WHERE finding.rule IS NULL AND +finding.section = 'oneway' AND f.section = 'buffers' AND r.flags & :TF_ONE_WAY
  AND r.kind <> :BR_REPLY
  AND f.upid = finding.target AND f.ptr = finding.ptr AND f.cookie = finding.cookie;
-- Or it waited for one that was freed only when its process ended.
-- beside: records.sql
CREATE TEMP TABLE last_oneway AS
SELECT t.upid, r.ptr, r.cookie, max(d.place) AS place, d.freed_by
FROM (SELECT 1 FROM finding WHERE section = 'oneway' LIMIT 1)
  CROSS JOIN raw_delivery d JOIN raw_record r USING (place) JOIN raw_thread t ON t.utid = d.utid
WHERE r.flags & :TF_ONE_WAY AND r.kind <> :BR_REPLY
GROUP BY 1, 2, 3;
UPDATE finding SET rule = 'W2', said = 'the one at {other}', other = o.place
FROM last_oneway o JOIN process_life p USING (upid) JOIN raw_record f ON f.place = o.freed_by
  JOIN side_time x ON x.seq = f.seq
WHERE rule IS NULL AND section = 'oneway' AND (o.upid, o.ptr, o.cookie) = (target, finding.ptr, finding.cookie)
  AND o.freed_by > finding.place AND p.ended_after NOTNULL AND p.ended - x.ts <= :LONG;
UPDATE finding SET waiting = w.n
FROM (SELECT other, count(*) AS n FROM finding WHERE rule = 'W2' GROUP BY 1) w
WHERE section = 'buffers' AND w.other = place;
-- A oneway delivery after which its thread has done nothing: its handler may be at work, and others may wait for that.
UPDATE finding SET
  rule = iif(waiting NOTNULL AND finding.id IN (SELECT id FROM old) AND (n_good >= :ENOUGH OR age > :VERY_LONG),
    'W6', 'W5'),
  said = iif(age IS NULL, NULL, 'its handler has been at work for {how_long}'),
  how_long = age,
  note = iif(waiting NOTNULL, counted(waiting, 'waits', 'wait') || ' for it', NULL)
FROM raw_record r
WHERE rule = 'U6' AND what <> 'BR_REPLY' AND later = 0 AND r.place = finding.place AND r.flags & :TF_ONE_WAY;
-- One that blocks its object, as many sends have waited for it for very long.
UPDATE finding SET rule = iif(rule = 'W6', 'W10', 'W9')
FROM (SELECT other, count(*) AS n FROM finding WHERE rule = 'W2' AND age > :VERY_LONG GROUP BY 1) w
WHERE section = 'buffers' AND w.other = place AND w.n >= :OFTEN AND finding.id IN (SELECT id FROM old)
  AND (rule IN ('U4', 'U5') AND later > 0 OR rule = 'W6' AND n_good >= :ENOUGH);
UPDATE finding SET rule = 'M1' WHERE rule IS NULL AND section = 'oneway' AND finding.upid IN (SELECT upid FROM lossy);
UPDATE finding SET rule = CASE WHEN finding.id IN (SELECT id FROM old) THEN 'W3'
  WHEN age IS NULL AND later > 0 THEN 'W3'
  ELSE 'U6' END WHERE rule IS NULL AND section = 'oneway';
-- What fills the space of its receiver is told by the sends that find no space there.
UPDATE finding SET rule = 'W11', said = 'the driver refused the one at {other}', other = e.place
FROM (
  SELECT f.target, max(e.place) AS place
  FROM finding f JOIN failure e USING (id) JOIN raw_record r ON r.place = e.place
  WHERE f.rule = 'E5' AND r.flags & :TF_ONE_WAY
  GROUP BY 1) e
WHERE rule = 'W3' AND e.target = finding.target AND e.place > finding.place;
UPDATE finding SET note = coalesce(note, 'not got') || n.why FROM no_looper n
WHERE finding.rule = 'W3' AND n.upid = finding.target;
