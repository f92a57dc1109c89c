-- The tables of the rules, of which the first one that fits a finding decides; the rules that findings of several
-- sections may get; what was left out of a recording of a part; and the processes of which frames are missing.
-- needs: database/schema.sql: capture, raw_capture, raw_process, side_lost, side_missed, side_time; ages.sql: last,
--   process_life
-- makes: tables: rule, title; temporary tables: if_missing, if_part, narrowed, lossy

-- ---- the rules

-- A1 explained: Same finding as the call: this is its other end, or its buffer.
--   met by: `never_answered()`: the served call and the buffer of a call that nobody answers
-- L1 explained: It comes of what was read after the end of the recording.
--   met by: `buffer_kept()`
-- M1 explained: Frames of its process were lost: what is missing here may be in one of them.
--   met by: `let_go_too_often()`, with a lost frame
-- M2 maybe: It would be real, but frames of its process, or of the one that it calls, are missing.
--   next: the lost frames in the head of the page; then a recording without losses
--   met by: `gaps`: half of the frames were lost
-- M3 maybe: An error reply ended a send, perhaps another one: frames of its process are missing.
--   next: the send before it in its thread, and the lost frames in the head of the page
--   met by: `failed_call()`
-- P1 explained: What came before is not all known: before the capture, or in data that the capture lacks.
--   met by: `answer_to_nothing()`: of a process met in mid-life
-- P2 explained: It began before the recording: the driver had it in its books then.
--   met by: `answers_to_calls_from_before()`
-- T1 explained: Its process or thread ended then, and the driver has let it go.
--   rests on: LONG, OLD
--   met by: `caller_ends()`: the caller ends 50 ms after its call
--   title of nodes: references not acknowledged yet
-- U1 explained: Still within the usual time of this path.
--   rests on: ENOUGH, USUAL, VERY_LONG
--   met by: `slow_answers()`: a call waits 190 ms, and earlier ones took 100 ms
-- U2 real: Pending over {LONG}, and over {OLD} times longer than the slowest one of this path that completed.
--   next: what the thread did after it, and where others of its path came to their end
--   rests on: ENOUGH, OLD, LONG, OFTEN
--   met by: `quarter`: a service frees three buffers of four
--   where frames are missing: M2
-- U3 real: {OFTEN} or more were not freed, and nearly all of this path or of its replies to one process, while their
--     threads went on.
--   next: the code that handles what this path brings: nothing ends it there
--   rests on: OFTEN, NEARLY_ALL
--   met by: `replies`: a client keeps six replies to one code
--   where frames are missing: M2
-- U4 maybe: Its thread went on with other work.
--   next: what the thread did after it: where the others of its path came to their end
--   rests on: LONG
--   met by: `leaks`: a buffer that a service never frees
--   title of nodes: references never acknowledged
-- U5 maybe: Its thread did nothing more, long before the end.
--   next: what the thread waits for, outside of Binder too
--   rests on: OLD, LONG
--   met by: `leaks`: a death that is not acknowledged
-- U6 explained: Still in progress, as far as the recording shows.
--   rests on: OLD, LONG, OFTEN, ENOUGH, VERY_LONG, USUAL
--   met by: `never_answered()`: a call 50 ms before the end
--   title of nodes: references not acknowledged yet

-- ---- the tables, whose rows catalogue.py makes of what the files of rules say

CREATE TABLE rule(
  id TEXT PRIMARY KEY,
  verdict TEXT NOT NULL,
  text TEXT NOT NULL,   -- the sentence of why
  fault TEXT,           -- what is wrong, if it tells more of that than the section of its findings
  next TEXT,            -- where to look next
  ring INTEGER NOT NULL -- 1 if its groups come before others for which as many wait
) STRICT;
-- The title of a finding: by its rule, or by its section and what it is in that section.
CREATE TABLE title(rule TEXT, section TEXT, what TEXT, title TEXT NOT NULL) STRICT;
-- What missing frames make of a finding, by its rule. What it lacks may be in one of them (M1, M2), or the error reply
-- that it rests on may have ended another send (M3). All rules that are real are here but O1, which one record shows;
-- and of others those of which nothing is left without what is missing.
CREATE TEMP TABLE if_missing(rule TEXT PRIMARY KEY, becomes TEXT NOT NULL) STRICT;
-- What the note of a finding says, by its rule, if the other side was not recorded.
CREATE TEMP TABLE if_part(rule TEXT PRIMARY KEY, told TEXT NOT NULL) STRICT;

-- ---- a recording of a part of a system

-- One row, if only a part was recorded: whether processes were left out, and whether devices were.
CREATE TEMP TABLE narrowed AS
SELECT p.value AS processes, d.value AS devices
FROM capture p JOIN capture d ON d.key = 'narrowed_devices'
WHERE p.key = 'narrowed_processes';

-- ---- the processes of which frames are missing

-- Processes with missing frames. If the side list does not say whose a missing frame was, it may be of any process. The
-- first frames may be lost, and the last ones; but where a capture was cut, the side list says nothing of it after its
-- end.
CREATE TEMP TABLE lossy AS
WITH lost AS (SELECT l.*, l.seq BETWEEN c.first_seq AND c.last_seq AS within FROM side_lost l, raw_capture c
  WHERE l.seq <= c.last_seq OR NOT EXISTS (SELECT 1 FROM side_time x WHERE x.seq > c.last_seq))
SELECT upid FROM raw_process p, last
WHERE last.missing <> (SELECT count(*) FROM lost WHERE within AND process IS NOT NULL)
  OR EXISTS (SELECT 1 FROM lost WHERE process IS NULL)
  OR EXISTS (SELECT 1 FROM lost l WHERE (l.device, l.process) = (p.device, p.process));
-- What was missed without a number may be of any process that had not ended before, also right before the first frame.
INSERT INTO lossy SELECT upid FROM process_life p WHERE EXISTS (SELECT 1 FROM side_missed m, raw_capture c
  WHERE m.after >= c.first_seq - 1 AND m.from_seq <= c.last_seq AND coalesce(p.ended_after >= m.from_seq, 1));
