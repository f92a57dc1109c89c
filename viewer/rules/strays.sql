-- S: strays, and calls that are crossed.
-- needs: database/schema.sql: book_call, finding, raw_call, raw_frame, raw_record, raw_send, raw_thread; ages.sql:
--   begun, process_life; rule.sql: lossy
-- after: failures.sql
-- makes: temporary tables: first_crossed, begun_call; indexes: first_crossed_of

-- ---- what findings are called

-- strays are called: closers of no call

-- ---- the rules

-- S1 real: The driver refused a send, one of several in one write.
--   next: the sends of that write: the refused one was lost, the others were not
--   met by: `sends`: the second of two oneway sends is refused
--   fault: sends that were refused
--   where frames are missing: M3
-- S2 real: A reply without a call, which the driver refused.
--   next: the code of the server that replies: it replies twice, or to a oneway transaction
--   met by: `double-reply`: a service replies twice
--   fault: replies without a call
--   where frames are missing: M3
-- S3 explained: Shifted by one, after a crossed call of its thread.
--   met by: `after_a_crossed_call()`
-- S4 real: It fits nothing that its thread did.
--   next: what the thread did before: which call it takes this for an answer to
--   met by: `answer_to_nothing()`: of a process met from the start
--   where frames are missing: M1

-- ---- what they say of which finding

CREATE TEMP TABLE first_crossed AS
SELECT utid, min(closer) AS closer FROM raw_call
WHERE verdict = 4 AND EXISTS (SELECT 1 FROM finding WHERE section = 'strays' OR what = 'crossed') GROUP BY utid;
CREATE UNIQUE INDEX temp.first_crossed_of ON first_crossed(utid);
UPDATE finding SET rule = 'S1', said = 'the send at {other}', other = s.place FROM raw_send s
WHERE rule IS NULL AND section = 'strays' AND s.refused = finding.place;
UPDATE finding SET rule = 'S1', said = 'the send at {other}', other = s.place
FROM raw_call c JOIN raw_send s ON s.refused = c.closer
WHERE rule IS NULL AND what = 'crossed' AND c.place = finding.place;
-- If a call was open, the driver tells the caller of a refused reply, and not the thread that replied. So what came
-- before the capture does not matter.
UPDATE finding SET rule = 'S2', said = 'refused at {other}', other = s.refused FROM raw_send s
WHERE rule IS NULL AND section = 'strays' AND s.place = finding.place AND s.refused IS NOT NULL;
-- The error by which the driver refused it is the same finding.
UPDATE finding SET lead = r.id FROM finding r
WHERE finding.section = 'refused' AND finding.rule = 'E5' AND r.rule = 'S2' AND r.other = finding.place;
-- What comes after the first crossed call of a thread is shifted by one: strays, and calls that are closed then.
-- Of a thread that had calls open when the recording began, as many closers are theirs. It is known of a thread without
-- a frame before the copy of the books. But a thread that reads first may have been in a write since before the
-- recording, and have sent a call after the copy that no frame has.
CREATE TEMP TABLE begun_call AS
SELECT s.id, t.first_seq > b.after AND (s.side = 'served' OR q.direction = :WRITE) AS known,
  coalesce(c.n, 0) AS n,
  row_number() OVER (PARTITION BY s.utid, s.side ORDER BY s.place) AS nth
FROM (SELECT f.id, f.upid, f.utid, f.place, iif(r.kind IN (:BC_REPLY, :BC_REPLY_SG), 'served', 'made') AS side
    FROM finding f JOIN raw_record r USING (place) WHERE f.rule IS NULL AND f.section = 'strays') s
  JOIN raw_thread t ON t.utid = s.utid JOIN raw_frame q ON q.seq = t.first_seq JOIN begun b ON b.upid = s.upid
  LEFT JOIN (SELECT utid, side, count(*) AS n FROM book_call WHERE moment = 'begin' GROUP BY 1, 2) c
    ON (c.utid, c.side) = (s.utid, s.side);
UPDATE finding SET rule = CASE
  WHEN EXISTS (SELECT 1 FROM first_crossed c WHERE c.utid = finding.utid
    AND c.closer < coalesce((SELECT o.closer FROM raw_call o WHERE o.place = finding.place), finding.place)) THEN 'S3'
  WHEN EXISTS (SELECT 1 FROM begun_call b WHERE b.id = finding.id AND b.nth <= b.n) THEN 'P2'
  WHEN finding.upid IN (SELECT upid FROM lossy) THEN 'M1'
  WHEN (SELECT known FROM process_life p WHERE p.upid = finding.upid)
    OR EXISTS (SELECT 1 FROM begun_call b WHERE b.id = finding.id AND b.known) THEN 'S4' ELSE 'P1' END
WHERE rule IS NULL AND (section = 'strays' OR what = 'crossed');
