-- How long each finding has lasted, what its thread did after it, and whether it ended with its thread or process.
-- Times are used if the side list has them, and frames otherwise.
-- needs: database/schema.sql: book, book_opening, capture, finding, raw_call, raw_capture, raw_delivery, raw_frame,
--   raw_process, raw_record, raw_thread, side_lost, side_time; database/views.sql: process, thread; late.sql: late
-- after: counts.sql
-- makes: temporary tables: last, process_life, begun, life, written, usual, old, ended, left_pool, leaving, recorded;
--   indexes: life_of_process, begun_process, life_of_thread, old_finding, ended_finding, leaving_finding, recorded_of

-- ---- how long: to the end of its thread, its process or the capture

-- A side list that goes on after a capture that was cut says nothing of the end of the capture. What it says of the end
-- otherwise may name a frame that was lost after the last one.
CREATE TEMP TABLE last AS
SELECT c.last_seq AS seq, c.missing,
  iif(cut, c.last_seq, max(c.last_seq, coalesce((SELECT max(seq) FROM side_lost), 0))) AS told,
  iif(cut, (SELECT ts FROM side_time s WHERE s.seq = c.last_seq),
    coalesce((SELECT value FROM capture WHERE key = 'end_ts'),
      (SELECT ts FROM side_time s WHERE s.seq = c.last_seq))) AS ts
FROM (SELECT *, EXISTS (SELECT 1 FROM side_time s WHERE s.seq > last_seq) AS cut FROM raw_capture) c;
INSERT INTO capture SELECT 'until_ts', ts FROM last;
CREATE TEMP TABLE process_life AS
SELECT upid, iif(ended_after <= last.told, min(ended_after, last.seq), NULL) AS ended_after,
  iif(ended_after <= last.told, ended, NULL) AS ended,
  coalesce(met = 'from-start', 0) AS known
FROM process, last;
CREATE UNIQUE INDEX temp.life_of_process ON process_life(upid);
-- Processes of which the driver's books say what they held when the recording began. `after`: the last frame of which
-- what it did may be in the books already; `quiet`: the process has no such frame.
CREATE TEMP TABLE begun AS
SELECT o.upid, o.quiet, b.after, o.deaths, o.clears FROM book_opening o JOIN book b USING (moment)
WHERE o.moment = 'begin' AND b.what = 'state';
CREATE UNIQUE INDEX temp.begun_process ON begun(upid);
CREATE TEMP TABLE life AS
SELECT t.utid, min(coalesce(t.ended_after, p.ended_after), coalesce(p.ended_after, t.ended_after)) AS ended_after,
  min(coalesce(t.ended, p.ended), coalesce(p.ended, t.ended)) AS ended
FROM (SELECT utid, upid, iif(ended_after <= last.told, min(ended_after, last.seq), NULL) AS ended_after,
    iif(ended_after <= last.told, ended, NULL) AS ended FROM thread, last) t JOIN process_life p USING (upid);
CREATE UNIQUE INDEX temp.life_of_thread ON life(utid);
-- For a call the end of its thread counts, for a oneway send that of its receiver, for all else that of its process.
UPDATE finding SET
  age_seq = max(0, coalesce(iif(section IN ('calls', 'served'), l.ended_after, p.ended_after), last.seq) - finding.seq),
  age = max(0, coalesce(iif(section IN ('calls', 'served'), l.ended, p.ended), last.ts)
    - (SELECT ts FROM side_time x WHERE x.seq = finding.seq))
FROM last, life l, process_life p
WHERE l.utid = finding.utid AND p.upid = iif(section = 'oneway', finding.target, finding.upid);
-- A call that was open throughout is at least as old as the one copy of the books is older than the other.
UPDATE finding SET age = z.ts - b.ts FROM book b, book z
WHERE section = 'books' AND (b.moment, b.what, z.moment, z.what) = ('begin', 'state', 'end', 'state');

-- later: how many calls its thread began after it, at most :MOST_LATER. All that a thread does after an open call is
-- within that call, so a call counts if it is no deeper than a call that would begin at the finding. For what is not a
-- transaction, write frames count: those among the next :FRAMES_AHEAD, or one if the thread wrote only after these.
-- What came after the end does not count.
UPDATE finding SET later = (SELECT count(*) FROM (SELECT 1 FROM (SELECT depth FROM raw_call c
  WHERE c.utid = finding.utid AND c.place > finding.place AND c.seq NOT IN (SELECT seq FROM late)
  ORDER BY c.place LIMIT :CALLS_AHEAD) c
  WHERE c.depth <= coalesce(
    (SELECT o.depth FROM raw_delivery d JOIN raw_call o ON o.place = d.call WHERE d.place = finding.place),
    (SELECT o.depth + (o.closer IS NULL OR o.closer > finding.place) FROM raw_call o WHERE o.utid = finding.utid
      AND o.place < finding.place ORDER BY o.place DESC LIMIT 1), 1) LIMIT :MOST_LATER))
WHERE section IN ('calls', 'served', 'buffers');
-- If there are many findings, the write frames of all their threads are sorted first; packed tables find them by thread.
CREATE TEMP TABLE written(utid INTEGER, seq INTEGER, PRIMARY KEY(utid, seq)) WITHOUT ROWID;
INSERT INTO written
SELECT f.utid, f.seq
FROM (SELECT 1 FROM raw_capture WHERE (SELECT count(*) FROM finding) > frames / 100
    AND EXISTS (SELECT 1 FROM sqlite_schema WHERE name = 'raw_frame' AND sql GLOB 'CREATE TABLE *'))
  CROSS JOIN raw_frame f
WHERE f.direction = :WRITE AND f.records > 0 AND f.utid IN (SELECT utid FROM finding);
UPDATE finding SET later = max(coalesce(later, 0), iif(t.last_write > finding.place, max(1, iif(
    EXISTS (SELECT 1 FROM written),
    (SELECT count(*) FROM (SELECT 1 FROM written w WHERE w.utid = finding.utid AND w.seq > finding.seq
      AND w.seq <= finding.seq + :FRAMES_AHEAD LIMIT :MOST_LATER)),
    (SELECT count(*) FROM (SELECT 1 FROM raw_frame w WHERE w.utid = finding.utid AND w.direction = :WRITE
      AND w.records > 0 AND w.seq > finding.seq AND w.seq <= finding.seq + :FRAMES_AHEAD LIMIT :MOST_LATER)))), 0))
FROM raw_thread t
WHERE t.utid = finding.utid AND section NOT IN ('calls', 'served')
  AND (later IS NULL OR EXISTS (SELECT 1 FROM raw_record r
    WHERE r.place = finding.place AND r.kind IN (:BR_TRANSACTION, :BR_TRANSACTION_SEC_CTX) AND r.flags & :TF_ONE_WAY));

-- What is old: older than :OLD times the longest of its path or, if there is none, the median of all buffers or calls,
-- of which some :SAMPLE are looked at; and older than :LONG.
-- beside: counts.sql
CREATE TEMP TABLE usual AS
WITH held AS (SELECT z.ts - x.ts AS dur
    FROM (SELECT 1 FROM finding WHERE section = 'buffers' LIMIT 1) CROSS JOIN raw_delivery d
    JOIN side_time x ON x.seq = d.seq JOIN side_time z ON z.seq = d.seq + d.dur_seq
    WHERE d.place / 4 % (SELECT 1 + count(*) / :SAMPLE FROM raw_delivery) = 0 ORDER BY dur),
  called AS (SELECT z.ts - x.ts AS dur
    FROM (SELECT 1 FROM finding WHERE section IN ('calls', 'served', 'books') LIMIT 1) CROSS JOIN raw_call c
    JOIN side_time x ON x.seq = c.seq JOIN side_time z ON z.seq = c.seq + c.dur_seq
    WHERE c.verdict IN (1, 2) AND c.place / 4 % (SELECT 1 + count(*) / :SAMPLE FROM raw_call) = 0 ORDER BY dur)
SELECT 'buffers' AS section, (SELECT dur FROM held LIMIT 1 OFFSET (SELECT count(*) / 2 FROM held)) AS dur
UNION ALL SELECT 'calls', (SELECT dur FROM called LIMIT 1 OFFSET (SELECT count(*) / 2 FROM called));
CREATE TEMP TABLE old AS
SELECT f.id FROM finding f WHERE f.age > max(:LONG, :OLD * coalesce(f.longest, (SELECT dur FROM usual u
  WHERE u.section = iif(f.section IN ('served', 'books'), 'calls', f.section)), 0));
CREATE UNIQUE INDEX temp.old_finding ON old(id);
-- What ended with its thread or process, and was not old then.
CREATE TEMP TABLE ended AS
SELECT f.id FROM finding f JOIN life l USING (utid)
  JOIN process_life p ON p.upid = iif(section = 'oneway', f.target, f.upid)
WHERE iif(section = 'oneway', p.ended_after, l.ended_after) IS NOT NULL AND f.id NOT IN (SELECT id FROM old);
CREATE UNIQUE INDEX temp.ended_finding ON ended(id);
-- When a thread of a process said last that it is no looper any more, as libraries do when the process is about to end.
-- beside: records.sql
CREATE TEMP TABLE left_pool AS
SELECT t.upid, max(r.place) AS place
FROM (SELECT 1 FROM finding WHERE section = 'clears' LIMIT 1) CROSS JOIN raw_record r JOIN raw_thread t USING (utid)
WHERE r.kind = :BC_EXIT_LOOPER GROUP BY 1;
-- What a process leaves undone within :LONG of its end: the driver drops all that is for a process with it, and what a
-- thread had still to read of clears and nodes with the thread. One whose loopers leave its pool after a clear reads
-- no more of it, and may take longer to end.
CREATE TEMP TABLE leaving AS
SELECT f.id FROM finding f JOIN process_life p USING (upid) JOIN life l USING (utid)
WHERE f.section IN ('buffers', 'deaths', 'freezes', 'freeze_clears') AND p.ended_after NOTNULL AND f.age <= :LONG
  OR f.section IN ('nodes', 'clears') AND l.ended - (SELECT ts FROM side_time x WHERE x.seq = f.seq) <= :LONG
  OR f.section = 'clears' AND p.ended_after NOTNULL AND f.age <= :VERY_LONG
    AND f.place < (SELECT place FROM left_pool o WHERE o.upid = f.upid);
CREATE UNIQUE INDEX temp.leaving_finding ON leaving(id);

-- ---- when each process was at work

-- How long a process was at work: from its first frame to its last one, as a rest at the end says nothing of what it
-- keeps. `grows_to` is the end of the time in which what it holds may grow. What a process takes when it starts is
-- mostly kept by design; so that time goes on for one that has rested for longer than it worked since it started.
CREATE TEMP TABLE recorded AS
SELECT
  upid,
  first_seq,
  first_ts,
  last_seq,
  last_ts,
  end_seq,
  end_ts,
  iif(begins, end_seq, last_seq) AS grows_to_seq,
  iif(begins, end_ts, last_ts) AS grows_to_ts
FROM (
  SELECT *, known AND coalesce(end_ts - last_ts > last_ts - first_ts, end_seq - last_seq > last_seq - first_seq)
    AS begins
  FROM (
    SELECT
      q.upid,
      p.known,
      q.first_seq,
      x.ts AS first_ts,
      q.last_seq,
      z.ts AS last_ts,
      coalesce(p.ended_after, last.seq) AS end_seq,
      coalesce(p.ended, last.ts) AS end_ts
    FROM raw_process q JOIN process_life p USING (upid) LEFT JOIN side_time x ON x.seq = q.first_seq
      LEFT JOIN side_time z ON z.seq = q.last_seq, last));
CREATE UNIQUE INDEX temp.recorded_of ON recorded(upid);
