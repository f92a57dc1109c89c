-- H1, H2: handles that nobody gave, and references let go of more often than taken; H6, H7: what the driver's books of
-- the beginning have of these.
-- needs: database/schema.sql: book_handle, book_node, finding, raw_delivery, raw_generation, raw_record, raw_thread,
--   report; paths.sql: given, given_way, way_path; ages.sql: begun, process_life; judging.py: counted
-- makes: temporary tables: unseen, handle_row, held_before, let_go_again, again_way, too_often; indexes:
--   let_go_again_of

-- ---- the rules

-- H1 real: The process uses a handle that it never received.
--   next: where the process has the number from: a handle of another process, or one that it let go of
--   met by: `errors`: a release of handle 78, which the client has not
--   fault: handles that nobody gave
--   where frames are missing: M1
-- H2 real: Released more often than acquired.
--   next: the code that lets go of it: by the way in the note, if there is one
--   met by: `errors`: one release too many
--   fault: references let go, or given back, too often
--   title of handles: references let go too often
--   title of nodes: references given back too often
--   where frames are missing: M1

-- ---- what they say of which finding

-- The first delivery to a process of which it is not known which objects it had: its data are not in the capture.
-- beside: loading
CREATE TEMP TABLE unseen AS
SELECT t.upid, min(d.place) AS place
FROM (SELECT 1 FROM raw_generation WHERE handle <> 0 AND given_by IS NULL LIMIT 1)
  CROSS JOIN raw_delivery d JOIN raw_record r USING (place) JOIN raw_thread t ON t.utid = d.utid
WHERE r.offsets_size <> 0 AND r.attachment IS NULL GROUP BY 1;
-- What a process held when the recording began is in the driver's books. What it named only after the copy was there,
-- it had not let go of before.
CREATE TEMP TABLE handle_row AS
SELECT f.id, f.upid, f.handle, f.generation, f.what,
  coalesce((SELECT b.quiet FROM begun b WHERE b.upid = f.upid) OR (SELECT r.seq > b.after FROM begun b
    JOIN raw_generation g ON g.upid = b.upid JOIN raw_record r ON r.place = g.begin
    WHERE b.upid = f.upid AND f.section = 'handles' AND g.handle = f.handle AND g.n = 1), 0) AS begun,
  -- Below 0 if more was let go, or acknowledged, than was taken or asked for; and what buffers hold, or what is due.
  min(r.strong_low, r.weak_low, coalesce(r.strong_due, 0), coalesce(r.weak_due, 0)) AS least,
  coalesce(r.held_strong, r.strong_due) <> 0 OR coalesce(r.held_weak, r.weak_due) <> 0 AS more,
  (SELECT known FROM process_life p WHERE p.upid = f.upid) AS known,
  EXISTS (SELECT 1 FROM raw_generation g WHERE g.upid = f.upid AND g.handle = f.handle AND g.given_by IS NOT NULL)
    AS given
FROM finding f JOIN report r ON r.id = f.report WHERE f.section IN ('handles', 'nodes');
-- The same with what was held before added, for handles and nodes that the books have.
CREATE TEMP TABLE held_before AS
SELECT h.id, h.begun, k.strong AS had_strong, k.weak AS had_weak,
  r.strong + k.strong AS strong, r.weak + k.weak AS weak,
  -- The driver in Rust does not tell how many answers of the process it waits for.
  min(r.strong_low + k.strong, r.weak_low + k.weak, coalesce(r.strong_due + k.local_strong, 0),
    coalesce(r.weak_due + k.local_weak, 0)) AS least
FROM handle_row h JOIN finding f USING (id) JOIN report r ON r.id = f.report
  JOIN (SELECT 'handles' AS section, upid, handle AS a, 0 AS b, strong, weak, 0 AS local_strong, 0 AS local_weak
      FROM book_handle WHERE moment = 'begin'
    UNION ALL SELECT 'nodes', upid, ptr, cookie, strong, weak, local_strong, local_weak FROM book_node
      WHERE moment = 'begin') k
  ON (k.section, k.upid, k.a, k.b) = (f.section, h.upid, iif(f.section = 'handles', f.handle, f.ptr),
    iif(f.section = 'handles', 0, f.cookie))
WHERE NOT h.known AND (h.least < 0 OR f.section = 'handles' AND NOT h.given AND f.handle <> 0);
UPDATE finding SET rule = CASE WHEN h.least >= 0 THEN iif(h.strong > 0 OR h.weak > 0, 'H6', 'H7')
    WHEN NOT h.begun THEN 'P1' ELSE 'H2' END,
  what = CASE WHEN h.least < 0 THEN what WHEN h.strong > 0 OR h.weak > 0 THEN 'held' ELSE 'balanced' END,
  note = 'before the recording: strong ' || h.had_strong || ', weak ' || h.had_weak
FROM held_before h WHERE rule IS NULL AND h.id = finding.id;
UPDATE handle_row SET known = begun WHERE NOT known;
UPDATE finding SET rule = CASE WHEN NOT h.known OR EXISTS (SELECT 1 FROM unseen u WHERE u.upid = finding.upid
    AND u.place < finding.place) THEN 'P1' ELSE 'H1' END
FROM handle_row h
WHERE rule IS NULL AND section = 'handles' AND h.id = finding.id AND NOT h.given AND finding.handle <> 0
  AND EXISTS (SELECT 1 FROM raw_generation g WHERE g.upid = h.upid AND g.handle = h.handle
    AND g.acquired + g.released + g.increfs + g.decrefs > 0);
UPDATE finding SET rule = iif(h.known, 'H2', 'P1')
FROM handle_row h
WHERE rule IS NULL AND h.id = finding.id AND h.least < 0;
-- How often a handle was let go of too often, in all that the capture has of it: its number may have meant one object
-- after another, each let go of so. Then by which calls or replies the first such one came, and how many of those that
-- its process got so are such.
CREATE TEMP TABLE let_go_again AS
SELECT g.id AS generation, g.upid, g.handle, v.way FROM raw_generation g LEFT JOIN given v ON v.generation = g.id
WHERE EXISTS (SELECT 1 FROM finding WHERE rule = 'H2' AND section = 'handles')
  AND (g.released > g.acquired OR g.decrefs > g.increfs);
CREATE INDEX temp.let_go_again_of ON let_go_again(upid, handle);
CREATE TEMP TABLE again_way AS SELECT upid, way, count(*) AS n FROM let_go_again WHERE way NOTNULL GROUP BY 1, 2;
CREATE TEMP TABLE too_often AS
SELECT f.id, f.upid, -min(0, r.strong_low + coalesce(k.strong, 0)) - min(0, r.weak_low + coalesce(k.weak, 0)) AS n,
  (SELECT a.way FROM let_go_again a WHERE (a.upid, a.handle) = (f.upid, f.handle) ORDER BY a.generation LIMIT 1) AS way
FROM finding f JOIN report r ON r.id = f.report
  LEFT JOIN book_handle k ON (k.moment, k.upid, k.handle) = ('begin', f.upid, f.handle)
WHERE f.rule = 'H2' AND f.section = 'handles';
UPDATE finding SET note = coalesce(note || '; ', '') || counted(o.n, 'time') || ' too often'
  || coalesce('; ' || (SELECT path FROM way_path w WHERE w.id = o.way) || ': ' || a.n || ' of '
    || (SELECT sum(w.n) FROM given_way w WHERE (w.upid, w.way) = (a.upid, a.way)) || ' that came so', '')
FROM too_often o LEFT JOIN again_way a USING (upid, way) WHERE o.id = finding.id;
