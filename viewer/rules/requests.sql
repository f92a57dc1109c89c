-- D1, D2, D5: requests for deaths.
-- needs: database/schema.sql: book_handle, finding, raw_generation, raw_record, side_handle; database/views.sql:
--   process; records.sql: dead_record; ages.sql: begun
-- makes: temporary tables: knows_handle, still_held, second_request; indexes: second_request_of

-- ---- what findings are called

-- requests are called: requests for deaths

-- ---- the rules

-- D1 explained: Nothing of the handle is held any more: the driver has dropped the request.
--   met by: `request_left()`: the handle is released
-- D2 maybe: A second request of a handle, which the driver does not take.
--   next: the first request, whose place is in the note: it still holds
--   met by: `deaths`: `asked-twice` asks a second time
--   fault: second requests for a death
--   title: of its section
-- D5 normal: No death was told: it waits for one.
--   met by: `request_left()`: the handle is held

-- ---- what they say of which finding

-- A process that was met in mid-life may hold the handle from before. Of one that a flight recorder met in a file that
-- was removed, the side list has the handles.
CREATE TEMP TABLE knows_handle AS
SELECT f.id FROM finding f JOIN process p USING (upid)
WHERE f.section = 'requests' AND (p.met = 'from-start' OR p.met = 'before-file' AND NOT EXISTS (SELECT 1
  FROM side_handle h WHERE (h.device, h.process, h.handle) = (p.device, p.process, f.handle)));
-- And of one whose handles are in the driver's books: it does not hold it any more, even with what it held before.
CREATE TEMP TABLE still_held AS
SELECT f.id, max(sum(g.acquired - g.released) + coalesce(b.strong, 0),
  sum(g.increfs - g.decrefs) + coalesce(b.weak, 0)) > 0 AS held, r.seq > u.after AS sure
FROM finding f JOIN begun u USING (upid) JOIN raw_generation g ON g.upid = f.upid AND g.handle = f.handle
  LEFT JOIN book_handle b ON b.moment = 'begin' AND b.upid = f.upid AND b.handle = f.handle
  LEFT JOIN raw_generation o ON o.upid = f.upid AND o.handle = f.handle AND o.n = 1
  LEFT JOIN raw_record r ON r.place = o.begin
WHERE f.section = 'requests' GROUP BY f.id;
INSERT INTO knows_handle SELECT id FROM still_held WHERE NOT held AND sure;
UPDATE finding SET rule = CASE WHEN finding.id IN (SELECT id FROM knows_handle) THEN 'D1'
  WHEN finding.id IN (SELECT id FROM still_held WHERE held) THEN NULL ELSE 'P1' END
FROM raw_generation g WHERE rule IS NULL AND section = 'requests' AND g.id = finding.generation
  AND (g.end IS NOT NULL OR g.acquired > 0 AND g.strong + g.weak + g.held_strong + g.held_weak = 0);
CREATE TEMP TABLE second_request AS
SELECT q.upid, q.handle, q.cookie, q.place, (SELECT p.place FROM dead_record p WHERE p.upid = q.upid
  AND p.handle = q.handle AND p.kind = :BC_REQUEST_DEATH_NOTIFICATION AND p.place < q.place
  ORDER BY p.place DESC LIMIT 1) AS before
FROM (SELECT upid, handle, cookie, min(place) AS place FROM dead_record
  WHERE kind = :BC_REQUEST_DEATH_NOTIFICATION GROUP BY 1, 2, 3) q
WHERE EXISTS (SELECT 1 FROM finding WHERE section IN ('requests', 'clears'));
DELETE FROM second_request WHERE before IS NULL OR EXISTS (SELECT 1 FROM dead_record p JOIN dead_record c
  ON c.upid = p.upid AND c.handle = p.handle AND c.kind = :BC_CLEAR_DEATH_NOTIFICATION AND c.cookie = p.cookie
  WHERE p.place = second_request.before AND c.place BETWEEN p.place AND second_request.place);
-- The driver drops a request with the last reference of its handle, whose number then means another object.
DELETE FROM second_request WHERE EXISTS (SELECT 1 FROM raw_generation g WHERE g.upid = second_request.upid
  AND g.handle = second_request.handle AND g.end BETWEEN second_request.before AND second_request.place);
CREATE UNIQUE INDEX temp.second_request_of ON second_request(upid, handle, cookie);
UPDATE finding SET rule = 'D2', said = 'the one before is at {other}', other = q.before FROM second_request q
WHERE rule IS NULL AND section IN ('requests', 'clears')
  AND (q.upid, q.handle, q.cookie) = (finding.upid, finding.handle, finding.cookie);
UPDATE finding SET rule = 'D5' WHERE rule IS NULL AND section = 'requests';
