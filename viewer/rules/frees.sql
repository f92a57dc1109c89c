-- F: frees.
-- needs: database/schema.sql: book_buffer, finding, raw_delivery, raw_record, raw_thread; database/views.sql: came_to,
--   delivery, sent_to; ages.sql: begun, process_life; rule.sql: lossy
-- makes: temporary tables: freed, begun_free; indexes: freed_address

-- ---- what findings are called

-- frees are called: frees of what was not delivered

-- ---- the rules

-- F1 real: Freed before.
--   next: the first free, whose place is in the note: both have the address from one delivery
--   met by: `twice`: three buffers are freed twice
--   fault: buffers freed twice
--   where frames are missing: M1
-- F2 real: An address that was never delivered to it.
--   next: where the process has the address from
--   met by: `errors`
--   where frames are missing: M1

-- ---- what they say of which finding

CREATE TEMP TABLE freed AS
SELECT t.upid, r.address, d.place, d.freed_by FROM raw_delivery d JOIN raw_record r USING (place)
  JOIN raw_thread t ON t.utid = d.utid
WHERE EXISTS (SELECT 1 FROM finding WHERE section = 'frees') AND d.freed_by IS NOT NULL
  AND r.address IN (SELECT x.address FROM finding f JOIN raw_record x USING (place) WHERE f.section = 'frees');
CREATE INDEX temp.freed_address ON freed(upid, address, place);
UPDATE finding SET
  rule = 'F1',
  said = 'at {other}',
  other = d.freed_by,
  relation = iif(d.kind = 'BR_REPLY', 'freed reply to', 'freed'),
  code = d.code,
  about = coalesce((SELECT v.upid FROM came_to v WHERE v.place = d.place),
    (SELECT v.upid FROM sent_to v WHERE v.place = d.call)),
  node = coalesce((SELECT v.ptr FROM came_to v WHERE v.place = d.place),
    (SELECT v.ptr FROM sent_to v WHERE v.place = d.call))
FROM raw_record x, delivery d
WHERE rule IS NULL AND finding.section = 'frees' AND x.place = finding.place AND d.freed_by < finding.place
  AND d.place = (SELECT e.place FROM freed e WHERE e.upid = finding.upid AND e.address = x.address
    AND e.place < finding.place ORDER BY e.place DESC LIMIT 1);
-- Each buffer that a process had when the recording began may be freed once. Newer kernels have in place of an address
-- how far it is from the beginning of a page-aligned mapping, so there only the last three digits are compared.
CREATE TEMP TABLE begun_free AS
SELECT f.id, f.seq > b.after AS known, (SELECT count(*) FROM book_buffer k WHERE k.moment = 'begin' AND k.upid = f.upid
    AND NOT k.unread AND (k.address = r.address OR k.address < 1 << 30 AND k.address & 4095 = r.address & 4095)) AS n,
  row_number() OVER (PARTITION BY f.upid, r.address ORDER BY f.place) AS nth
FROM finding f JOIN begun b USING (upid) JOIN raw_record r USING (place)
WHERE f.rule IS NULL AND f.section = 'frees';
UPDATE finding SET rule = CASE
  WHEN EXISTS (SELECT 1 FROM begun_free b WHERE b.id = finding.id AND b.nth <= b.n) THEN 'P2'
  WHEN finding.upid IN (SELECT upid FROM lossy) THEN 'M1'
  WHEN (SELECT known FROM process_life p WHERE p.upid = finding.upid)
    OR EXISTS (SELECT 1 FROM begun_free b WHERE b.id = finding.id AND b.known) THEN 'F2' ELSE 'P1' END
WHERE rule IS NULL AND section = 'frees';
