-- H13: handles that a process keeps because the one that handed them over does not take them back.
-- needs: database/schema.sql: finding, raw_generation, raw_record; nodes.sql: who; paths.sql: given, given_way, way;
--   ages.sql: process_life; rule.sql: lossy; ways.sql: kept_handle, kept_way, of_way; references.sql: growing,
--   nearly_all
-- makes: temporary tables: from_other, let_go_of_other, forgotten

-- ---- the rules

-- H13 real: {TOO_MANY} or more that one process gave are kept, and what another one gave later was let go of.
--   next: what the process that gave them does when it needs them no longer: it does not take them back
--   rests on: TOO_MANY, MANY, NEARLY_ALL, GROWTH, LATELY
--   met by: `giver_forgets()`: a client takes nothing back, and another one does
--   fault: references kept
--   where frames are missing: M2

-- ---- what they say of which finding

-- What other processes handed over to the same process with the same calls, and how many of these it keeps.
CREATE TEMP TABLE from_other AS
SELECT
  w.id AS way,
  o.sender,
  o.n,
  o.kept
FROM kept_way w JOIN way y ON y.id = w.way AND NOT y.reply
  JOIN given_way o ON (o.way, o.upid) = (w.way, w.upid) AND o.sender <> w.sender;
-- One of them from which hardly any are kept takes back what it gave, if they are let go of while it lives. So the
-- process lets go of what is taken back: of what came before the last :MANY of these, also the next collection of
-- garbage would have let go. Where frames of a giver are missing, it is not known how much it gave.
CREATE TEMP TABLE let_go_of_other AS
SELECT way, max(came) AS came
FROM (
  SELECT
    o.way,
    r.seq AS came,
    row_number() OVER (PARTITION BY o.way, o.sender ORDER BY r.seq DESC) AS nth
  FROM (SELECT 1 FROM from_other LIMIT 1) CROSS JOIN given v JOIN kept_way w ON (w.upid, w.way) = (v.upid, v.way)
    JOIN from_other o ON (o.way, o.sender) = (w.id, v.sender) JOIN raw_generation g ON g.id = v.generation
    JOIN raw_record r ON r.place = g.given_by JOIN raw_record e ON e.place = g.end
    JOIN process_life p ON p.upid = o.sender
  WHERE o.sender NOT IN (SELECT upid FROM lossy) AND w.sender NOT IN (SELECT upid FROM lossy)
    AND o.n - o.kept >= :NEARLY_ALL * o.n AND g.acquired + g.increfs > 0 AND coalesce(e.seq <= p.ended_after, 1))
WHERE nth = :MANY
GROUP BY 1;
-- Who has let go of the strong reference and keeps a weak one forgets that itself.
CREATE TEMP TABLE forgotten AS
SELECT y.way
FROM of_way y JOIN let_go_of_other o ON o.way = y.way AND o.came > y.came JOIN finding f USING (generation)
  JOIN raw_generation g ON g.id = y.generation
WHERE f.rule IN ('H5', 'H10', 'H14') AND y.way IN (SELECT way FROM nearly_all) AND y.way IN (SELECT way FROM growing)
  AND g.strong > 0
GROUP BY 1
HAVING count(*) >= :TOO_MANY;
UPDATE finding SET
  rule = 'H13',
  said = 'held by {who}',
  other_upid = upid
FROM kept_handle k
WHERE rule IN ('H5', 'H10', 'H14') AND k.generation = finding.generation AND k.way IN (SELECT way FROM forgotten);
-- Whether the process or the giver forgets them, the number of those from others says.
UPDATE finding SET note = coalesce(note || '; ', '') || o.told
FROM kept_handle k JOIN (
  SELECT way, 'of those from others it keeps ' || group_concat(kept || ' of ' || n || ' from ' || who, ', ') AS told
  FROM (
    SELECT
      f.way,
      f.kept,
      f.n,
      x.who,
      row_number() OVER (PARTITION BY f.way ORDER BY f.n DESC, f.sender) AS nth
    FROM from_other f JOIN who x ON x.upid = f.sender ORDER BY 1, nth)
  WHERE nth <= :NAMED
  GROUP BY 1) o USING (way)
WHERE rule IN ('H5', 'H8', 'H9', 'H10', 'H13', 'H14') AND k.generation = finding.generation;
