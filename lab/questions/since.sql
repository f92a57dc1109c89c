-- Each defect: on how many devices, in how many captures, and in which build first and last, by the order of the table
-- `build`.
WITH seen AS (SELECT f.defect, min(b.number) AS since, max(b.number) AS until, count(DISTINCT c.device) AS devices,
    count(*) AS captures, sum(f.n) AS n
  FROM found f JOIN capture c ON c.id = f.capture JOIN build b ON b.name = c.build
  WHERE f.verdict IN ('real', 'maybe') AND c.malformed IS NULL GROUP BY f.defect)
SELECT d.id, d.kind, d.who, d.path, (SELECT name FROM build WHERE number = s.since) AS since,
  (SELECT name FROM build WHERE number = s.until) AS until, s.devices, s.captures, s.n
FROM seen s JOIN defect d ON d.id = s.defect ORDER BY s.devices DESC, s.n DESC, d.id
