-- Which defects does a build have on `devices` devices or more that another one has not? :old, :new, :devices
SELECT d.id, d.kind, d.who, d.path, count(DISTINCT c.device) AS devices, count(*) AS captures, sum(f.n) AS n
FROM found f JOIN capture c ON c.id = f.capture JOIN defect d ON d.id = f.defect
WHERE c.build = :new AND c.malformed IS NULL AND f.verdict IN ('real', 'maybe')
  AND f.defect NOT IN (SELECT f.defect FROM found f
  JOIN capture c ON c.id = f.capture WHERE c.build = :old AND c.malformed IS NULL)
GROUP BY d.id HAVING count(DISTINCT c.device) >= CAST(:devices AS INTEGER) ORDER BY devices DESC, n DESC, d.id
