-- How fast does a defect grow, by build: findings an hour of what was recorded, and of the captures the share that have
-- it? :defect
SELECT c.build, count(*) AS captures, count(f.defect) AS "with", coalesce(sum(f.n), 0) AS n,
  round(coalesce(sum(f.n), 0) / (sum(c.seconds) / 3600), 2) AS n_per_hour
FROM capture c JOIN build b ON b.name = c.build
  LEFT JOIN found f ON f.capture = c.id AND f.defect = :defect AND f.verdict IN ('real', 'maybe')
WHERE c.malformed IS NULL AND c.failed IS NULL GROUP BY c.build ORDER BY b.number
