-- The defects of a capture, the strongest first: how many findings each has, of all that took their paths, and what is
-- said of the first one of its strongest verdict. What is explained counts only in a defect that has nothing else.
-- needs: database/schema.sql: finding; rules/rule.sql: rule; rules/defects.sql: defect, finding_defect;
--   rules/judging.py: rank_of
-- makes: columns: id, kind, who, path, call, verdict, n, n_all, waiting, rules, age, place, own_path, note
WITH each AS (
  SELECT *, max(min(rank) OVER (PARTITION BY defect), 2) AS least
  FROM (SELECT x.defect, f.*, r.verdict, coalesce(rank_of(r.verdict), 0) AS rank
    FROM finding_defect x JOIN finding f ON f.id = x.finding JOIN rule r ON r.id = f.rule)),
counted AS (SELECT * FROM each WHERE rank <= least),
leading AS (SELECT *, row_number() OVER (PARTITION BY defect ORDER BY rank, place, id) AS nth FROM counted),
paths AS (SELECT defect, sum(n_all) AS n_all
  FROM (SELECT defect, max(n_all) AS n_all FROM counted
    GROUP BY defect, relation, code, iif(relation = 'given', 0, about), iif(relation = 'given', 0, node), way, giver,
      status, iif(relation = 'handle', handle, 0), iif(section = 'handles', upid, 0))
  GROUP BY defect),
sums AS (SELECT defect, count(*) AS n, max(coalesce(waiting, 0)) AS waiting, group_concat(DISTINCT rule) AS rules,
    max(age) AS age FROM counted GROUP BY defect)
SELECT d.id, d.kind, d.who, d.path, d.call, f.verdict, s.n, p.n_all, s.waiting, s.rules, s.age, f.place,
  f.path AS own_path, f.note
FROM leading f JOIN sums s USING (defect) JOIN paths p USING (defect) JOIN defect d ON d.id = f.defect
WHERE f.nth = 1 ORDER BY f.rank, s.waiting DESC, s.n DESC, d.kind, d.who, d.path
