-- One cause is one finding: what a process does about the death of another one, or leaves undone, is told once.
-- needs: database/schema.sql: finding
-- after: missing.sql
-- makes: temporary tables: of_death, led_by

-- What tells of a death, the strongest first: sends to the dead, a death of which the process acknowledges hardly any,
-- references to the dead, another death that is not acknowledged, and the clears that wait for that.
CREATE TEMP TABLE of_death AS
WITH death AS (SELECT id, upid, cookie, place, iif(rule = 'D8', 2, 4) AS rank,
    coalesce('process ' || target, 'object ' || generation, 'cookie ' || cookie) AS dead FROM finding
  WHERE section = 'deaths' AND what = 'unacknowledged' AND rule NOT IN ('L1', 'D9', 'D11'))
SELECT id, upid, coalesce('process ' || target, 'object ' || generation) AS dead,
  CASE rule WHEN 'E1' THEN 0 WHEN 'E13' THEN 1 ELSE 3 END AS rank, place
FROM finding WHERE rule IN ('E1', 'E13', 'H3')
UNION ALL SELECT id, upid, dead, rank, place FROM death
UNION ALL SELECT f.id, f.upid, min(d.dead), 5, f.place FROM finding f JOIN death d USING (upid, cookie)
WHERE f.section = 'clears' AND f.rule = 'D3' GROUP BY f.id;
CREATE TEMP TABLE led_by AS
SELECT id, rank, first FROM (SELECT id, rank, first_value(id) OVER of_one AS first, min(rank) OVER of_one AS first_rank
  FROM of_death WHERE dead NOTNULL WINDOW of_one AS (PARTITION BY upid, dead ORDER BY rank, place))
WHERE rank > first_rank;
UPDATE finding SET lead = l.first FROM led_by l WHERE l.id = finding.id;
