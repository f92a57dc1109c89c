-- The builds of a lab in their order: by the middle one of the times at which their captures began, because the clock
-- of one device may be wrong. Builds without times come first, by their names. But those that are listed in a file come
-- before all others, in that order.
CREATE TEMP TABLE listed(name TEXT PRIMARY KEY, number INTEGER NOT NULL);
CREATE TEMP VIEW build AS
WITH timed AS (SELECT build, begun, row_number() OVER (PARTITION BY build ORDER BY begun NULLS LAST) AS at,
    count(begun) OVER (PARTITION BY build) AS n FROM capture),
middle AS (SELECT build AS name, max(iif(at = (n + 1) / 2, begun, NULL)) AS begun, count(*) AS captures FROM timed
  GROUP BY build)
SELECT row_number() OVER (ORDER BY l.number NULLS LAST, begun, name) AS number, name, begun, captures
FROM middle LEFT JOIN listed l USING (name);
