-- The files that the frames of stacks are in: how many places of each, and how many of these have a name. ?1: the most
-- rows.
-- needs: database/views.sql: stack
-- makes: columns: path, build_id, places, named
SELECT path, build_id, count(DISTINCT address) AS places,
  count(DISTINCT iif(function NOTNULL, address, NULL)) AS named
FROM stack WHERE path <> '' GROUP BY 1, 2 ORDER BY 3 DESC, 1, 2 LIMIT ?1
