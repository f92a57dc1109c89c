-- Who holds how many objects of whom at the end, by interface; most first. ?1: the most rows.
-- needs: database/joined_views.sql: holder
-- makes: columns: upid, owner_upid, interface, service, handles, references_held, since
SELECT upid, owner_upid, interface, iif(count(DISTINCT ptr) = 1, max(service), NULL) AS service, count(*) AS handles,
  sum(strong) AS references_held, min(since) AS since
FROM holder GROUP BY upid, owner_upid, interface ORDER BY handles DESC, upid, owner_upid LIMIT ?1
