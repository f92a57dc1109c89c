-- Who asked to be told of whose death, by interface, and what came of it; most first. ?1: the most rows.
-- needs: database/joined_views.sql: death_request
-- makes: columns: upid, owner_upid, interface, requests, waiting, unread, notified, cleared
SELECT upid, owner_upid, interface, count(*) AS requests, sum(outcome = 'waiting') AS waiting,
  sum(outcome = 'unread') AS unread, sum(outcome = 'notified') AS notified, sum(outcome = 'cleared') AS cleared
FROM death_request GROUP BY upid, owner_upid, interface ORDER BY requests DESC, upid, owner_upid LIMIT ?1
