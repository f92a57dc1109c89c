-- Which calls take longest, by build and server, in milliseconds?
SELECT c.build, t.server, t.call, CAST(total(t.sends) AS INTEGER) AS sends, max(t.longest) / 1000000 AS ms
FROM talk t JOIN capture c ON c.id = t.capture WHERE t.longest NOTNULL AND c.malformed IS NULL
GROUP BY c.build, t.server, t.call
ORDER BY ms DESC, c.build, t.server, t.call LIMIT 20
