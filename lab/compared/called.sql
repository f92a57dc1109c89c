-- Who makes and who gets each of these calls in the new build.
SELECT DISTINCT t.caller, t.server, t.call FROM talk t JOIN capture c ON c.id = t.capture
WHERE c.build = :new AND c.malformed IS NULL AND c.failed IS NULL AND t.call IN (SELECT value FROM json_each(:calls))
