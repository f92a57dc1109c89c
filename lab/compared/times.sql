-- The times of methods in each of the captures that count.
SELECT t.method, t.capture, t.calls, t.queue, t.work
FROM capture c CROSS JOIN took t ON t.capture = c.id
WHERE (c.build = :new OR c.build IN (SELECT value FROM json_each(:old))) AND c.malformed IS NULL AND c.failed IS NULL
