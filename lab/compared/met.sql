-- The processes of the new build.
SELECT DISTINCT h.process FROM held h JOIN capture c ON c.id = h.capture
WHERE c.build = :new AND c.malformed IS NULL AND c.failed IS NULL
