-- The names of processes and calls of one side: of the builds :old, a list in JSON, or of the build :new if :is_new.
WITH side AS (SELECT id FROM capture WHERE malformed IS NULL AND failed IS NULL
  AND iif(:is_new, build = :new, build IN (SELECT value FROM json_each(:old))))
SELECT process, NULL FROM held WHERE capture IN side
UNION SELECT caller, call FROM talk WHERE capture IN side
UNION SELECT server, NULL FROM talk WHERE capture IN side
