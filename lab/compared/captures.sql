-- The captures of the builds :old, a list in JSON, and of the build :new, which count: the old ones first. :of_part: how
-- the doubt of those begins that have only a part of a system.
SELECT id, device, build = :new AS is_new, seconds, coalesce(side, 0) > 0 AS has_side,
  coalesce(substr(doubt, 1, length(:of_part)) = :of_part, 0) AS of_part FROM capture
WHERE (build = :new OR build IN (SELECT value FROM json_each(:old))) AND malformed IS NULL AND failed IS NULL
ORDER BY is_new, digest
