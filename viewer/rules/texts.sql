-- The names, the path and the note of each finding, for who reads the database: here columns become texts.
-- needs: database/schema.sql: finding; database/views.sql: process; nodes.sql: who; paths.sql: path_of, way_path;
--   judging.py: note_text
-- after: matters.sql
-- makes: nothing

UPDATE finding SET (interface, others, method, service, path) = (
  SELECT interface, others, method, service, coalesce(path, '') FROM path_of p WHERE p.id = finding.id);
UPDATE finding SET note = note_text(said, other, (SELECT who FROM who w WHERE w.upid = other_upid),
  (SELECT name FROM process p WHERE p.upid = other_upid), how_many, of_how_many, how_long, usually,
  (SELECT path FROM way_path w WHERE w.id = way)) || coalesce('; ' || note, '')
WHERE said NOTNULL;
