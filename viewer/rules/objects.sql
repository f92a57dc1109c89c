-- O: objects and flags. A bad object and the call that the driver refused for it are one finding.
-- needs: database/schema.sql: finding, raw_frame
-- after: failures.sql
-- makes: nothing

-- ---- what findings are called

-- objects are called: bad objects
-- flags are called: unknown flags

-- ---- the rules

-- O1 real: Bad data that a process handed over: the driver refuses them.
--   next: the code that writes the data: the object at the offset of the row
--   met by: `bad_object()`: an offset that is no multiple of four, in a write
-- O2 maybe: Bad data in a read: mostly not the bytes that were delivered.
--   next: whether the capture has the data as they were delivered; then as for O1
--   met by: `bad_object_read()`
-- O3 normal: Flags that the header does not name.
--   met by: `unknown_flag()`

-- ---- what they say of which finding

UPDATE finding SET lead = c.id FROM finding c
WHERE finding.section = 'objects' AND +c.section = 'calls' AND c.place = finding.place AND c.rule = 'E5';
UPDATE finding SET rule = iif(section = 'flags', 'O3', iif((SELECT direction FROM raw_frame f WHERE f.seq = finding.seq)
  = :WRITE, 'O1', 'O2')) WHERE rule IS NULL AND section IN ('objects', 'flags');
