-- What is not known, or no longer real, where only a part of a system was recorded.
-- needs: database/schema.sql: book_call, finding, raw_delivery, raw_process, raw_send; database/views.sql: process;
--   nodes.sql: who; rule.sql: if_part, narrowed; waits.sql: waits; judging.py: counted, duration
-- after: missing.sql
-- makes: temporary tables: unrecorded, has_call; indexes: unrecorded_id

-- The findings whose other side is a process that was not recorded: the one that a handle leads to, which should answer
-- or gave the handle; of what came to a process, its sender; and of a name that was asked for, the context manager.
CREATE TEMP TABLE unrecorded AS
SELECT f.id FROM narrowed n CROSS JOIN finding f
WHERE n.processes AND f.section NOT IN ('served', 'buffers', 'services', 'books', 'nodes', 'pools', 'descriptors')
  AND (f.target IS NULL OR f.target NOT IN (SELECT upid FROM raw_process));
INSERT INTO unrecorded
SELECT f.id FROM narrowed n CROSS JOIN finding f JOIN raw_delivery d USING (place)
WHERE n.processes AND f.section IN ('served', 'buffers') AND d.send IS NULL;
INSERT INTO unrecorded
SELECT f.id FROM narrowed n CROSS JOIN finding f JOIN raw_send s USING (place)
WHERE n.processes AND f.section = 'services' AND s.delivery IS NULL;
INSERT INTO unrecorded
SELECT f.id FROM narrowed n CROSS JOIN finding f
WHERE n.processes AND f.section = 'books'
  AND (f.upid NOT IN (SELECT upid FROM raw_process) OR f.target NOT IN (SELECT upid FROM raw_process));
CREATE UNIQUE INDEX temp.unrecorded_id ON unrecorded(id);

-- Which thread has a call, by the driver's book of the end: if the thread that made the call has one of its code there.
CREATE TEMP TABLE has_call AS
SELECT f.id, iif(b.server_tid IS NULL, 'no thread of ', 'thread ' || b.server_tid || ' of ')
  || coalesce((SELECT w.who FROM process p JOIN who w USING (upid) WHERE p.pid = b.server_pid
      ORDER BY upid DESC LIMIT 1), 'process ' || b.server_pid) || ' has it' AS told
FROM unrecorded JOIN finding f USING (id) JOIN book_call b ON b.utid = f.utid AND b.code = f.code
WHERE f.section = 'calls' AND f.what = 'open' AND b.moment = 'end' AND b.side = 'made' AND b.server_pid NOTNULL
GROUP BY f.id HAVING count(*) = 1;
UPDATE finding SET rule = 'C12',
  note = coalesce('open for ≥ ' || duration(age) || '; ', '')
    || iif(waiting > 0, counted(waiting, 'waits', 'wait') || ' for it; ', '') || 'who has it is not recorded: '
    || coalesce('by the driver''s book of the end ' || (SELECT told FROM has_call h WHERE h.id = finding.id),
      'see the copy of the driver''s transactions at the end')
WHERE rule IN ('C5', 'U2', 'M2') AND section = 'calls' AND what = 'open' AND finding.id IN (SELECT id FROM unrecorded);
UPDATE finding SET note = replace(note, 'not got', 'who got it is not recorded')
WHERE section = 'calls' AND what = 'open' AND finding.id IN (SELECT id FROM unrecorded);
-- A caller that has ended waits no more.
UPDATE finding SET rule = 'C13' WHERE rule IN ('C4', 'C6', 'C8', 'C9', 'C10', 'C11', 'U2', 'M2') AND section = 'served'
  AND finding.id IN (SELECT id FROM unrecorded);
-- A thread that serves a call may be in another one of another device.
UPDATE finding SET rule = CASE WHEN w.delivery IS NULL THEN 'C7' WHEN rule = 'C13' THEN rule ELSE 'C4' END,
  note = iif(w.delivery IS NULL, note,
    coalesce(note || '; ', '') || 'what its thread does on other devices is not recorded')
FROM narrowed n, waits w
WHERE n.devices AND w.id = finding.id AND rule IN ('C4', 'C6', 'C8', 'C9', 'C10', 'C11', 'C13', 'U2');
UPDATE finding SET note = coalesce(note || '; ', '') || p.told FROM if_part p
WHERE p.rule = finding.rule AND finding.id IN (SELECT id FROM unrecorded);
