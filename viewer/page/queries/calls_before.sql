-- The threads that were in calls before the first file of a flight recorder. A process without a frame is not in `who`.
-- needs: database/schema.sql: side_calls, side_process
-- makes: columns: who, thread, made, served
SELECT trim(coalesce(p.name, 'process') || ' ' || c.process) AS who, c.thread, c.made, c.served
FROM side_calls c LEFT JOIN side_process p USING (device, process)
ORDER BY c.served DESC, c.made DESC, c.process, c.thread LIMIT ?1;
