-- E9, E10: calls in which their server ended, several times. What ended once while it served a call may have been ended
-- from outside (E3); and what ends several times as soon as it gets a call, is ended by that call.
-- needs: database/schema.sql: finding, raw_delivery, raw_record, raw_send, raw_thread, side_time; database/views.sql:
--   open_call, process; paths.sql: finding_names; ages.sql: last, process_life; failures.sql: failure; rule.sql: lossy
-- makes: temporary tables: ended_alone, serving, fell; indexes: ended_alone_upid, serving_upid

-- ---- the rules

-- E9 maybe: Its server ended while it served this and nothing else, {OFTEN} times or more.
--   next: why the server ended: its log at the place of the error reply
--   rests on: OFTEN, LONG, VERY_LONG
--   met by: `ends_while_it_serves()`: a service ends 110 ms after it got a call, three times
--   fault: calls in which the server ended
-- E10 real: Its server ended within {LONG} of getting this, and served nothing else, {OFTEN} times or more.
--   next: the crash of the server in this method: its log, and the data of the call
--   rests on: OFTEN, LONG, VERY_LONG
--   met by: `ends_while_it_serves()`: a service crashes in one method
--   fault: calls in which the server ended
--   where frames are missing: M3

-- ---- what they say of which finding

-- The processes that ended by themselves, as far as times tell: neither with the recording, nor right after another.
CREATE TEMP TABLE ended_alone AS
SELECT p.upid, p.ended
FROM (SELECT upid, ended, ended - lag(ended) OVER (ORDER BY ended, ended_after) AS since FROM process_life
  WHERE ended NOTNULL) p, last
WHERE coalesce(p.since > :LONG, 1) AND last.ts - p.ended > :VERY_LONG AND p.upid NOT IN (SELECT upid FROM lossy);
CREATE UNIQUE INDEX temp.ended_alone_upid ON ended_alone(upid);
-- How many calls they had not replied to.
CREATE TEMP TABLE serving AS
SELECT t.upid, count(*) AS n FROM (SELECT 1 FROM finding WHERE rule = 'E3' LIMIT 1) CROSS JOIN open_call c
  JOIN raw_thread t USING (utid)
WHERE c.served AND t.upid IN (SELECT upid FROM ended_alone) GROUP BY 1;
CREATE UNIQUE INDEX temp.serving_upid ON serving(upid);
-- The calls that failed because of such an end, and were the only one that the process served. If only their thread
-- ended, the call failed before. A process that is started again has the same name, and its calls the same interface.
CREATE TEMP TABLE fell AS
SELECT f.id, p.upid, p.name, f.code, n.interface, coalesce(a.ended - y.ts <= :LONG, 0) AS soon
FROM finding f JOIN finding_names n USING (id) JOIN failure e USING (id) JOIN raw_send s ON s.place = e.place
  JOIN raw_delivery d ON d.place = s.delivery JOIN raw_thread t ON t.utid = d.utid
  JOIN ended_alone a ON a.upid = t.upid JOIN serving v ON v.upid = t.upid
  JOIN process p ON p.upid = t.upid JOIN raw_record r ON r.place = e.reply
  JOIN side_time x ON x.seq = r.seq LEFT JOIN side_time y ON y.seq = d.seq
WHERE f.rule = 'E3' AND s.certain AND v.n = 1 AND a.ended - x.ts <= :LONG;
UPDATE finding SET rule = iif(o.soon AND o.n_soon >= :OFTEN, 'E10', 'E9'),
  said = iif(o.name IS NULL, 'its server', '{name}') || ' ended so {how_many} times',
  other_upid = o.upid,
  how_many = o.n
FROM (SELECT id, upid, name, soon, count(*) OVER one_path AS n, sum(soon) OVER one_path AS n_soon
  FROM fell WINDOW one_path AS (PARTITION BY name, code, interface)) o
WHERE o.id = finding.id AND o.n >= :OFTEN;
