-- V: what is slow, which are findings of their own: calls of main threads of apps, by method; and one listener among many.
-- needs: database/schema.sql: data_hash, finding, object_interface, raw_call, raw_delivery, raw_generation, raw_object,
--   raw_record, raw_send, side_time; database/views.sql: process, thread; database/time_views.sql: call_tree; sums.sql:
--   again_sum; nodes.sql: node_of, who; counts.sql: sent; judging.py: counted, duration, hash_of
-- after: used_up.sql
-- makes: temporary tables: slow_main, slow_part, timed_path, listener, late_listener, slow_listener, periodic

-- ---- what findings are called

-- slow are called: calls that take long

-- ---- the rules

-- V1 explained: The main thread of an app waited over {LONG} for it; the note says whose the time was.
--   next: what the process does whose part of the time is the longest: ./view --call has all parts of the call
--   rests on: LONG, NAMED
--   met by: `app_waits()`: a main thread waits for a service that waits for another one
--   fault: slow calls of a main thread
-- V2 maybe: Of {TOO_MANY} alike listeners or more this one takes over {LONG}, and {OLD} times as long as half of them.
--   next: what this listener does when it is told
--   rests on: TOO_MANY, LONG, OLD
--   met by: `listeners()`: eleven listeners are told, and one takes 120 ms
--   fault: a listener that is slower than others
-- V3 explained: It asks {AGAIN} times or more, for over {VERY_LONG}, with the same data and at one period.
--   next: whether the caller can wait to be told, or keep the answer
--   rests on: AGAIN, VERY_LONG, USUAL
--   met by: `asks_again()`: a client asks a service each 60 ms, 20 times
--   fault: the same request over and over

-- ---- what they say of which finding

-- The calls of main threads of apps that took long, of each path the longest. An app has a user id of its own.
-- beside: counts.sql
CREATE TEMP TABLE slow_main AS
SELECT p.upid, p.node_upid AS server, p.ptr, p.code, c.place, c.seq, c.utid, z.ts - x.ts AS dur, count(*) OVER path AS n,
  row_number() OVER (path ORDER BY z.ts - x.ts DESC, c.place) AS nth
FROM sent p JOIN process a USING (upid) JOIN thread t ON t.upid = a.upid AND t.tid = a.pid
  CROSS JOIN raw_send s CROSS JOIN raw_call c CROSS JOIN raw_record r CROSS JOIN side_time x CROSS JOIN side_time z
WHERE p.longest > :LONG AND p.node_upid NOTNULL AND a.uid % 100000 BETWEEN :FIRST_APP AND :LAST_APP
  AND s.generation = p.generation AND c.place = s.place AND c.utid = t.utid AND r.place = s.place AND r.code = p.code
  AND x.seq = c.seq AND z.seq = c.seq + c.dur_seq AND z.ts - x.ts > :LONG
WINDOW path AS (PARTITION BY p.upid, p.node_upid, p.ptr, p.code);
-- Whose the time was of the longest one: by process, and by what it was. A query for each call finds it by its place.
CREATE TEMP TABLE slow_part AS
SELECT place, server, what, sum(ns) AS ns, row_number() OVER (PARTITION BY place ORDER BY sum(ns) DESC, server) AS nth
FROM (
  SELECT m.place, json_extract(j.value, '$.server') AS server, w.key AS what, w.value AS ns
  FROM slow_main m, json_each((SELECT json_group_array(json_object('server', t.server_upid, 'parts', json_object(
        'queue', t.queue, 'work', t.work, 'back', t.back, 'unknown', iif(t.is_unknown, t.own, NULL))))
      FROM call_tree t WHERE t.root = m.place)) j, json_each(j.value, '$.parts') w
  WHERE m.nth = 1)
WHERE ns > 0 GROUP BY 1, 2, 3;
INSERT INTO finding(section, what, place, seq, upid, utid, code, ptr, target, relation, about, node, rule, note, culprit)
SELECT 'slow', 'main thread', m.place, m.seq, m.upid, m.utid, m.code, m.ptr, m.server, 'to', m.server, m.ptr, 'V1',
  iif(m.n > 1, counted(m.n, 'call') || ', the longest ', '') || duration(m.dur) || ': '
    || (SELECT group_concat(duration(p.ns) || CASE p.what WHEN 'queue' THEN ' waiting for a thread of '
        WHEN 'work' THEN ' at work in ' WHEN 'back' THEN ' on the way back from ' ELSE ' not known, at ' END
        || coalesce(w.who, 'a server that is not known'), ', ')
      FROM (SELECT * FROM slow_part WHERE place = m.place ORDER BY nth LIMIT :NAMED) p
        LEFT JOIN who w ON w.upid = p.server),
  (SELECT server FROM slow_part p WHERE p.place = m.place AND p.nth = 1 AND p.what <> 'unknown')
FROM slow_main m WHERE m.nth = 1;

-- What a process sent to objects of many others by one code: each with its longest call; or with the longest handler of
-- oneway sends, the time from the delivery until its buffer is freed. Of objects without an interface it is not known
-- which ones are alike.
-- beside: counts.sql
CREATE TEMP TABLE timed_path AS
SELECT p.generation, p.code, p.oneway, p.upid, p.node_upid AS server, p.ptr,
  iif(p.oneway, p.handled, p.longest) AS longest
FROM (SELECT 1 FROM object_interface LIMIT 1) CROSS JOIN sent p
WHERE (p.upid, p.code, p.oneway) IN (
  SELECT upid, code, oneway FROM (SELECT DISTINCT upid, code, oneway, node_upid FROM sent)
  GROUP BY 1, 2, 3 HAVING count(*) >= :TOO_MANY);
-- What a process told listeners of one interface by one code, each process that has some with its longest call, or
-- handler.
CREATE TEMP TABLE listener AS
SELECT *, count(*) OVER told AS n, row_number() OVER (told ORDER BY longest) AS nth
FROM (SELECT p.upid, p.code, p.oneway, o.interface, p.server, p.ptr, max(p.longest) AS longest
  FROM timed_path p JOIN object_interface o ON (o.upid, o.ptr) = (p.server, p.ptr)
  WHERE p.longest NOTNULL GROUP BY 1, 2, 3, 4, 5)
WINDOW told AS (PARTITION BY upid, code, oneway, interface);
-- Those whose longest call is far longer than that of half of them, and then all their calls: it is the median that counts.
CREATE TEMP TABLE late_listener AS
SELECT l.*, m.longest AS usual FROM listener m JOIN listener l USING (upid, code, oneway, interface)
WHERE m.nth = (m.n + 1) / 2 AND m.n >= :TOO_MANY AND l.longest > max(:LONG, :OLD * m.longest);
CREATE TEMP TABLE slow_listener AS
SELECT *
FROM (SELECT l.server, l.ptr, l.code, l.oneway, l.n, l.usual, s.place, s.seq, d.utid, z.ts - x.ts AS dur,
    row_number() OVER (PARTITION BY l.upid, l.code, l.oneway, l.server, l.ptr ORDER BY z.ts - x.ts) AS at,
    count(*) OVER (PARTITION BY l.upid, l.code, l.oneway, l.server, l.ptr) AS calls
  FROM late_listener l JOIN timed_path p USING (upid, code, oneway, server, ptr) CROSS JOIN raw_send s
    CROSS JOIN raw_record r LEFT JOIN raw_call c ON c.place = s.place JOIN raw_delivery d ON d.place = s.delivery
    JOIN side_time x ON x.seq = iif(l.oneway, d.seq, s.seq)
    JOIN side_time z ON z.seq = iif(l.oneway, d.seq + d.dur_seq, c.seq + c.dur_seq)
  WHERE s.generation = p.generation AND r.place = s.place AND r.code = p.code)
WHERE at = (calls + 1) / 2 AND dur > max(:LONG, :OLD * usual);
INSERT INTO finding(section, what, place, seq, upid, utid, code, ptr, relation, about, node, rule, said, how_long, usually,
  how_many)
SELECT 'slow', 'listener', place, seq, server, utid, code, ptr, iif(oneway, 'oneway at', 'at'), server, ptr, 'V2',
  'it takes {how_long}, half of {how_many:listener} {usually} at most', dur, usual, n
FROM slow_listener;

-- The calls with as many bytes of data that a process made again and again, where the longest time from one to the next
-- is no more than :USUAL times the shortest. Who gets an object each time asks for another one.
-- beside: loading
CREATE TEMP TABLE periodic AS
SELECT * FROM again_sum WHERE n >= :AGAIN AND last - first > :VERY_LONG AND most <= :USUAL * least;
DELETE FROM periodic
WHERE EXISTS (SELECT 1 FROM raw_call c JOIN raw_object o ON o.place = c.closer WHERE c.place = periodic.place);
INSERT INTO data_hash
WITH hashed AS MATERIALIZED (
  SELECT s.place, hash_of(r.attachment, r.data_size) AS hash
  FROM periodic p CROSS JOIN raw_send s ON s.generation = p.generation JOIN raw_record r ON r.place = s.place
  WHERE (r.code, r.data_size) = (p.code, p.data_size) AND s.place NOT IN (SELECT place FROM data_hash))
SELECT place, hash FROM hashed WHERE hash NOTNULL;
INSERT INTO finding(section, what, place, seq, upid, utid, code, ptr, target, relation, about, node, rule, said, how_many,
  how_long)
SELECT 'slow', 'again', p.place, s.seq, g.upid, s.utid, p.code, n.ptr, n.upid, 'to', n.upid, n.ptr, 'V3',
  '{how_many:time} with the same data, once in {how_long}', p.n, (p.last - p.first) / (p.n - 1)
FROM periodic p JOIN raw_generation g ON g.id = p.generation JOIN node_of n ON n.generation = p.generation
  JOIN raw_send s USING (place) JOIN data_hash f USING (place)
WHERE p.n = (SELECT count(*) FROM raw_send x JOIN raw_record r USING (place) JOIN data_hash h USING (place)
    WHERE x.generation = p.generation AND r.code = p.code AND h.hash = f.hash);
