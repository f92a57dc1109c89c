-- K: processes that keep the file descriptors that they get, which are findings of their own, one for each process.
-- needs: database/schema.sql: finding, raw_delivery, raw_object, raw_process, raw_record, raw_send, raw_thread,
--   side_descriptors, side_time; database/views.sql: delivery; nodes.sql: node_of, who; ages.sql: recorded; judging.py:
--   counted
-- after: lookups.sql
-- makes: temporary tables: got_fd, rising, more_open, fd_by, fd_path

-- ---- what findings are called

-- descriptors are called: file descriptors kept

-- ---- the rules

-- K1 maybe: Its descriptors get higher numbers up to the end, and the kernel gives the lowest free one: it keeps them.
--   next: what the process does with the descriptors that come so, and where it should close them
--   rests on: TOO_MANY, GROWTH, LATELY
--   met by: `gets_descriptors()`: one of three is never closed
--   fault: file descriptors kept

-- K2 maybe: More of its descriptors are open at the end than when the first one came, most of those that came since.
--   next: what the process does with the descriptors that come so, and where it should close them
--   rests on: TOO_MANY, MOST, GROWTH, LATELY
--   met by: `keeps_copies()`: one of two is kept as a copy
--   fault: file descriptors kept

-- ---- what they say of which finding

-- The descriptors that each process got, with their numbers, in four quarters of the time from the first of them to the
-- end of the process's work, if that is most of its time.
-- beside: ages.sql
CREATE TEMP TABLE got_fd AS
SELECT upid, place, fd, CAST(min(4 * (at - first) / (1 - first), 3) AS INTEGER) AS quarter
FROM (
  SELECT *, min(at) OVER (PARTITION BY upid) AS first
  FROM (
    SELECT t.upid, o.place, o.fd, coalesce(1.0 * (x.ts - l.first_ts) / (l.grows_to_ts - l.first_ts),
      1.0 * (d.seq - l.first_seq) / (l.grows_to_seq - l.first_seq)) AS at
    FROM (SELECT 1 FROM raw_object WHERE sort = :FD LIMIT 1) CROSS JOIN raw_object o JOIN raw_delivery d USING (place)
      JOIN raw_thread t ON t.utid = d.utid JOIN recorded l ON l.upid = t.upid LEFT JOIN side_time x ON x.seq = d.seq
    WHERE o.sort = :FD))
WHERE first < 1 - :LATELY;
-- The processes of which the lowest number of each quarter is higher than that of the one before.
CREATE TEMP TABLE rising AS
WITH lowest AS (SELECT upid, quarter, min(fd) AS fd FROM got_fd GROUP BY 1, 2)
SELECT upid, a.fd AS low, d.fd AS high
FROM lowest a JOIN lowest b USING (upid) JOIN lowest c USING (upid) JOIN lowest d USING (upid)
WHERE (a.quarter, b.quarter, c.quarter, d.quarter) = (0, 1, 2, 3) AND a.fd < b.fd AND b.fd < c.fd AND c.fd < d.fd
  AND d.fd - a.fd >= :TOO_MANY AND d.fd - c.fd >= :GROWTH * (d.fd - a.fd);
-- The others of which more are open at the end: a process that copies what it keeps, and closes what came, gets its
-- number again. Other files of the process count too, so most of what came must be open, and some of it came late.
CREATE TEMP TABLE more_open AS
SELECT p.upid, a.open AS was, z.open AS is_now, z.most, g.n AS came
FROM side_descriptors a JOIN side_descriptors z USING (device, process) JOIN raw_process p USING (device, process)
  JOIN (SELECT upid, count(*) AS n, sum(quarter = 3) AS lately FROM got_fd GROUP BY 1) g USING (upid)
WHERE a.why = 'first' AND z.why = 'end' AND z.open - a.open >= :TOO_MANY AND z.open - a.open > :MOST * g.n
  AND g.lately >= :GROWTH * g.n AND upid NOT IN (SELECT upid FROM rising);
-- How each descriptor of theirs came, and whether it is open at the end, as far as numbers tell: it is the last one
-- with a number below all those of the last quarter.
CREATE TEMP TABLE fd_by AS
SELECT
  g.upid,
  g.place,
  z.high IS NULL OR g.fd < z.high AND g.place = max(g.place) OVER (PARTITION BY g.upid, g.fd) AS is_open,
  CASE WHEN d.kind = 'BR_REPLY' THEN 'reply to' WHEN d.oneway THEN 'oneway at' ELSE 'at' END AS relation,
  d.code,
  iif(d.kind = 'BR_REPLY', coalesce(n.upid, -g.upid), g.upid) AS about,
  iif(d.kind = 'BR_REPLY', coalesce(n.ptr, d.handle), d.ptr) AS node,
  (SELECT t.upid FROM raw_send x JOIN raw_thread t USING (utid) WHERE x.place = d.send) AS sender
FROM (SELECT upid, high FROM rising UNION ALL SELECT upid, NULL FROM more_open) z JOIN got_fd g USING (upid)
  JOIN delivery d USING (place)
  LEFT JOIN raw_send s ON s.place = d.call AND d.kind = 'BR_REPLY' LEFT JOIN node_of n ON n.generation = s.generation;
-- The path by which most of those came that are open, and who sent most of these.
CREATE TEMP TABLE fd_path AS
SELECT *, row_number() OVER (PARTITION BY upid ORDER BY n DESC, place) AS nth
FROM (
  SELECT upid, relation, code, about, node, count(*) AS came, sum(is_open) AS n,
    min(iif(is_open, place, NULL)) AS place,
    (SELECT w.who FROM fd_by o JOIN who w ON w.upid = o.sender WHERE o.is_open AND o.upid = b.upid AND o.code IS b.code
      AND o.relation = b.relation AND o.about = b.about AND o.node IS b.node GROUP BY o.sender
      ORDER BY count(*) DESC, min(o.place) LIMIT 1) AS sender
  FROM fd_by b GROUP BY upid, relation, code, about, node);
INSERT INTO finding(section, what, place, seq, upid, utid, code, relation, about, node, rule, note)
SELECT 'descriptors', 'kept', p.place, r.seq, p.upid, r.utid, p.code, p.relation, p.about, p.node, 'K1',
  'its lowest number rises from ' || z.low || ' to ' || z.high || '; of ' || counted(p.came, 'descriptor')
    || ' that came so at least ' || p.n || iif(p.n = 1, ' is', ' are') || ' open'
    || iif(p.relation = 'reply to', '', coalesce(', from ' || p.sender, ''))
    || coalesce((SELECT ', and of ' || sum(o.came) || ' others ' || sum(o.n) FROM fd_path o
      WHERE o.upid = p.upid AND o.nth > 1 HAVING count(*)), '')
FROM fd_path p JOIN rising z USING (upid) JOIN raw_record r USING (place)
WHERE p.nth = 1;
INSERT INTO finding(section, what, place, seq, upid, utid, code, relation, about, node, rule, note)
SELECT 'descriptors', 'kept', p.place, r.seq, p.upid, r.utid, p.code, p.relation, p.about, p.node, 'K2',
  'open are ' || z.was || ' when the first one came, and at the end ' || z.is_now || ' of at most ' || z.most || '; '
    || counted(z.came, 'descriptor') || ' came, ' || iif(p.came = z.came, 'all', p.came) || ' of them so'
    || iif(p.relation = 'reply to', '', coalesce(', from ' || p.sender, ''))
FROM fd_path p JOIN more_open z USING (upid) JOIN raw_record r USING (place)
WHERE p.nth = 1;
