-- How many took the path of each finding, how many of these came to a good end, and how long that took at most.
-- needs: database/schema.sql: finding, raw_generation, raw_record, raw_send; sums.sql: came_sum, sent_sum, served_sum;
--   nodes.sql: node_of; paths.sql: answered, given, given_way
-- makes: temporary tables: sent, buffer_path, send_path, served_path; indexes: buffer_path_of, send_path_of,
--   served_path_of

-- What was sent to each generation of a handle, by code, and the node to which it leads. The sum is made once, for all
-- statements that take it.
CREATE TEMP TABLE sent(generation INTEGER, code INTEGER, oneway INTEGER, sends INTEGER, failed INTEGER, refused INTEGER,
  open INTEGER, bytes REAL, delivered INTEGER, one_fits INTEGER, buffers INTEGER, peak INTEGER, longest_seq INTEGER,
  longest INTEGER, good INTEGER, good_seq INTEGER, good_time INTEGER, waited INTEGER, handled INTEGER, answer INTEGER,
  upid INTEGER, handle INTEGER, node_upid INTEGER, ptr INTEGER, cookie INTEGER);
-- beside: nodes.sql, where they stay
INSERT INTO sent
SELECT x.*, g.upid, g.handle, n.upid, n.ptr, n.cookie
FROM sent_sum x CROSS JOIN raw_generation g ON g.id = x.generation LEFT JOIN node_of n ON n.generation = x.generation;

-- Buffers, by what they came for, and by the process that got them and must free them: of each path that has a finding
-- how many there are, how many were freed, and how long these were held. Of calls the path says which process gets
-- them, and replies on one path are for each that calls. Columns have types where findings are looked up by them:
-- without, no index is used.
CREATE TEMP TABLE buffer_path(relation TEXT, code INTEGER, about INTEGER, node INTEGER, receiver INTEGER, n INTEGER,
  good INTEGER, longest_seq INTEGER, longest INTEGER);
-- beside: nodes.sql
INSERT INTO buffer_path
WITH d AS MATERIALIZED (
  SELECT
    CASE WHEN d.reply THEN 'reply to' WHEN d.oneway THEN 'oneway at' ELSE 'at' END AS relation,
    d.code,
    iif(d.reply, coalesce(n.upid, -d.receiver), d.receiver) AS about,
    iif(d.reply, coalesce(n.ptr, d.handle), d.ptr) AS node,
    iif(d.reply, n.cookie, d.cookie) AS cookie,
    d.receiver,
    d.n,
    d.good,
    d.longest_seq,
    d.longest
  FROM (SELECT 1 FROM finding WHERE section = 'buffers' LIMIT 1) CROSS JOIN came_sum d
    LEFT JOIN node_of n ON n.generation = d.generation),
  path AS (SELECT *, ifnull(code, '') AS of_code, ifnull(node, '') AS of_node, ifnull(cookie, '') AS of_cookie FROM d)
SELECT relation, code, about, node, receiver, sum(n) AS n, sum(good) AS good, max(longest_seq) AS longest_seq,
  max(longest) AS longest
FROM path
WHERE (about, of_node, of_code, relation, of_cookie) IN (
  SELECT about, of_node, of_code, relation, of_cookie FROM path WHERE n > good)
GROUP BY 1, 2, 3, 4, 5;
CREATE UNIQUE INDEX temp.buffer_path_of ON buffer_path(about, node, code, relation, receiver);
UPDATE finding SET (n_all, n_good, longest_seq, longest) = (
  SELECT sum(n), sum(good), max(longest_seq), max(longest) FROM buffer_path b
  WHERE b.about = finding.about AND b.node IS finding.node AND b.code IS finding.code AND b.relation = finding.relation)
WHERE section = 'buffers';

-- Calls and oneway sends to a target, by code: how many were answered or delivered, and how long that took.
CREATE TEMP TABLE send_path(code INTEGER, upid INTEGER, ptr INTEGER, cookie INTEGER, oneway INTEGER, n INTEGER,
  good INTEGER, longest_seq INTEGER, longest INTEGER);
INSERT INTO send_path
SELECT code, coalesce(node_upid, -upid) AS upid, coalesce(ptr, handle) AS ptr, coalesce(cookie, 0) AS cookie, oneway,
  sum(sends) AS n, sum(good) AS good, max(good_seq) AS longest_seq, max(good_time) AS longest
FROM sent
WHERE (code, coalesce(node_upid, -upid), coalesce(ptr, handle)) IN (
  SELECT code, coalesce(target, -upid), iif(target IS NULL, handle, ptr) FROM finding
  WHERE section IN ('calls', 'refused', 'strays', 'oneway', 'spam', 'objects', 'books'))
GROUP BY 1, 2, 3, 4, 5;
CREATE UNIQUE INDEX temp.send_path_of ON send_path(code, upid, ptr, cookie, oneway);
UPDATE finding SET n_all = p.n, n_good = p.good, longest_seq = p.longest_seq, longest = p.longest
FROM send_path p, raw_record r
WHERE section IN ('calls', 'refused', 'oneway', 'spam', 'strays', 'objects') AND r.place = finding.place
  AND p.code = finding.code AND p.upid = coalesce(finding.target, -finding.upid)
  AND p.ptr = iif(finding.target IS NULL, finding.handle, finding.ptr)
  AND p.cookie = iif(finding.target IS NULL, 0, finding.cookie)
  AND p.oneway = coalesce((SELECT x.flags & :TF_ONE_WAY FROM raw_send s JOIN raw_record x USING (place)
    WHERE s.refused = finding.place), iif(section = 'calls', 0, r.flags & :TF_ONE_WAY));
UPDATE finding SET n_good = p.good, longest_seq = p.longest_seq, longest = p.longest FROM send_path p
WHERE section = 'books' AND NOT p.oneway
  AND (p.code, p.upid, p.ptr, p.cookie) = (finding.code, finding.target, finding.ptr, finding.cookie);
-- Served calls of a node, by code.
CREATE TEMP TABLE served_path(code INTEGER, upid INTEGER, ptr INTEGER, cookie INTEGER, n INTEGER, good INTEGER,
  longest_seq INTEGER, longest INTEGER);
-- beside: records.sql
INSERT INTO served_path
SELECT code, upid, ptr, cookie, n, good, longest_seq, longest FROM served_sum
WHERE code IN (SELECT code FROM finding WHERE section = 'served');
CREATE UNIQUE INDEX temp.served_path_of ON served_path(code, upid, ptr, cookie);
UPDATE finding SET n_all = p.n, n_good = p.good, longest_seq = p.longest_seq, longest = p.longest
FROM served_path p
WHERE section = 'served'
  AND (p.code, p.upid, p.ptr, p.cookie) = (finding.code, finding.upid, finding.ptr, finding.cookie);
-- Handles that are kept, by the way they came; and calls that were answered.
UPDATE finding SET n_all = w.n FROM given g JOIN given_way w ON w.upid = g.upid AND w.way = g.way
  AND w.sender IS g.sender
WHERE section = 'handles' AND g.generation = finding.generation AND g.kept;
UPDATE finding SET n_all = a.n, n_good = a.n - a.others FROM answered a
WHERE section = 'answers' AND a.code = finding.code AND a.way IS finding.way AND a.about IS finding.about
  AND a.node IS finding.node;
