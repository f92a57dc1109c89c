-- What the path of each finding is made of, by which findings are grouped: how the finding belongs to what it is about,
-- the call, and the object that this goes to or comes of. And the views by which it becomes a text.
-- needs: database/schema.sql: finding, raw_call, raw_delivery, raw_generation, raw_record, raw_send, raw_thread;
--   database/views.sql: delivery, service, status; nodes.sql: manager, node_of, who; names.sql: call_named, code_named,
--   object_named, service_named; judging.py: call_words, path_text, short_name, status_name
-- after: records.sql
-- makes: tables: way; temporary tables: given_by, given, given_way, object_of, status_of, answered, way_named;
--   temporary views: way_path, finding_names, thing_path, path_of; indexes: given_generation, given_way_of,
--   object_of_generation, status_of_call, answered_of, way_named_of

-- ---- what a finding is about

-- `about` and `node` are the object as calls are named by it: a process and a ptr; or if the node is not known, the
-- process that holds a handle of it with a minus, and the handle. `node` may also be an address that is freed.
UPDATE finding SET
  relation = CASE
    WHEN section IN ('calls', 'refused', 'oneway', 'spam') THEN iif(generation IS NULL, 'a reply', 'to')
    WHEN section IN ('strays', 'objects', 'flags') AND generation NOTNULL OR section IN ('answers', 'books') THEN 'to'
    WHEN section = 'objects' THEN 'a reply to'
    WHEN section = 'buffers' AND what = 'BR_REPLY' THEN 'reply to'
    WHEN section = 'buffers' AND (SELECT flags & :TF_ONE_WAY FROM raw_record r WHERE r.place = finding.place)
      THEN 'oneway at'
    WHEN section IN ('buffers', 'served') THEN 'at'
    WHEN section IN ('handles', 'requests', 'deaths', 'clears', 'freezes', 'freeze_clears')
      THEN iif(handle IS NULL, 'cookie', 'handle')
    WHEN section = 'nodes' THEN 'node'
    WHEN section = 'frees' THEN 'address' END,
  (about, node) = (
    SELECT
      iif(is_own, finding.upid, coalesce(finding.target, -finding.upid)),
      CASE WHEN section = 'frees' THEN (SELECT address FROM raw_record r WHERE r.place = finding.place)
        WHEN is_own OR finding.target NOTNULL THEN finding.ptr ELSE finding.handle END
    FROM (SELECT finding.section IN ('served', 'nodes') OR finding.section = 'buffers' AND finding.what <> 'BR_REPLY'
      OR finding.section = 'objects' AND finding.generation IS NULL AS is_own));

-- ---- the ways by which handles came

-- Each handle that a delivery gave: with a call of a code, or with the reply to one, and who handed it over.
CREATE TEMP TABLE given_by AS
SELECT
  g.id AS generation,
  g.upid,
  d.kind = 'BR_REPLY' AS reply,
  d.code,
  iif(d.kind = 'BR_REPLY', coalesce(n.upid, -g.upid), g.upid) AS about,
  iif(d.kind = 'BR_REPLY', coalesce(n.ptr, d.handle), d.ptr) AS node,
  d.handle AS asked,
  coalesce(n.upid, (SELECT t.upid FROM raw_send x JOIN raw_thread t USING (utid) WHERE x.place = d.send)) AS sender,
  g.strong + g.weak > 0 AS kept
FROM raw_generation g JOIN delivery d ON d.place = g.given_by
  LEFT JOIN raw_send s ON s.place = d.call AND d.kind = 'BR_REPLY' LEFT JOIN node_of n ON n.generation = s.generation
WHERE EXISTS (SELECT 1 FROM finding WHERE section IN ('handles', 'answers'));
-- One way are the replies to a code of an object, or the calls of a code that have one name, to whatever object. If no
-- delivery gave a handle, or the call is not known that is answered, it has no way.
CREATE TABLE way(id INTEGER PRIMARY KEY, reply INTEGER NOT NULL, code INTEGER NOT NULL, about INTEGER NOT NULL,
  node INTEGER NOT NULL) STRICT;
CREATE TEMP TABLE given AS
SELECT
  g.*,
  CASE WHEN g.code NOTNULL AND g.node NOTNULL
    THEN dense_rank() OVER (ORDER BY g.code ISNULL, g.node ISNULL, g.reply, g.code, iif(g.reply, g.about, 0),
      iif(g.reply, g.node, 0), iif(g.reply, NULL, c.interface), iif(g.reply, NULL, c.others)) END AS way
FROM given_by g LEFT JOIN call_named c ON (c.code, c.upid, c.ptr) = (g.code, g.about, g.node);
CREATE UNIQUE INDEX temp.given_generation ON given(generation);
INSERT INTO way SELECT way, reply, code, about, node FROM given WHERE way NOTNULL GROUP BY way;
CREATE TEMP TABLE given_way AS
SELECT upid, way, sender, count(*) AS n, sum(kept) AS kept FROM given WHERE way NOTNULL GROUP BY 1, 2, 3;
CREATE INDEX temp.given_way_of ON given_way(way, upid);

-- ---- calls that were answered with a status

-- Those of a code to objects that came the same way are one path, since each of many short-lived objects may get one
-- call. What the context manager gives are services, each with a path of its own.
CREATE TEMP TABLE object_of(generation INTEGER, way INTEGER, about INTEGER, node INTEGER);
INSERT INTO object_of
SELECT
  o.id AS generation,
  iif(g.sender NOT IN (SELECT upid FROM manager), g.way, NULL) AS way,
  coalesce(n.upid, -o.upid) AS about,
  coalesce(n.ptr, o.handle) AS node
FROM raw_generation o LEFT JOIN given g ON g.generation = o.id LEFT JOIN node_of n ON n.generation = o.id
WHERE EXISTS (SELECT 1 FROM finding WHERE section = 'answers');
CREATE UNIQUE INDEX temp.object_of_generation ON object_of(generation);
-- The statuses with which calls were answered.
CREATE TEMP TABLE status_of(call INTEGER, value INTEGER);
INSERT INTO status_of
SELECT d.call, x.value FROM (SELECT 1 FROM object_of LIMIT 1) CROSS JOIN status x JOIN raw_delivery d USING (place);
CREATE INDEX temp.status_of_call ON status_of(call);
-- How many were answered, and how many of these with a status; how many with no error, and the last of these; and the
-- name of such calls, if those that have one agree.
CREATE TEMP TABLE answered(code INTEGER, way INTEGER, about INTEGER, node INTEGER, n INTEGER, others INTEGER,
  good INTEGER, last_good INTEGER);
INSERT INTO answered
SELECT
  r.code,
  o.way,
  iif(o.way IS NULL, o.about, NULL) AS about,
  iif(o.way IS NULL, o.node, NULL) AS node,
  count(*) AS n,
  count(x.call) AS others,
  sum(x.call IS NULL OR x.value = 0) AS good,
  max(iif(x.call IS NULL OR x.value = 0, c.place, NULL)) AS last_good
FROM (SELECT 1 FROM object_of LIMIT 1) CROSS JOIN raw_call c JOIN raw_send s USING (place)
  JOIN raw_record r USING (place) JOIN object_of o USING (generation)
  LEFT JOIN status_of x ON x.call = c.place
WHERE c.verdict = 1 AND c.served = 0 AND r.code IN (SELECT code FROM finding WHERE section = 'answers')
GROUP BY 1, 2, 3, 4;
CREATE UNIQUE INDEX temp.answered_of ON answered(code, way, about, node);
CREATE TEMP TABLE way_named(code INTEGER, way INTEGER, interface TEXT, others INTEGER, method TEXT);
INSERT INTO way_named
SELECT a.code, a.way, min(c.interface) AS interface, min(c.others) AS others, min(c.method) AS method
FROM answered a JOIN object_of o USING (way) JOIN call_named c ON (c.code, c.upid, c.ptr) = (a.code, o.about, o.node)
GROUP BY 1, 2
HAVING min(c.interface) = max(c.interface) AND min(c.others) = max(c.others);
CREATE UNIQUE INDEX temp.way_named_of ON way_named(way, code);
UPDATE finding SET
  status = x.value,
  way = o.way,
  about = iif(o.way IS NULL, o.about, NULL),
  node = iif(o.way IS NULL, o.node, NULL)
FROM object_of o, status_of x
WHERE section = 'answers' AND o.generation = finding.generation AND x.call = finding.place;

-- ---- the texts

-- Each way.
CREATE TEMP VIEW way_path AS
SELECT
  w.id,
  path_text(iif(w.reply, 'given by replies to', 'given by calls of'),
    call_words(w.code, short_name(coalesce(c.interface, b.interface)), c.others, coalesce(c.method, b.method)),
    iif(w.reply, coalesce(p.who || printf(' node 0x%llx', w.node), 'handle ' || w.node)
      || coalesce(' ' || s.service || iif(s.others, ' or others', ''), ''), NULL)) AS path
FROM way w LEFT JOIN call_named c ON (c.code, c.upid, c.ptr) = (w.code, w.about, w.node)
  LEFT JOIN code_named b ON c.code IS NULL AND b.code = w.code
  LEFT JOIN service_named s ON (s.upid, s.ptr) = (w.about, w.node) LEFT JOIN who p ON p.upid = w.about;
-- The names of what each finding is about; the object, if its process is known; and what is told after an object or a
-- thing: its service, and its interface.
CREATE TEMP VIEW finding_names AS
SELECT
  f.id,
  coalesce(c.interface, a.interface, b.interface, o.interface) AS interface,
  coalesce(c.others, a.others, o.others) AS others,
  coalesce(c.method, a.method, b.method) AS method,
  coalesce(s.service, v.name) AS service,
  p.who || iif(f.node IS NULL, '', printf(' node 0x%llx', f.node)) AS object,
  coalesce(' ' || coalesce(s.service, v.name) || iif(s.others, ' or others', ''), '') AS named,
  coalesce(' (' || iif(o.interface IS NULL, NULL, short_name(o.interface)) || iif(o.others, ' or others', '') || ')', '')
    AS kind
FROM finding f
  LEFT JOIN call_named c ON (c.code, c.upid, c.ptr) = (f.code, f.about, f.node)
    AND f.relation NOT IN ('handle', 'node', 'given')
  LEFT JOIN way_named a ON f.relation = 'to' AND (a.way, a.code) = (f.way, f.code)
  LEFT JOIN code_named b ON c.code IS NULL AND a.code IS NULL AND b.code = f.code
    AND f.relation NOT IN ('handle', 'node', 'given')
  LEFT JOIN object_named o ON (o.upid, o.ptr) = (f.about, f.node) AND f.relation IN ('handle', 'node', 'given')
  LEFT JOIN service_named s ON (s.upid, s.ptr) = (f.about, f.node)
  LEFT JOIN service v ON f.relation = 'service' AND v.id = f.node LEFT JOIN who p ON p.upid = f.about;
-- The thing that each finding is about, if it is none that came a way, and its names.
CREATE TEMP VIEW thing_path AS
SELECT
  f.id,
  CASE
    WHEN f.relation IN ('handle', 'given')
    THEN coalesce('handle ' || f.handle, 'handle ?') || coalesce(', ' || n.object, '') || n.named || n.kind
    WHEN f.relation = 'node' THEN 'node ' || iif(f.node IS NULL, '?', printf('0x%llx', f.node)) || n.named || n.kind
    WHEN f.relation = 'address' THEN 'address ' || iif(f.node IS NULL, '?', printf('0x%llx', f.node))
    WHEN f.relation = 'cookie' THEN 'cookie ' || iif(f.cookie IS NULL, '?', printf('0x%llx', f.cookie))
    ELSE path_text(f.relation,
      CASE
        WHEN f.relation = 'a reply' THEN NULL
        WHEN f.relation = 'service' THEN n.service
        ELSE coalesce(f.calls, call_words(f.code, short_name(n.interface), n.others, n.method)) END,
      CASE
        WHEN f.relation IN ('to', 'reply to', 'at', 'oneway at')
        THEN coalesce('objects ' || w.path, coalesce(n.object, 'handle ' || f.node) || n.named) END,
      iif(f.section = 'answers', status_name(f.status), NULL)) END AS path,
  n.interface,
  n.others,
  n.method,
  n.service
FROM finding f JOIN finding_names n USING (id) LEFT JOIN way_path w ON w.id = f.way;
-- The path of each finding: of handles that are kept with others the way by which they came.
CREATE TEMP VIEW path_of AS
SELECT
  f.id,
  iif(f.relation = 'given', w.path || coalesce(' from ' || p.who, ''), t.path) AS path,
  t.interface,
  t.others,
  t.method,
  t.service
FROM finding f JOIN thing_path t USING (id) LEFT JOIN way_path w ON w.id = f.way LEFT JOIN who p ON p.upid = f.giver;
