-- Findings in groups: what the page shows first.
-- needs: database/schema.sql: finding; database/views.sql: process; nodes.sql: who; names.sql: call_named, code_named;
--   paths.sql: given, given_way, way; rule.sql: rule, title; causes.sql: led_by; judging.py: bare_name, call_words,
--   counted, path_text, rank_of, short_name, status_name
-- after: texts.sql
-- makes: tables: finding_head, finding_group; temporary tables: titled, alike_name, alike_way, named, ranked,
--   other_end, common, paths; indexes: titled_kind, alike_name_of, alike_way_of, head_of_group, ranked_group,
--   other_end_of, common_of, paths_of

-- The title of each kind of finding that there is; and its title without what its rule says.
CREATE TEMP TABLE titled AS
SELECT k.rule, k.section, k.what,
  (SELECT t.title FROM title t WHERE (t.rule IS NULL OR t.rule = k.rule)
    AND (t.section IS NULL OR t.section = k.section) AND (t.what IS NULL OR t.what = k.what)
    ORDER BY t.rule IS NULL, t.what IS NULL LIMIT 1) AS title,
  (SELECT t.title FROM title t WHERE t.rule IS NULL AND t.section = k.section AND coalesce(t.what = k.what, 1)
    ORDER BY t.what IS NULL LIMIT 1) AS of_section
FROM (SELECT DISTINCT rule, section, what FROM finding WHERE rule NOTNULL AND lead IS NULL) k;
CREATE UNIQUE INDEX temp.titled_kind ON titled(rule, section, what);

-- What a process is called in paths that are alike: by its name, without its number.
CREATE TEMP TABLE alike_name AS SELECT upid, coalesce(name, 'a process') AS name FROM process;
CREATE UNIQUE INDEX temp.alike_name_of ON alike_name(upid);
-- And a way.
CREATE TEMP TABLE alike_way AS
SELECT n.*, path_text(iif(reply, 'given by replies to', 'given by calls of'),
  call_words(code, short_name(interface), others, method), iif(reply, other, NULL)) AS path
FROM (
  SELECT
    w.id,
    w.reply,
    w.code,
    coalesce(c.interface, b.interface) AS interface,
    c.others,
    coalesce(c.method, b.method) AS method,
    iif(w.about > 0, (SELECT name FROM alike_name a WHERE a.upid = w.about), 'a handle') AS other
  FROM way w LEFT JOIN call_named c ON (c.code, c.upid, c.ptr) = (w.code, w.about, w.node)
    LEFT JOIN code_named b ON c.code IS NULL AND b.code = w.code) n;
CREATE UNIQUE INDEX temp.alike_way_of ON alike_way(id);

-- The group of each finding, named by its leading finding: an open call leads its served end and its buffer.
CREATE TABLE finding_head(id INTEGER PRIMARY KEY, grp INTEGER NOT NULL) STRICT;
CREATE TEMP TABLE named AS
SELECT
  f.id,
  f.rule,
  rank_of(r.verdict) AS rank,
  k.title,
  f.path,
  v.sender AS giver,
  -- A way stands for what came so.
  CASE WHEN f.relation IS NOT 'given' THEN f.relation WHEN w.reply THEN 'given by replies to' ELSE 'given by calls of' END
    AS relation,
  iif(f.relation = 'given', w.code, f.code) AS code,
  iif(f.relation = 'given', w.interface, f.interface) AS interface,
  iif(f.relation = 'given', w.others, f.others) AS others,
  iif(f.relation = 'given', w.method, f.method) AS method,
  iif(f.relation = 'service', f.service, f.calls) AS calls,
  iif(f.section = 'answers', status_name(f.status), NULL) AS status,
  CASE
    WHEN f.relation = 'given' THEN iif(w.reply, w.other, c.name)
    WHEN f.relation IN ('to', 'reply to', 'at', 'oneway at') AND f.way NOTNULL THEN 'objects ' || w.path
    WHEN f.relation IN ('to', 'reply to', 'at', 'oneway at') OR f.relation = 'handle' AND f.about > 0
    THEN iif(f.about > 0, (SELECT name FROM alike_name a WHERE a.upid = f.about), 'a handle') END AS other,
  -- A service keeps what its clients hand over: that is one fault of it, but for what they have to take back.
  iif(f.rule <> 'H13' AND c.name NOTNULL, (SELECT name FROM alike_name a WHERE a.upid = f.upid), NULL) AS keeper
FROM finding f JOIN rule r ON r.id = f.rule JOIN titled k USING (rule, section, what)
  LEFT JOIN given v ON v.generation = f.generation AND f.relation = 'given' AND f.rule <> 'H12'
  LEFT JOIN alike_way w ON w.id = f.way LEFT JOIN alike_name c ON c.upid = f.giver AND f.relation = 'given'
WHERE f.lead IS NULL;
-- What is real and what is maybe on like paths is one group, with the strongest verdict of its findings. Methods and
-- packages do not tell paths apart.
INSERT INTO finding_head
SELECT id, min(id) OVER (PARTITION BY title, max(rank, 2), relation, iif(relation IN ('handle', 'node'), NULL, code),
  iif(relation IN ('handle', 'node'), NULL, bare_name(interface)), calls, keeper, iif(keeper NOTNULL, NULL, other),
  status)
FROM named;
INSERT INTO finding_head
SELECT f.id, h.grp FROM finding f JOIN finding_head h ON h.id = f.lead;
CREATE INDEX head_of_group ON finding_head(grp);

CREATE TEMP TABLE ranked AS
SELECT grp, min(rank) AS rank, max(iif(nth = 1, verdict, NULL)) AS verdict, max(iif(nth = 1, ring, NULL)) AS ring,
  group_concat(rule) AS rules
FROM (
  SELECT *, row_number() OVER (PARTITION BY grp ORDER BY rank, rule) AS nth
  FROM (SELECT DISTINCT h.grp, n.rank, n.rule, r.verdict, r.ring FROM named n JOIN finding_head h USING (id)
    JOIN rule r ON r.id = n.rule) ORDER BY grp, nth)
GROUP BY grp;
CREATE UNIQUE INDEX temp.ranked_group ON ranked(grp);

-- What is at the other end of its paths: of what is kept, the clients that handed it over, those of the most first.
CREATE TEMP TABLE other_end AS
SELECT grp, group_concat(other, ', ') || iif(n > :NAMED, ' and ' || counted(n - :NAMED, 'other'), '') AS names
FROM (SELECT h.grp, n.other, count(*) OVER (PARTITION BY h.grp) AS n,
    row_number() OVER (PARTITION BY h.grp ORDER BY count(*) DESC, n.other) AS nth
  FROM named n JOIN finding_head h USING (id) GROUP BY 1, 2 ORDER BY nth)
WHERE nth <= :NAMED GROUP BY grp;
CREATE UNIQUE INDEX temp.other_end_of ON other_end(grp);
-- What the paths of a group have in common; and if its handles came from several processes, how many these are.
CREATE TEMP TABLE common AS
SELECT
  h.grp,
  coalesce(path_text(
    n.relation,
    CASE n.relation WHEN 'handle' THEN 'handles' WHEN 'node' THEN 'nodes' WHEN 'cookie' THEN 'cookies'
      WHEN 'address' THEN 'addresses' WHEN 'a reply' THEN NULL
      ELSE coalesce(n.calls, iif(count(DISTINCT call_words(n.code, short_name(n.interface), n.others, n.method)) = 1,
        call_words(n.code, short_name(n.interface), n.others, n.method),
        call_words(n.code, bare_name(n.interface), 0, NULL))) END,
    iif(n.relation = 'handle', ', ', '') || o.names,
    n.status), '')
  || iif(count(DISTINCT n.giver) > 1, ' (' || count(DISTINCT n.giver) || ' processes)', '') AS likeness
FROM named n JOIN finding_head h USING (id) JOIN other_end o USING (grp) GROUP BY 1;
CREATE UNIQUE INDEX temp.common_of ON common(grp);

-- Of each path in a group how many there are, as far as it is counted. Of handles, these are all that came the ways of
-- those in the group, from whomever, if no giver is named.
CREATE TEMP TABLE paths AS
SELECT grp, sum(n_all) AS n_all
FROM (
  SELECT k.grp, w.n AS n_all
  FROM (
    SELECT DISTINCT h.grp, v.upid, v.way, f.giver
    FROM named n JOIN finding_head h USING (id) JOIN finding f USING (id) JOIN given v USING (generation)
    WHERE f.section = 'handles' AND f.n_all NOTNULL) k
    JOIN given_way w ON (w.way, w.upid) = (k.way, k.upid) AND w.sender IS coalesce(k.giver, w.sender)
  UNION ALL
  SELECT h.grp, max(f.n_all) AS n_all
  FROM named n JOIN finding_head h USING (id) JOIN finding f USING (id)
  WHERE f.section <> 'handles' AND f.n_all NOTNULL
  GROUP BY h.grp, f.relation, f.code, f.about, f.node, f.way, f.status)
GROUP BY 1;
CREATE UNIQUE INDEX temp.paths_of ON paths(grp);

-- A group has n findings of the n_all of its paths; those that are led do not count. Its rules begin with those of its
-- strongest verdict. Its note is that of its first finding. Who is who causes it. The groups are shown in the order of
-- nth: the strongest verdict first, then those for which most wait, rings before others, then the largest.
CREATE TABLE finding_group(
  grp INTEGER PRIMARY KEY,
  verdict TEXT NOT NULL,
  title TEXT NOT NULL,
  path TEXT NOT NULL,
  n INTEGER NOT NULL,
  n_all INTEGER,
  processes INTEGER NOT NULL,
  who TEXT NOT NULL,
  first INTEGER,        -- its first place
  last INTEGER,         -- its last place
  waiting INTEGER NOT NULL,
  rules TEXT NOT NULL,
  note TEXT,
  nth INTEGER
) STRICT;
INSERT INTO finding_group
SELECT h.grp, k.verdict, n.title,
  iif(min(iif(f.lead IS NULL, f.path, NULL)) = max(iif(f.lead IS NULL, f.path, NULL)), n.path, o.likeness)
    || iif(count(DISTINCT iif(f.lead IS NULL, f.upid, NULL)) > 1 AND (n.relation GLOB 'given *' AND n.rule <> 'H6'
      OR min(iif(f.lead IS NULL, f.path, NULL)) <> max(iif(f.lead IS NULL, f.path, NULL))),
      ' in ' || count(DISTINCT iif(f.lead IS NULL, f.upid, NULL)) || ' processes', ''),
  sum(f.lead IS NULL), s.n_all,
  count(DISTINCT iif(f.lead IS NULL, coalesce(f.culprit, f.upid), NULL)),
  group_concat(DISTINCT iif(f.lead IS NULL, (SELECT who FROM who w WHERE w.upid = coalesce(f.culprit, f.upid)), NULL)),
  min(iif(f.lead IS NULL, f.place, NULL)), max(iif(f.lead IS NULL, f.place, NULL)),
  coalesce(max(f.waiting), 0), k.rules, NULL, NULL
FROM finding_head h JOIN finding f USING (id) JOIN named n ON n.id = h.grp JOIN ranked k ON k.grp = h.grp
  JOIN common o ON o.grp = h.grp LEFT JOIN paths s ON s.grp = h.grp
GROUP BY h.grp;
UPDATE finding_group SET nth = o.nth
FROM (SELECT g.grp, row_number() OVER (ORDER BY k.rank, g.waiting DESC, k.ring DESC, g.n DESC, g.first, g.grp) AS nth
  FROM finding_group g JOIN ranked k USING (grp)) o
WHERE o.grp = finding_group.grp;
UPDATE finding_group SET note = (SELECT f.note FROM finding_head h JOIN finding f USING (id)
  WHERE h.grp = finding_group.grp AND f.lead IS NULL AND f.note <> '' ORDER BY f.place LIMIT 1);
-- And what else came of the deaths that its findings tell of.
UPDATE finding_group SET note = coalesce(note || '; ', '') || l.told
FROM (SELECT grp, 'with ' || group_concat(CASE rank
    WHEN 1 THEN counted(n, 'other send to the dead', 'other sends to the dead')
    WHEN 3 THEN counted(n, 'reference to the dead', 'references to the dead')
    WHEN 5 THEN counted(n, 'clear not confirmed', 'clears not confirmed')
    ELSE counted(n, 'death not acknowledged', 'deaths not acknowledged') END, ' and ') AS told
  FROM (SELECT h.grp, l.rank, count(*) AS n FROM led_by l JOIN finding_head h USING (id) GROUP BY 1, 2 ORDER BY 1, 2)
  GROUP BY 1) l WHERE l.grp = finding_group.grp;
