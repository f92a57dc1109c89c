-- Who talks to whom, and what each finding is about: of both come the calls that are named.
-- needs: database/schema.sql: finding; paths.sql: given; counts.sql: sent; rule.sql: rule
-- after: causes.sql, culprits.sql
-- makes: tables: traffic; temporary tables: came_by, matter, in_matter

-- Who talks to whom, by handle and code.
CREATE TABLE traffic(upid INTEGER NOT NULL, handle INTEGER NOT NULL, generation INTEGER NOT NULL, code INTEGER NOT NULL,
  oneway INTEGER NOT NULL, sends INTEGER NOT NULL, failed INTEGER NOT NULL, refused INTEGER NOT NULL,
  open INTEGER NOT NULL, bytes INTEGER NOT NULL, delivered INTEGER NOT NULL, one_fits INTEGER NOT NULL,
  buffers INTEGER NOT NULL, buffers_peak INTEGER, longest_seq INTEGER, node_upid INTEGER, ptr INTEGER,
  cookie INTEGER, longest INTEGER) STRICT;
-- beside: counts.sql
INSERT INTO traffic
SELECT upid, handle, generation, code, oneway, sends, failed, refused, open, CAST(min(bytes, 9e18) AS INTEGER),
  delivered, one_fits, buffers, peak, longest_seq, node_upid, ptr, cookie, longest
FROM sent;

-- How a handle that is kept with others came: in replies to a call, or with calls; and which process is at the other
-- end.
CREATE TEMP TABLE came_by AS
SELECT f.id, g.reply, g.code, g.asked AS handle, g.about AS upid, g.node AS ptr,
  CASE WHEN f.rule = 'H12' THEN NULL WHEN NOT g.reply THEN g.sender WHEN g.about > 0 THEN g.about END AS other
FROM finding f JOIN given g USING (generation)
WHERE f.relation = 'given';

-- What each finding is about: a call, by its code and its node, and how the finding belongs to it; or a handle, a node
-- or an address. If the node of a call or a handle is not known, upid has the process that holds it with a minus, and
-- ptr the handle. Which oneway send finds no space at a receiver is chance: no code says it.
CREATE TEMP TABLE matter AS
SELECT f.id, f.section, f.what, f.place, f.rule, f.upid AS own, coalesce(f.culprit, f.upid) AS causes,
  iif(f.rule = 'E5' AND f.culprit NOTNULL OR f.section = 'frees', NULL, coalesce(w.code, f.code)) AS code,
  coalesce(w.upid, f.about, f.target, -f.upid) AS upid,
  coalesce(w.ptr, f.node, iif(f.about > 0 OR f.target NOTNULL, f.ptr, f.handle)) AS ptr,
  iif(w.id IS NULL, f.target, w.other) AS other, iif(w.id IS NULL, f.handle, w.handle) AS handle,
  CASE
    WHEN w.reply THEN 'given by replies to'
    WHEN NOT w.reply THEN 'given by calls of'
    WHEN f.rule = 'E5' AND f.culprit NOTNULL THEN 'no space at'
    WHEN f.section = 'frees' THEN 'address'
    WHEN f.relation = 'given' THEN 'handle'
    ELSE f.relation END AS relation
FROM finding f JOIN rule r ON r.id = f.rule LEFT JOIN came_by w ON w.id = f.id
WHERE f.lead IS NULL AND r.verdict <> 'normal';
-- The calls of these.
CREATE TEMP TABLE in_matter AS
SELECT DISTINCT code, upid, ptr FROM matter WHERE code NOTNULL AND ptr NOTNULL;
