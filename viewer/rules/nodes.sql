-- Which node each generation of a handle leads to: who talks to whom.
-- needs: database/schema.sql: book_handle, raw_delivery, raw_generation, raw_object, raw_process, raw_send, raw_thread,
--   side_device; database/views.sql: device, process; sums.sql: peer_sum
-- makes: tables: who, peer, node_of; temporary tables: crowded, handed, passed_on, manager; indexes: object_of_record,
--   send_refused, generation_of_handle, crowded_place, crowded_handle, passed_on_from, node_of_object

-- ---- indexes: a query below, or one of the page, was slow without them

CREATE INDEX object_of_record ON raw_object(place, idx);
CREATE INDEX send_refused ON raw_send(refused) WHERE refused IS NOT NULL;
CREATE INDEX generation_of_handle ON raw_generation(upid, handle, begin);

-- ---- who is who

CREATE TABLE who(upid INTEGER PRIMARY KEY, who TEXT NOT NULL) STRICT;
INSERT INTO who
SELECT p.upid, coalesce(p.name || ' ', '') || p.process
  || iif((SELECT count(*) FROM device) > 1, ' on ' || coalesce(d.name, 'device ' || p.device), '')
FROM process p LEFT JOIN side_device d USING (device);

-- ---- the nodes, by what was sent to them and by who handed them over

-- The nodes that a generation of a handle leads to, by the deliveries of what was sent to it.
CREATE TABLE peer(generation INTEGER NOT NULL, node_upid INTEGER NOT NULL, ptr INTEGER NOT NULL,
  cookie INTEGER NOT NULL, deliveries INTEGER NOT NULL, certain INTEGER NOT NULL,
  PRIMARY KEY(generation, node_upid, ptr, cookie)) STRICT;
-- beside: loading
INSERT INTO peer SELECT * FROM peer_sum;

-- The node that is taken: the only one with a certain delivery.
CREATE TABLE node_of(generation INTEGER PRIMARY KEY, upid INTEGER NOT NULL, ptr INTEGER NOT NULL,
  cookie INTEGER NOT NULL, certain INTEGER NOT NULL) STRICT;
INSERT INTO node_of
SELECT generation, node_upid, ptr, cookie, 1 FROM peer WHERE certain > 0 GROUP BY generation HAVING count(*) = 1;
-- Or else, of what was held when the recording began, the node in the driver's books.
INSERT INTO node_of
SELECT g.id, b.node_upid, b.ptr, b.cookie, 1 FROM book_handle b JOIN raw_generation g USING (upid, handle)
WHERE b.moment = 'begin' AND b.node_upid NOTNULL AND g.n = 1 AND coalesce(g.begin < g.given_by, 1)
  AND g.id NOT IN (SELECT generation FROM node_of);
-- Or else the object that was handed over, if it is certain by which send: one of the sender's own, or one that the
-- sender has a handle of, which may have been handed over to the sender in its turn.
-- Of a record with very many objects these are in a table of their own, which finds one without a look at the others.
CREATE TEMP TABLE crowded(place INTEGER, idx INTEGER, sort INTEGER, binder INTEGER, cookie INTEGER, handle INTEGER);
INSERT INTO crowded SELECT place, idx, sort, binder, cookie, handle FROM raw_object
WHERE place IN (SELECT place FROM raw_object WHERE idx = 64);
CREATE INDEX temp.crowded_place ON crowded(place, idx);
CREATE INDEX temp.crowded_handle ON crowded(place, handle);
CREATE TEMP TABLE handed AS
SELECT g.id AS generation, o.sort, t.upid, o.binder AS ptr, o.cookie, o.handle, s.place,
  s.certain AND s.fits = 1 AS certain
FROM raw_generation g JOIN raw_delivery d ON d.place = g.given_by JOIN raw_send s ON s.place = d.send
  JOIN raw_object a ON a.place = g.given_by AND a.handle = g.handle AND a.sort IN (:HANDLE, :WEAK_HANDLE)
  JOIN raw_object o ON o.place = s.place AND o.idx = a.idx JOIN raw_thread t ON t.utid = s.utid
WHERE g.id NOT IN (SELECT generation FROM node_of) AND g.given_by NOT IN (SELECT place FROM crowded) GROUP BY g.id;
INSERT INTO handed
SELECT g.id, o.sort, t.upid, o.binder, o.cookie, o.handle, s.place, s.certain AND s.fits = 1
FROM raw_generation g JOIN raw_delivery d ON d.place = g.given_by JOIN raw_send s ON s.place = d.send
  JOIN crowded a ON a.place = g.given_by AND a.handle = g.handle AND a.sort IN (:HANDLE, :WEAK_HANDLE)
  JOIN crowded o ON o.place = s.place AND o.idx = a.idx JOIN raw_thread t ON t.utid = s.utid
WHERE g.id NOT IN (SELECT generation FROM node_of) GROUP BY g.id;
CREATE TEMP TABLE passed_on AS
SELECT h.generation, g.id AS of FROM handed h JOIN raw_generation g
  ON g.upid = h.upid AND g.handle = h.handle AND g.begin <= h.place AND (g.end IS NULL OR g.end > h.place)
WHERE h.sort IN (:HANDLE, :WEAK_HANDLE) GROUP BY h.generation;
CREATE INDEX temp.passed_on_from ON passed_on(of);
INSERT INTO node_of
SELECT generation, upid, ptr, cookie, 1 FROM handed WHERE sort IN (:BINDER, :WEAK_BINDER) AND certain;
INSERT INTO node_of
WITH RECURSIVE way(generation, upid, ptr, cookie, steps) AS (
  SELECT p.generation, n.upid, n.ptr, n.cookie, 1 FROM passed_on p JOIN node_of n ON n.generation = p.of
  UNION ALL SELECT p.generation, w.upid, w.ptr, w.cookie, w.steps + 1 FROM way w JOIN passed_on p ON p.of = w.generation
  WHERE w.steps < :STEPS)
SELECT generation, w.upid, w.ptr, w.cookie, 1 FROM way w JOIN handed h USING (generation)
WHERE h.certain AND generation NOT IN (SELECT generation FROM node_of) GROUP BY generation;

-- ---- the nodes that are only likely

-- The only one that a delivery was seen at; or the object that was handed over, if it is not certain by whom.
INSERT INTO node_of
SELECT generation, node_upid, ptr, cookie, 0 FROM peer WHERE generation NOT IN (SELECT generation FROM node_of)
GROUP BY generation HAVING count(*) = 1;
INSERT INTO node_of
SELECT generation, upid, ptr, cookie, certain FROM handed
WHERE sort IN (:BINDER, :WEAK_BINDER) AND generation NOT IN (SELECT generation FROM node_of);
INSERT INTO node_of
SELECT p.generation, n.upid, n.ptr, n.cookie, min(h.certain, n.certain)
FROM passed_on p JOIN handed h USING (generation) JOIN node_of n ON n.generation = p.of
WHERE p.generation NOT IN (SELECT generation FROM node_of) GROUP BY p.generation;
-- Handle 0 leads to the context manager of its device, for all processes.
INSERT INTO node_of
SELECT g.id, m.upid, m.ptr, m.cookie, m.certain FROM raw_generation g JOIN raw_process p USING (upid) JOIN (
  SELECT q.device, n.* FROM node_of n JOIN raw_generation o ON o.id = n.generation JOIN raw_process q ON q.upid = o.upid
  WHERE o.handle = 0 GROUP BY q.device HAVING count(DISTINCT n.upid) = 1) m ON m.device = p.device
WHERE g.handle = 0 AND g.id NOT IN (SELECT generation FROM node_of);
-- Who holds an object is asked of it.
CREATE INDEX node_of_object ON node_of(upid, ptr);

CREATE TEMP TABLE manager AS
SELECT DISTINCT n.upid FROM node_of n JOIN raw_generation g ON g.id = n.generation WHERE g.handle = 0;
