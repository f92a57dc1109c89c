-- Which interfaces calls name: those of each code at each node, and those of each node; and under which names nodes are
-- registered as services.
-- needs: database/schema.sql: call_interface, method, object_interface, object_service, raw_call, raw_generation,
--   raw_interface, raw_object, raw_record, raw_thread; database/views.sql: came_to, interface, sent_to, service;
--   sums.sql: came_name, sent_name; nodes.sql: node_of
-- after: records.sql
-- makes: temporary tables: naming, told_name, to_manager, is_service, call_named, code_named, object_named,
--   service_named; indexes: call_named_of, code_named_of, object_named_of, service_named_of

-- How many records of each code and node name an interface; of a handle whose node is not known, its process with a
-- minus in place of the node's, and the handle in place of its ptr. The driver knows a node of a process by its ptr.
-- A code of NULL: the reply to _NTF names the interface of the node that was asked, or none.
-- beside: nodes.sql
CREATE TEMP TABLE naming AS
SELECT code, upid, ptr, interface, sum(n) AS n
FROM (SELECT code, upid, ptr, interface, n FROM came_name
  UNION ALL SELECT s.code, coalesce(n.upid, -g.upid), coalesce(n.ptr, g.handle), s.interface, s.n
  FROM sent_name s JOIN raw_generation g ON g.id = s.generation LEFT JOIN node_of n ON n.generation = s.generation)
WHERE EXISTS (SELECT 1 FROM raw_interface) GROUP BY 1, 2, 3, 4;
-- beside: loading
CREATE TEMP TABLE told_name AS
SELECT r.place, b.interface
FROM (SELECT 1 FROM raw_interface LIMIT 1) CROSS JOIN raw_record r JOIN raw_call c USING (place)
  JOIN raw_record b ON b.place = c.closer
WHERE r.code = :_NTF;
INSERT INTO naming
SELECT NULL, a.upid, a.ptr, t.interface, count(*)
FROM (SELECT place, upid, ptr FROM told_name JOIN came_to USING (place)
  UNION ALL SELECT place, upid, ptr FROM told_name JOIN sent_to USING (place)) a JOIN told_name t USING (place)
GROUP BY 2, 3, 4;

-- The interface that most of them name.
INSERT INTO call_interface
SELECT code, upid, ptr, interface, total - n
FROM (SELECT code, upid, ptr, interface, n, sum(n) OVER (PARTITION BY code, upid, ptr) AS total,
    row_number() OVER (PARTITION BY code, upid, ptr ORDER BY n DESC, interface) AS nth
  FROM naming WHERE code NOTNULL)
WHERE nth = 1;
-- An object of HIDL also answers for the interface that all of them have, so that one counts only if there is no other.
INSERT INTO object_interface
SELECT upid, ptr, interface, n, max(0, total - n)
FROM (SELECT x.*, sum(iif(base, 0, n)) OVER (PARTITION BY upid, ptr) AS total,
    row_number() OVER (PARTITION BY upid, ptr ORDER BY base, n DESC, interface) AS nth
  FROM (SELECT m.upid, m.ptr, m.interface, i.name = 'android.hidl.base@1.0::IBase' AS base, sum(m.n) AS n
    FROM naming m JOIN interface i ON i.id = m.interface GROUP BY 1, 2, 3) x)
WHERE nth = 1;

-- ---- services

-- What is sent to the manager of names about a service, and how many objects of processes it has. In HIDL a name is
-- where an object points, so that only the code tells `add` and `addWithChain`.
-- beside: nodes.sql
CREATE TEMP TABLE to_manager AS
SELECT r.place, r.service, t.upid, r.data_size, length(v.name) AS letters, c.verdict, c.closer,
  (SELECT count(*) FROM raw_object o WHERE o.place = r.place AND o.sort IN (:BINDER, :WEAK_BINDER, :HANDLE)) AS objects
FROM (SELECT 1 FROM interface WHERE name GLOB 'android.*.IServiceManager' OR name GLOB 'android.*::IServiceManager'
    LIMIT 1) CROSS JOIN raw_record r JOIN raw_thread t USING (utid) LEFT JOIN service v ON v.id = r.service
  LEFT JOIN raw_call c USING (place)
WHERE r.handle = 0 AND r.kind IN (:BC_TRANSACTION, :BC_TRANSACTION_SG) AND (r.service NOTNULL
  OR (SELECT i.name || ' ' || r.code FROM interface i WHERE i.id = r.interface)
    IN ('android.hidl.manager@1.0::IServiceManager 2', 'android.hidl.manager@1.2::IServiceManager 12'));
-- A name takes 4 bytes, two for each character and two for a NUL, up to a multiple of four. What is registered follows
-- at once, in 24 bytes. Before the name is the token, of 64, 68 or 72 bytes by release. After the object come two
-- numbers or more, with the first token maybe one; a callback for a name has fewer after it.
CREATE TEMP TABLE is_service AS
SELECT m.upid, o.binder AS ptr, m.service, m.place AS registered, m.place
FROM to_manager m JOIN raw_object o USING (place)
WHERE m.objects = 1 AND o.sort = :BINDER AND m.verdict IS NOT 3
  AND NOT EXISTS (SELECT 1 FROM raw_record a WHERE a.place = m.closer AND a.flags & :TF_STATUS_CODE)
  AND (m.service IS NULL OR m.data_size - o.offset - 24 >=
    CASE o.offset - 4 - (2 * m.letters + 5) / 4 * 4 WHEN 64 THEN 4 WHEN 68 THEN 8 WHEN 72 THEN 8 END);
-- Who asks for a name gets a handle of the service, or its own object.
INSERT INTO is_service
SELECT iif(o.sort = :BINDER, m.upid, coalesce(n.upid, -m.upid)),
  iif(o.sort = :BINDER, o.binder, coalesce(n.ptr, o.handle)), m.service, NULL, m.place
FROM to_manager m JOIN raw_object o ON o.place = m.closer LEFT JOIN node_of n ON n.generation = (SELECT g.id
    FROM raw_generation g WHERE g.upid = m.upid AND g.handle = o.handle AND g.begin <= m.closer
    ORDER BY g.begin DESC LIMIT 1)
WHERE m.service NOTNULL AND m.objects = 0 AND m.verdict = 1 AND o.sort IN (:BINDER, :HANDLE)
  AND (SELECT count(*) FROM raw_object x WHERE x.place = m.closer) = 1;
-- The name under which a node was registered first, or by which it was asked for most often.
INSERT INTO object_service
SELECT upid, ptr, service, registered, n, total - n
FROM (SELECT upid, ptr, service, min(registered) AS registered, count(*) AS n,
    sum(count(*)) OVER (PARTITION BY upid, ptr) AS total, row_number() OVER (PARTITION BY upid, ptr
      ORDER BY min(registered) IS NULL, min(registered), count(*) DESC, min(place)) AS nth
  FROM is_service GROUP BY 1, 2, 3)
WHERE nth = 1;

-- ---- the names by what is called

-- The names of a call: of each code at a node, and of a code that all objects answer alike.
CREATE TEMP TABLE call_named AS
SELECT c.code, c.upid, c.ptr, i.name AS interface, c.others > 0 AS others, m.method
FROM call_interface c JOIN interface i ON i.id = c.interface
  LEFT JOIN method m ON (m.interface, m.code) = (i.name, c.code);
CREATE UNIQUE INDEX temp.call_named_of ON call_named(code, upid, ptr);
CREATE TEMP TABLE code_named AS
SELECT code, interface, method FROM method
WHERE interface = 'android.os.IBinder' AND code BETWEEN :FIRST_LETTERS AND :LAST_LETTERS;
CREATE UNIQUE INDEX temp.code_named_of ON code_named(code);
-- The names of an object: its interface, and the service that it is.
CREATE TEMP TABLE object_named AS
SELECT o.upid, o.ptr, i.name AS interface, o.others > 0 AS others
FROM object_interface o JOIN interface i ON i.id = o.interface;
CREATE UNIQUE INDEX temp.object_named_of ON object_named(upid, ptr);
CREATE TEMP TABLE service_named AS
SELECT o.upid, o.ptr, s.name AS service, o.others > 0 AS others
FROM object_service o JOIN service s ON s.id = o.service;
CREATE UNIQUE INDEX temp.service_named_of ON service_named(upid, ptr);
