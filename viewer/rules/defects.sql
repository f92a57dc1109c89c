-- The key of each defect, which is the same for the same fault in another capture: what is wrong, which process causes
-- it, and on which path.
--
-- The kind is that of the section, with what the driver answered. The rule counts only if it has a `fault`, which says
-- that something else is wrong. `who` is the name of the process that causes it, as far as the capture shows, and that
-- of its device: who suffers from it may be another process in each capture. The path has the names of processes, whole
-- interfaces, and methods, or where a method is not known its code. What is of one recording is left out: numbers of
-- processes and threads, nodes, handles but 0, cookies, addresses; counts, ages and verdicts; and names of services,
-- which a capture has only if it saw that they were registered or asked for. But of a service that is not found the
-- name is all that there is.
--
-- If any of that changes, the last number in this file, `prints`, rises: keys with another one are not compared.
-- needs: database/schema.sql: call_interface, capture, finding, method, object_interface; database/views.sql: call,
--   device, interface, process, record, status; rule.sql: rule; matters.sql: in_matter, matter, traffic; groups.sql:
--   titled; judging.py: defect_key, path_text, status_name
-- makes: tables: program, call_text, defect, finding_defect; temporary tables: told; indexes: finding_of_defect

-- ---- names that are the same in another capture

-- A process, without the number at the end of a name that differs from start to start; and its device.
CREATE TABLE program(upid INTEGER PRIMARY KEY, program TEXT NOT NULL, device TEXT NOT NULL) STRICT;
INSERT INTO program
SELECT p.upid, coalesce(iif(p.begin GLOB '*[:_]', p.begin, p.name), 'a process'),
  coalesce(d.name, 'device ' || p.device)
FROM (SELECT upid, device, name, rtrim(name, '0123456789') AS begin FROM process) p JOIN device d USING (device);

-- What a call is called: by interface and method, or if no table has its method by interface and code.
CREATE TABLE call_text(code INTEGER, upid INTEGER, ptr INTEGER, interface TEXT, method TEXT, call TEXT NOT NULL,
  PRIMARY KEY(code, upid, ptr)) STRICT;
-- beside: matters.sql
INSERT INTO call_text
SELECT x.code, x.upid, x.ptr, coalesce(i.name, b.interface), coalesce(m.method, b.method),
  coalesce(i.name || coalesce('.' || m.method, ' code ' || x.code), b.interface || '.' || b.method, 'code ' || x.code)
FROM (SELECT code, upid, ptr FROM in_matter
  UNION SELECT code, coalesce(node_upid, -upid), coalesce(ptr, handle) FROM traffic) x
  LEFT JOIN call_interface c ON (c.code, c.upid, c.ptr) = (x.code, x.upid, x.ptr)
  LEFT JOIN interface i ON i.id = c.interface
  LEFT JOIN method m ON (m.interface, m.code) = (i.name, x.code)
  LEFT JOIN method b ON i.name IS NULL AND (b.interface, b.code) = ('android.os.IBinder', x.code);

-- ---- the parts of a key

CREATE TEMP TABLE told AS
SELECT id, kind || coalesce(' (' || answer || ')', '') AS kind, who, own_call AS call,
  path_text(relation,
    CASE WHEN relation IN ('handle', 'node', 'cookie', 'address') THEN thing WHEN relation = 'no space at' THEN ''
      WHEN relation = 'service' THEN service WHEN relation <> 'a reply' THEN call END,
    CASE WHEN relation IN ('handle', 'node') THEN object WHEN relation IN ('at', 'oneway at') THEN own
      WHEN relation NOT IN ('a reply to', 'cookie', 'address', 'service') THEN other END,
    status) AS path
FROM (SELECT m.id, m.relation, (SELECT service FROM finding f WHERE f.id = m.id) AS service,
    c.program || ' on ' || c.device AS who, p.program AS own, t.call,
    iif(m.causes IN (m.own, m.other), t.call, NULL) AS own_call,
    coalesce(r.fault, k.of_section) AS kind,
    CASE WHEN m.section = 'calls' AND m.what = 'failed' THEN (SELECT e.kind FROM call c
        JOIN record e ON e.place = c.closer WHERE c.place = m.place)
      WHEN m.section = 'refused' THEN m.what END AS answer,
    (SELECT status_name(s.value) FROM call c JOIN status s ON s.place = c.closer WHERE m.section = 'answers'
      AND c.place = m.place) AS status,
    iif(m.relation = 'handle' AND m.handle = 0, 'handle 0', m.relation) AS thing,
    coalesce(o.program, iif(m.handle = 0, 'handle 0', 'handle')) AS other,
    iif(m.relation = 'handle', coalesce(', ' || o.program, ''), '') || coalesce(' (' || i.name || ')', '') AS object
  FROM matter m JOIN rule r ON r.id = m.rule JOIN titled k USING (rule, section, what)
    JOIN program p ON p.upid = m.own JOIN program c ON c.upid = m.causes
    LEFT JOIN program o ON o.upid = m.other LEFT JOIN call_text t ON (t.code, t.upid, t.ptr) = (m.code, m.upid, m.ptr)
    LEFT JOIN object_interface j ON (j.upid, j.ptr) = (m.upid, m.ptr) LEFT JOIN interface i ON i.id = j.interface);

-- The call on the path is not in the key: it tells in another capture whether a defect could come up there. It is there
-- if the process that causes it makes or serves the call.
CREATE TABLE defect(id TEXT PRIMARY KEY, kind TEXT NOT NULL, who TEXT NOT NULL, path TEXT NOT NULL, call TEXT) STRICT;
INSERT INTO defect
SELECT defect_key(kind, who, coalesce(path, '')), kind, who, coalesce(path, ''), max(call) FROM told GROUP BY 1;
CREATE TABLE finding_defect(finding INTEGER PRIMARY KEY, defect TEXT NOT NULL) STRICT;
INSERT INTO finding_defect
SELECT id, defect_key(kind, who, coalesce(path, '')) FROM told;
CREATE INDEX finding_of_defect ON finding_defect(defect);

INSERT INTO capture VALUES ('prints', 4);
