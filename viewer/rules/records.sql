-- The findings that no row of the report has, and what the record of each finding says of it: its thread, its call, and
-- which node its handle leads to.
-- needs: database/schema.sql: book_open, capture, finding, raw_call, raw_delivery, raw_generation, raw_process,
--   raw_record, raw_send, raw_thread, report; database/views.sql: delivery, status; nodes.sql: node_of
-- after: freeze_facts.sql
-- makes: temporary tables: to_frozen, from_before, dead_record, told_death, asked, replied; indexes: call_of_thread,
--   to_frozen_place, dead_cookie, dead_handle, told_generation, asked_node, replied_by

-- The calls of a thread, for statements here and later. To sort all calls takes long, so it is done here, while other
-- processes find what they can since nodes.sql.
CREATE INDEX call_of_thread ON raw_call(utid, place);

-- ---- findings that are not rows of the report

-- Oneway sends that the driver took and that were never seen to come, but not to a process that was not recorded; and
-- those that it suspects as spam.
-- beside: nodes.sql
INSERT INTO finding(section, what, place, upid)
SELECT 'oneway', 'undelivered', s.place, t.upid
FROM raw_send s JOIN raw_record r USING (place) JOIN raw_thread t ON t.utid = s.utid
WHERE s.delivery IS NULL AND s.refused IS NULL AND s.generation IN (SELECT generation FROM node_of
    WHERE upid IN (SELECT upid FROM raw_process)
      OR NOT EXISTS (SELECT 1 FROM capture WHERE key = 'narrowed_processes' AND value = 1))
  AND r.flags & :TF_ONE_WAY;

INSERT INTO finding(section, what, place, upid)
SELECT 'spam', 'suspect', s.place, t.upid
FROM (SELECT 1 FROM report WHERE section = 'codes' AND name = 'BR_ONEWAY_SPAM_SUSPECT' LIMIT 1)
  CROSS JOIN raw_send s JOIN raw_record k ON k.place = s.confirmed AND k.kind = :BR_ONEWAY_SPAM_SUSPECT
  JOIN raw_thread t ON t.utid = s.utid
WHERE s.generation NOTNULL;
-- Oneway sends to a process that was frozen, as the driver said when it took them.
CREATE TEMP TABLE to_frozen AS
SELECT s.place FROM (SELECT 1 FROM report WHERE section = 'codes' AND name = 'BR_TRANSACTION_PENDING_FROZEN'
    LIMIT 1) CROSS JOIN raw_send s JOIN raw_record k ON k.place = s.confirmed
WHERE k.kind = :BR_TRANSACTION_PENDING_FROZEN;
CREATE UNIQUE INDEX temp.to_frozen_place ON to_frozen(place);
-- Calls that were answered with a status. libgbinder also sends 0, which is no error.
-- beside: nodes.sql
INSERT INTO finding(section, what, place, upid)
SELECT 'answers', 'status', r.place, t.upid
FROM status x JOIN raw_delivery d USING (place) JOIN raw_record r ON r.place = d.call
  JOIN raw_thread t ON t.utid = r.utid
WHERE x.value IS NOT 0;

-- Calls that were open throughout the recording, by the driver's books. They have no record.
CREATE TEMP TABLE from_before AS
SELECT b.*, (SELECT coalesce(max(id), 0) FROM finding) + row_number() OVER (ORDER BY number) AS id FROM book_open b;
INSERT INTO finding(id, section, what, upid, utid, code, target, ptr, cookie)
SELECT id, 'books', 'open', upid, utid, code, server, ptr, cookie FROM from_before;

-- ---- what each finding is about

CREATE TEMP TABLE dead_record(place INTEGER PRIMARY KEY, upid INTEGER, utid INTEGER, kind INTEGER, handle INTEGER,
  cookie INTEGER);
-- beside: nodes.sql
INSERT INTO dead_record
SELECT r.place, t.upid, r.utid, r.kind, r.handle, r.cookie
FROM (SELECT 1 FROM report WHERE section = 'codes' AND name GLOB '*DEA[TD]*' LIMIT 1)
  CROSS JOIN raw_record r JOIN raw_thread t USING (utid)
WHERE r.kind IN (:BC_REQUEST_DEATH_NOTIFICATION, :BC_CLEAR_DEATH_NOTIFICATION, :BC_DEAD_BINDER_DONE, :BR_DEAD_BINDER,
  :BR_CLEAR_DEATH_NOTIFICATION_DONE);
CREATE INDEX temp.dead_cookie ON dead_record(upid, cookie, kind, place);
CREATE INDEX temp.dead_handle ON dead_record(upid, handle, kind, place) WHERE handle NOTNULL;
-- The deaths that were reported to a process, each with the generation that the latest request with its cookie names.
CREATE TEMP TABLE told_death AS
SELECT d.place, d.upid, d.cookie, q.handle, (SELECT g.id FROM raw_generation g WHERE g.upid = q.upid
  AND g.handle = q.handle AND g.begin <= q.place ORDER BY g.begin DESC LIMIT 1) AS generation
FROM dead_record d JOIN dead_record q ON q.place = (SELECT max(x.place) FROM dead_record x WHERE x.upid = d.upid
  AND x.cookie = d.cookie AND x.kind = :BC_REQUEST_DEATH_NOTIFICATION AND x.place < d.place)
WHERE d.kind = :BR_DEAD_BINDER;
CREATE INDEX temp.told_generation ON told_death(generation);

-- For a handle: the last generation, since none before it is held; and the place where it was taken or given.
UPDATE finding SET generation = g.id, place = coalesce(g.held_since, g.given_by, g.begin) FROM raw_generation g
WHERE section = 'handles' AND g.id = (SELECT x.id FROM raw_generation x WHERE x.upid = finding.upid
  AND x.handle = finding.handle ORDER BY x.begin DESC LIMIT 1);
-- For a node: the last record by which the driver asks for a reference to it.
-- beside: nodes.sql
CREATE TEMP TABLE asked AS
SELECT t.upid, r.ptr, r.cookie, max(r.place) AS place FROM raw_record r JOIN raw_thread t USING (utid)
WHERE r.kind IN (:BR_INCREFS, :BR_ACQUIRE) AND EXISTS (SELECT 1 FROM finding WHERE section = 'nodes') GROUP BY 1, 2, 3;
CREATE UNIQUE INDEX temp.asked_node ON asked(upid, ptr, cookie);
UPDATE finding SET place = a.place FROM asked a
WHERE section = 'nodes' AND (a.upid, a.ptr, a.cookie) = (finding.upid, finding.ptr, finding.cookie);

-- What the record of a finding says of it. An error reply is about the send that it refuses.
UPDATE finding SET seq = r.seq, utid = r.utid FROM raw_record r WHERE r.place = finding.place;
UPDATE finding SET generation = s.generation, code = r.code, handle = r.handle
FROM raw_send s JOIN raw_record r ON r.place = s.place
WHERE s.refused = finding.place AND section IN ('refused', 'strays');
UPDATE finding SET generation = s.generation, code = r.code, handle = r.handle
FROM raw_send s JOIN raw_record r ON r.place = s.place WHERE s.place = finding.place AND s.generation IS NOT NULL
  AND section IN ('calls', 'oneway', 'spam', 'answers', 'objects', 'flags');
UPDATE finding SET code = d.code, handle = d.handle, ptr = iif(d.kind = 'BR_REPLY', NULL, d.ptr),
  cookie = iif(d.kind = 'BR_REPLY', NULL, d.cookie), generation = s.generation
FROM delivery d LEFT JOIN raw_send s ON s.place = d.call AND d.kind = 'BR_REPLY'
WHERE d.place = finding.place AND section = 'buffers';
UPDATE finding SET ptr = r.ptr, cookie = r.cookie FROM raw_record r
WHERE r.place = finding.place AND section = 'served';
-- A reply has no code of its own: it is about the served call that it closes.
-- beside: nodes.sql
CREATE TEMP TABLE replied AS
SELECT c.place, c.closer
FROM raw_call c
WHERE c.served = 1 AND c.closer IN (SELECT place FROM report WHERE section = 'objects');
CREATE INDEX temp.replied_by ON replied(closer);
UPDATE finding SET code = r.code, ptr = r.ptr, cookie = r.cookie FROM replied c JOIN raw_record r USING (place)
WHERE section = 'objects' AND c.closer = finding.place;
UPDATE finding SET cookie = d.cookie, handle = coalesce(d.handle, finding.handle) FROM dead_record d
WHERE d.place = finding.place AND section IN ('requests', 'deaths', 'clears');
UPDATE finding SET handle = t.handle, generation = t.generation FROM told_death t
WHERE t.place = finding.place AND section = 'deaths';
UPDATE finding SET generation = (SELECT g.id FROM raw_generation g WHERE g.upid = finding.upid
  AND g.handle = finding.handle AND g.begin <= finding.place ORDER BY g.begin DESC LIMIT 1)
WHERE section IN ('requests', 'clears');
UPDATE finding SET target = n.upid, ptr = coalesce(finding.ptr, n.ptr), cookie = iif(section IN ('requests', 'deaths',
  'clears'), finding.cookie, coalesce(finding.cookie, n.cookie))
FROM node_of n WHERE n.generation = finding.generation;
