-- Why the driver refused a send, by its log of failed transactions, and what filled the space of the receiver then.
-- needs: database/schema.sql: finding, raw_call, raw_delivery, raw_record, raw_send, raw_thread, side_failed,
--   side_overrun; database/views.sql: thread; nodes.sql: node_of, who; names.sql: call_named, code_named; ages.sql:
--   life; failures.sql: failure; judging.py: call_words, counted, short_name, status_name
-- after: failures.sql, strays.sql
-- makes: tables: refusal, no_space; temporary tables: failing, logged, fits, best_shift, refused_first, filling,
--   in_the_way; indexes: logged_of

-- ---- why

-- The sends that failed as the driver took them: those of which it told the sender, and replies of which it told the
-- caller, unless that had ended. `told` is the number of the frame that tells of it.
CREATE TEMP TABLE failing AS
SELECT
  s.place,
  s.utid,
  CASE WHEN r.kind IN (:BC_REPLY, :BC_REPLY_SG) THEN 'reply' WHEN r.flags & :TF_ONE_WAY THEN 'oneway' ELSE 'call' END
    AS what,
  iif(r.kind IN (:BC_REPLY, :BC_REPLY_SG), NULL, r.handle) AS handle,
  r.data_size,
  e.kind AS answer,
  s.seq,
  e.seq AS told
FROM (SELECT 1 FROM side_failed LIMIT 1) CROSS JOIN raw_send s JOIN raw_record r USING (place)
  JOIN raw_record e ON e.place = s.refused
UNION ALL
SELECT q.place, q.utid, 'reply', NULL, q.data_size, coalesce(e.kind, :BR_DEAD_REPLY), q.seq, coalesce(k.seq, q.seq)
FROM (SELECT 1 FROM side_failed LIMIT 1) CROSS JOIN raw_call m CROSS JOIN raw_send s ON s.place = m.place
  JOIN raw_call c ON c.place = s.delivery JOIN raw_record q ON q.place = c.closer JOIN raw_send p ON p.place = q.place
  LEFT JOIN raw_record k ON k.place = p.confirmed LEFT JOIN raw_record e ON e.place = m.closer AND m.verdict = 3
  JOIN life l ON l.utid = m.utid
WHERE NOT m.served AND m.verdict IN (0, 3) AND c.served AND c.verdict = 2 AND p.refused IS NULL
  AND (m.verdict = 3 OR l.ended_after < q.seq);
-- Of a thread the log and the capture have the same failures in the same order. What the log has of a send was in it
-- at a look after the send was begun, and not yet at the look before that, unless the send was under way then. `nth`
-- counts from the last one.
CREATE TEMP TABLE logged AS
SELECT *, row_number() OVER (PARTITION BY tid, what, handle, answer ORDER BY id DESC) AS nth
FROM (SELECT id, what, tid, to_pid, iif(what = 'reply', NULL, handle) AS handle, data_size, answer, errno, from_seq,
    after
  FROM side_failed);
CREATE INDEX temp.logged_of ON logged(tid, what, answer, nth);
-- The last look comes after the last frame, so the log may also have what failed later, or what a lost frame has. So of
-- each thread, kind, target and answer the last entries are left out, as few as leave the most pairs that fit.
CREATE TEMP TABLE fits AS
SELECT f.place, e.id, e.tid, e.what, e.handle, e.answer, e.nth - f.nth AS shift
FROM (
  SELECT x.*, t.tid, row_number() OVER (PARTITION BY t.tid, x.what, x.handle, x.answer ORDER BY x.place DESC) AS nth
  FROM failing x JOIN thread t USING (utid)) f
  CROSS JOIN logged e
    ON e.tid = f.tid AND e.what = f.what AND e.answer = f.answer AND e.nth BETWEEN f.nth AND f.nth + :LOGGED
    AND e.handle IS f.handle
WHERE f.seq <= e.after AND f.told > e.from_seq AND e.data_size IN (0, f.data_size);
CREATE TEMP TABLE best_shift AS
SELECT tid, what, handle, answer, shift
FROM (
  SELECT *, row_number() OVER (PARTITION BY tid, what, handle, answer ORDER BY n DESC, shift) AS nth
  FROM (SELECT tid, what, handle, answer, shift, count(*) AS n FROM fits GROUP BY 1, 2, 3, 4, 5))
WHERE nth = 1;
CREATE TABLE refusal(place INTEGER PRIMARY KEY, errno INTEGER NOT NULL, why TEXT NOT NULL) STRICT;
INSERT INTO refusal
SELECT
  f.place,
  e.errno,
  CASE
    WHEN e.answer = :BR_FROZEN_REPLY THEN 'its receiver was frozen'
    WHEN e.answer = :BR_DEAD_REPLY THEN 'its receiver had ended'
    WHEN e.errno = 28 THEN 'no space'
    WHEN e.errno = 22 AND e.what <> 'reply' AND e.to_pid = 0 THEN 'a bad handle'
    WHEN e.errno = 22 THEN 'a bad object'
    WHEN e.errno IN (1, 13) THEN 'denied, by SELinux or as the receiver takes no descriptors'
    WHEN e.errno = 71 THEN 'there is no call to reply to'
    WHEN e.errno = 9 THEN 'a descriptor that is not open'
    WHEN e.errno = 14 THEN 'its data could not be read'
    ELSE 'an error' END || iif(e.errno, ' (' || status_name(-e.errno) || ')', '')
FROM fits f JOIN best_shift b
  ON b.tid = f.tid AND b.what = f.what AND b.handle IS f.handle AND b.answer = f.answer AND b.shift = f.shift
  JOIN logged e USING (id);

-- ---- what filled the space of the receiver

-- The first send of each process that found no space at another one. The driver takes half of the space for oneway
-- sends; so of those it is also likely where the log is not there.
CREATE TEMP TABLE refused_first AS
SELECT *, row_number() OVER (PARTITION BY upid, receiver, oneway ORDER BY place) AS nth
FROM (
  SELECT f.id, f.upid, e.place, f.target AS receiver, r.flags & :TF_ONE_WAY AS oneway
  FROM failure e JOIN finding f USING (id) JOIN raw_record r ON r.place = e.place
    LEFT JOIN refusal w ON w.place = e.place
  WHERE e.refused AND f.rule = 'E5' AND f.target NOTNULL AND coalesce(w.errno = 28, r.flags & :TF_ONE_WAY)
  UNION ALL
  SELECT f.id, f.upid, w.place, f.upid, 0
  FROM finding f JOIN raw_send s USING (place) JOIN raw_call c ON c.place = s.delivery
    JOIN refusal w ON w.place = c.closer
  WHERE f.rule = 'E6' AND w.errno = 28);
DELETE FROM refused_first WHERE nth > 1;
DELETE FROM refused_first WHERE id NOT IN (SELECT id FROM refused_first ORDER BY place LIMIT :NOTED);
-- What was there, or on its way. The driver rounds sizes up to 8 bytes.
CREATE TEMP TABLE filling AS
SELECT q.id, q.receiver, t.upid AS sender, 0 AS reply, r.flags & :TF_ONE_WAY AS oneway, r.code, n.upid AS about,
  n.ptr AS node, r.place, coalesce(d.place < q.place, 0) AS got
FROM refused_first q CROSS JOIN node_of n ON n.upid = q.receiver JOIN raw_send s ON s.generation = n.generation
  AND s.place < q.place JOIN raw_record r ON r.place = s.place JOIN raw_thread t ON t.utid = s.utid
  LEFT JOIN raw_delivery d ON d.place = s.delivery LEFT JOIN raw_call c ON c.place = s.place
WHERE s.refused IS NULL AND coalesce(d.freed_by > q.place, 1)
  AND iif(r.flags & :TF_ONE_WAY, 1, NOT q.oneway AND (d.place NOTNULL OR coalesce(c.closer > q.place, 1)))
UNION ALL
SELECT q.id, q.receiver, coalesce(p.upid, o.upid, t.upid), 1, 0, a.code, coalesce(o.upid, -t.upid),
  coalesce(o.ptr, a.handle), r.place, 1
FROM refused_first q CROSS JOIN raw_thread t ON t.upid = q.receiver JOIN raw_delivery d ON d.utid = t.utid
  JOIN raw_record r ON r.place = d.place JOIN raw_record a ON a.place = d.call
  LEFT JOIN raw_send x ON x.place = d.send LEFT JOIN raw_thread p ON p.utid = x.utid
  LEFT JOIN raw_send s ON s.place = d.call LEFT JOIN node_of o ON o.generation = s.generation
WHERE NOT q.oneway AND r.kind = :BR_REPLY AND d.place < q.place AND coalesce(d.freed_by > q.place, 1);
CREATE TABLE no_space(finding INTEGER, receiver_upid INTEGER NOT NULL, sender_upid INTEGER NOT NULL,
  reply INTEGER NOT NULL, oneway INTEGER NOT NULL, code INTEGER, interface TEXT, method TEXT, n INTEGER NOT NULL,
  held INTEGER NOT NULL, bytes INTEGER NOT NULL, largest INTEGER NOT NULL) STRICT;
INSERT INTO no_space
SELECT f.id, f.receiver, f.sender, f.reply, f.oneway, f.code, coalesce(c.interface, b.interface),
  coalesce(c.method, b.method), count(*), sum(iif(f.got, bytes, 0)), sum(bytes), max(bytes)
FROM (
  SELECT f.*, (r.data_size + 7) / 8 * 8 + (r.offsets_size + 7) / 8 * 8 + (coalesce(r.extra, 0) + 7) / 8 * 8 AS bytes
  FROM filling f JOIN raw_record r USING (place)) f
  LEFT JOIN call_named c ON (c.code, c.upid, c.ptr) = (f.code, f.about, f.node)
  LEFT JOIN code_named b ON c.code IS NULL AND b.code = f.code
GROUP BY f.id, f.receiver, f.sender, f.reply, f.oneway, f.code, coalesce(c.interface, b.interface),
  coalesce(c.method, b.method)
ORDER BY f.id, sum(bytes) DESC, f.sender;
CREATE TEMP TABLE in_the_way AS
SELECT finding AS id, receiver_upid AS target, sender_upid AS upid, sum(n) AS n, sum(bytes) AS bytes, sum(held) AS held
FROM no_space GROUP BY 1, 2, 3;

-- ---- the notes

-- The limit of -1, which is none, keeps the order.
UPDATE finding SET note = (
  SELECT iif(max(q.oneway), counted(sum(n), 'oneway send'), counted(sum(n), 'send or reply', 'sends and replies'))
    || ' with ' || counted(sum(bytes), 'byte') || ' waited or were held at '
    || (SELECT who FROM who w WHERE w.upid = q.receiver) || ': ' || group_concat(
      counted(n, 'send') || ' from ' || (SELECT who FROM who w WHERE w.upid = i.upid), ', ')
  FROM (SELECT * FROM in_the_way w WHERE w.id = finding.id ORDER BY bytes DESC, upid LIMIT -1) i, refused_first q
  WHERE q.id = finding.id)
  || (SELECT '; most by ' || iif(m.reply, 'replies to ', '')
      || call_words(m.code, short_name(m.interface), 0, m.method) || ', the largest has '
      || counted(max(m.largest) OVER (), 'byte')
    FROM no_space m WHERE m.finding = finding.id ORDER BY m.bytes DESC, m.sender_upid LIMIT 1)
WHERE id IN (SELECT id FROM in_the_way);
UPDATE finding SET note = w.why
  || CASE WHEN finding.note NOTNULL THEN ': ' || finding.note
    WHEN w.errno = 28 AND finding.id IN (SELECT id FROM refused_first)
    THEN ' for its ' || counted((SELECT data_size FROM raw_record r WHERE r.place = w.place), 'byte')
      || ': nothing else that the capture has was there'
    ELSE '' END
FROM failure e JOIN refusal w USING (place)
WHERE finding.rule = 'E5' AND e.id = finding.id AND e.refused;
UPDATE finding SET note = 'why is not known, as '
  || iif(EXISTS (SELECT 1 FROM side_overrun o WHERE f.seq <= o.after AND f.told > o.from_seq),
    'the driver''s log was overrun', 'no entry of the driver''s log fits') || coalesce(': ' || finding.note, '')
FROM failure e JOIN failing f USING (place)
WHERE finding.rule = 'E5' AND e.id = finding.id AND e.refused AND e.place NOT IN (SELECT place FROM refusal);
UPDATE finding SET said = 'the reply at {other}: ' || w.why, other = w.place
FROM raw_send s JOIN raw_call c ON c.place = s.delivery JOIN refusal w ON w.place = c.closer
WHERE finding.rule = 'E6' AND s.place = finding.place;
UPDATE finding SET note = w.why FROM refusal w WHERE finding.rule = 'S1' AND w.place = finding.other;
