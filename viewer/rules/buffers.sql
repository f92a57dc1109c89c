-- T, U: buffers.
-- needs: database/schema.sql: finding, raw_call, raw_delivery, raw_record, raw_send; counts.sql: buffer_path, sent;
--   ages.sql: ended, leaving, life, old; judging.py: counted
-- after: calls.sql
-- makes: temporary tables: of_whole_path, kept_path, kept_reply, freed_reply; indexes: kept_path_of, kept_reply_of

-- ---- what findings are called

-- buffers BR_REPLY are called: replies never freed
-- buffers are called: received transactions never freed

UPDATE finding SET rule = 'T1' WHERE rule IS NULL AND section = 'buffers'
  AND (later = 0 AND finding.id IN (SELECT id FROM ended) OR finding.id IN (SELECT id FROM leaving));
UPDATE finding SET rule = 'U1' WHERE rule IS NULL AND section = 'buffers' AND n_good >= :ENOUGH
  AND (coalesce(age <= longest, age_seq <= longest_seq) OR age <= :VERY_LONG AND age_seq <= longest_seq);
-- Nearly all that one process got on a path, which is the one to free them; or nearly all of the replies of a path.
UPDATE finding SET rule = 'U3'
FROM (SELECT f.relation, f.code, f.about, f.node, f.upid FROM finding f JOIN buffer_path b
    ON b.about = f.about AND b.node IS f.node AND b.code IS f.code AND b.relation = f.relation AND b.receiver = f.upid
  WHERE f.section = 'buffers' AND f.rule IS NULL AND f.later > 0
  GROUP BY 1, 2, 3, 4, 5 HAVING count(*) >= :OFTEN AND count(*) >= :NEARLY_ALL * max(b.n)) p
WHERE rule IS NULL AND section = 'buffers' AND later > 0 AND p.relation = finding.relation AND p.code IS finding.code
  AND p.about = finding.about AND p.node IS finding.node AND p.upid = finding.upid;
CREATE TEMP TABLE of_whole_path AS
SELECT f.id
FROM finding f JOIN (SELECT relation, code, about, node FROM finding
  WHERE section = 'buffers' AND coalesce(rule = 'U3', 1) AND later > 0
  GROUP BY 1, 2, 3, 4 HAVING count(*) >= :OFTEN AND count(*) >= :NEARLY_ALL * max(n_all)) p
  ON p.relation = f.relation AND p.code IS f.code AND p.about = f.about AND p.node IS f.node
WHERE f.rule IS NULL AND f.section = 'buffers' AND f.later > 0;
UPDATE finding SET rule = 'U3' WHERE id IN (SELECT id FROM of_whole_path);
-- The longest of what the process freed itself tells, or that of the path.
UPDATE finding SET rule = 'U2' FROM buffer_path b
WHERE rule IS NULL AND section = 'buffers' AND later >= :OFTEN AND b.about = finding.about AND b.node IS finding.node
  AND b.code IS finding.code AND b.relation = finding.relation AND b.receiver = finding.upid
  AND (n_good >= :ENOUGH
      AND coalesce(age > max(:LONG, :OLD * finding.longest), age_seq > :OLD * finding.longest_seq)
    OR b.good >= :ENOUGH AND coalesce(age > max(:LONG, :OLD * b.longest), age_seq > :OLD * b.longest_seq));
UPDATE finding SET rule = 'U4' WHERE rule IS NULL AND section = 'buffers' AND later > 0
  AND coalesce(age > :LONG, 1);
-- A thread may keep the last buffer that it got. If its process kept others of that path too, this is one more of them.
CREATE TEMP TABLE kept_path AS
SELECT DISTINCT upid, relation, code, about, node FROM finding WHERE section = 'buffers' AND rule IN ('U2', 'U3', 'U4');
CREATE INDEX temp.kept_path_of ON kept_path(about, node, code, relation);
UPDATE finding SET rule = iif(finding.id IN (SELECT id FROM old) AND EXISTS (SELECT 1 FROM kept_path p
  WHERE p.about = finding.about AND p.node IS finding.node AND p.code IS finding.code
    AND p.relation = finding.relation AND p.upid = finding.upid), 'U5', 'U6')
WHERE rule IS NULL AND section = 'buffers';

-- ---- a buffer that was freed behind a reply, in the same write

-- After a reply to a caller that has ended, or that gets an error in place of it, the driver takes nothing more of the
-- write: what it took ends with the reply.
UPDATE finding SET said = iif(l.ended_after < q.seq, 'its reply at {other} went to a caller that had ended',
    'its reply at {other} failed')
    || ': the driver takes nothing behind it in the same write, no BC_FREE_BUFFER either',
  other = q.place
FROM raw_call c JOIN raw_record q ON q.place = c.closer JOIN raw_delivery d ON d.place = c.place
  JOIN raw_send s ON s.place = d.send JOIN life l ON l.utid = s.utid LEFT JOIN raw_call m ON m.place = d.send
WHERE +finding.section = 'buffers' AND finding.rule IN ('T1', 'U2', 'U3', 'U4', 'U5', 'U6') AND c.place = finding.place
  AND c.verdict = 2 AND s.certain AND (l.ended_after < q.seq OR m.verdict = 3)
  AND (SELECT n.seq FROM raw_record n WHERE n.place > q.place ORDER BY n.place LIMIT 1) IS NOT q.seq;

-- ---- replies of which the small ones are kept: an error may have a reply of its own, such as an exception

CREATE TEMP TABLE kept_reply AS
SELECT f.upid, f.code, f.about, f.node, count(*) AS n, max(r.data_size) AS most
FROM finding f JOIN raw_record r USING (place)
WHERE f.section = 'buffers' AND f.what = 'BR_REPLY' AND f.rule IN ('U2', 'U3', 'U4', 'U5')
GROUP BY 1, 2, 3, 4 HAVING count(*) >= :OFTEN;
CREATE INDEX temp.kept_reply_of ON kept_reply(about, node, code, upid);
-- Those to the same calls of the same process that were freed.
CREATE TEMP TABLE freed_reply AS
SELECT k.*, count(*) AS freed, min(r.data_size) AS least
FROM (
    SELECT DISTINCT p.generation, p.upid, coalesce(p.node_upid, -p.upid) AS about, coalesce(p.ptr, p.handle) AS node
    FROM (SELECT 1 FROM kept_reply LIMIT 1) CROSS JOIN sent p
    WHERE (coalesce(p.node_upid, -p.upid), coalesce(p.ptr, p.handle), p.code, p.upid) IN (
      SELECT about, node, code, upid FROM kept_reply)) g
  CROSS JOIN raw_send s ON s.generation = g.generation CROSS JOIN raw_record q ON q.place = s.place
  CROSS JOIN kept_reply k ON (k.about, k.node, k.code, k.upid) = (g.about, g.node, q.code, g.upid)
  CROSS JOIN raw_call c ON c.place = s.place CROSS JOIN raw_delivery d ON d.place = c.closer
  CROSS JOIN raw_record r ON r.place = d.place
WHERE c.verdict = 1 AND d.freed_by NOTNULL
GROUP BY k.upid, k.code, k.about, k.node;
UPDATE finding SET note = 'all ' || k.n || ' that are kept have at most ' || counted(k.most, 'byte') || ', all '
  || k.freed || ' that were freed at least ' || k.least || ': look at what follows an error'
FROM freed_reply k
WHERE section = 'buffers' AND what = 'BR_REPLY' AND rule IN ('U2', 'U3', 'U4', 'U5')
  AND (k.upid, k.code, k.about, k.node) = (finding.upid, finding.code, finding.about, finding.node)
  AND k.freed >= :ENOUGH AND k.most < k.least;
