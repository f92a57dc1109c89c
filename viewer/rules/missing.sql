-- M: what is no longer real, or not told at all, where frames are missing.
-- needs: database/schema.sql: finding; counts.sql: sent; rule.sql: if_missing, lossy; buffers.sql: of_whole_path
-- after: the rules
-- makes: temporary tables: half_known

-- The paths that a process takes of which frames are missing: how long calls took there, and how many replies were
-- freed, is not known of all.
-- beside: rule.sql
CREATE TEMP TABLE half_known AS
SELECT DISTINCT code, node_upid AS upid, ptr
FROM sent
WHERE upid IN (SELECT upid FROM lossy);
-- Of its own process; of a call also those of the process that it calls, where the call may wait for another one; and
-- of a call or a reply those of others on its path, and of a pool those of what calls it. Of the replies of a whole
-- path any process may have got more. A send with bad objects was refused for these.
UPDATE finding SET rule = m.becomes FROM if_missing m
WHERE m.rule = finding.rule AND (upid IN (SELECT upid FROM lossy)
    OR section IN ('calls', 'books') AND target IN (SELECT upid FROM lossy) AND m.becomes = 'M2'
    OR section IN ('calls', 'books', 'buffers') AND m.becomes = 'M2'
      AND (finding.code, target, ptr) IN (SELECT code, upid, ptr FROM half_known)
    OR section = 'pools' AND m.becomes = 'M2' AND upid IN (SELECT upid FROM half_known)
    OR finding.id IN (SELECT id FROM of_whole_path) AND EXISTS (SELECT 1 FROM lossy))
  AND NOT (m.becomes = 'M3' AND place IN (SELECT place FROM finding WHERE section = 'objects'));
