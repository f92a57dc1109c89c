-- Which process causes a finding, where the capture shows that it is another one than the one that has the finding.
-- needs: database/schema.sql: finding, raw_record; failures.sql: failure, in_freeze, takes_no_fds; waits.sql: waits;
--   refusals.sql: in_the_way
-- after: part.sql
-- makes: nothing

-- Of an open call, the process that should answer it. In a ring, the call that nobody got is a matter of its caller,
-- for which another one in the ring waits; in one through a pool, both calls are a matter of the process with the pool.
UPDATE finding SET culprit = w.server_upid FROM waits w
WHERE w.id = finding.id AND rule IN ('B1', 'C3', 'C4', 'C5', 'C6', 'C7', 'C8', 'C9', 'C10', 'M2', 'U1', 'U2', 'U6')
  AND (rule <> 'C3' OR w.delivery NOTNULL);
UPDATE finding SET culprit = w.server_upid FROM waits w
WHERE w.id = finding.id AND rule = 'C11' AND w.delivery IS NULL;
-- What failed, or never came, because of its receiver: it ended, was frozen, gave a bad reply, or reads nothing.
-- Who goes on calling what is frozen, or takes no file descriptors, causes that.
UPDATE finding SET culprit = target WHERE rule IN ('E3', 'E4', 'E6', 'E8', 'E9', 'E10', 'W2', 'W3')
  AND id NOT IN (SELECT id FROM in_freeze WHERE n >= :OFTEN) AND id NOT IN (SELECT id FROM takes_no_fds);
-- If there is no space for oneway sends: the receiver, if it got most of what is in the way and frees nothing of that,
-- and else the process that sent most of it.
UPDATE finding SET culprit = c.upid
FROM (SELECT q.upid AS sender, i.target,
    iif(2 * sum(i.held) OVER one > sum(i.bytes) OVER one, i.target, i.upid) AS upid,
    row_number() OVER (PARTITION BY i.id ORDER BY i.bytes DESC, i.upid) AS nth
  FROM in_the_way i JOIN finding q USING (id) WINDOW one AS (PARTITION BY i.id)) c,
  failure e JOIN raw_record r USING (place)
WHERE rule = 'E5' AND e.id = finding.id AND r.flags & :TF_ONE_WAY AND c.nth = 1
  AND (c.sender, c.target) = (finding.upid, finding.target);
-- Who gives handles, and does not take them back.
UPDATE finding SET culprit = giver WHERE rule = 'H13';
-- Who begins to answer with a status, or an exception.
UPDATE finding SET culprit = target WHERE rule IN ('R3', 'R4');
-- If several processes get the same status, the one that answers with it.
UPDATE finding SET culprit = target
FROM (SELECT code, way, about, node, status FROM finding WHERE rule = 'R1' GROUP BY 1, 2, 3, 4, 5
  HAVING count(DISTINCT upid) > 1) p
WHERE rule = 'R1' AND p.code = finding.code AND p.way IS finding.way AND p.about IS finding.about
  AND p.node IS finding.node AND p.status IS finding.status;
