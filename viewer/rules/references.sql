-- H3 to H12, H14 to H17, T, U: references to handles and nodes that are held, and those that are balanced.
-- needs: database/schema.sql: finding, raw_generation, raw_object, raw_record, raw_send, raw_thread, side_time;
--   nodes.sql: manager, node_of, who; records.sql: asked, dead_record, told_death; paths.sql: given, given_way,
--   thing_path; ages.sql: ended, last, leaving, process_life, recorded; handles.sql: handle_row; held.sql: held_change;
--   rule.sql: lossy; ways.sql: collector, earlier, kept_handle, kept_way, let_go, of_way, outlived; waits.sql: waits;
--   judging.py: call_name
-- makes: temporary tables: mourned, dead_way, outlives, let_go_later, told_by_reply, most_held, more_references,
--   each_again, nearly_all, growing, by_design, overdue, unused, outliving, not_collected, kept_elsewhere, used_of_way,
--   weakly_kept, handed_over; indexes: most_held_of, more_references_of, by_design_of

-- ---- what findings are called

-- handles are called: references held
-- handles balanced are called: references, balanced
-- nodes are called: own objects held by others
-- nodes balanced are called: own objects, balanced

-- ---- the rules

-- H3 maybe: Still held long after its death notification.
--   next: what the process does when it is told of the death: its proxy of the object stays
--   rests on: VERY_LONG, LONG, OFTEN
--   met by: `mourned`: handles of three dead clients
--   fault: references to an object told dead
-- H4 maybe: Taken more than once, and still held.
--   next: the code that takes it: each acquire needs a release
--   met by: `sessions`: three of six references are kept
--   fault: references taken more than once
-- H5 maybe: Nearly all handles that came this way from one process are kept.
--   next: what the process does with what it gets this way: nothing lets go of it
--   rests on: MANY, NEARLY_ALL, MOST, SETTLED
--   of a part: whether the process that gave them had just started is not recorded
--   met by: `hello-sessions`: a client keeps six sessions
--   fault: references kept
-- H6 normal: Still held, and nothing says that this is too long.
--   met by: `cache()`: most kept handles are in use
-- H7 normal: Taken and let go of.
--   met by: `handles_and_nodes()`
-- H8 maybe: Unused, and held over {OLD} times longer than any released handle that came the same way.
--   next: what became different for those that are kept: an error, or a caller that left
--   rests on: MANY, OFTEN, OLD, LONG, LATELY
--   met by: `one_in_ten()`: one handle of ten is kept
--   fault: references kept
--   where frames are missing: M1
-- H9 maybe: Its process holds more and more that came this way, up to the end.
--   next: what the process does with what it gets this way, and whether its number has a bound
--   rests on: MANY, GROWTH, LATELY
--   met by: `more_and_more()`: a leak of used handles
--   fault: references kept
--   where frames are missing: M1
-- H10 real: {TOO_MANY} or more that came this way are kept and not used, and they become more up to the end.
--   next: what the process does with what it gets this way: nothing lets go of it
--   rests on: TOO_MANY, MANY, NEARLY_ALL, GROWTH, LATELY, MOST
--   met by: `more_and_more()`: a client keeps three more in each quarter
--   fault: references kept
--   where frames are missing: M2
-- H11 real: {TOO_MANY} or more references to it were taken and not let go of, and they become more up to the end.
--   next: the code that takes it again and again: each acquire needs a release
--   rests on: TOO_MANY, GROWTH, LATELY
--   met by: `more_references()`: eight more in the last half
--   fault: references taken more than once
--   where frames are missing: H4
-- H12 real: Its process ended over {VERY_LONG} before, like {OFTEN} or more of its way, and no death was asked for.
--   next: whether the process lets go when a send is refused, and why it asks for no death
--   rests on: VERY_LONG, OFTEN, OLD
--   met by: `listeners_of_the_dead()`: a service keeps an object of each of three processes that ended
--   fault: references to ended processes
--   where frames are missing: M2
-- H14 real: {TOO_MANY} or more that came this way are kept and not used, and {MANY} that came later were let go of.
--   next: what is different for those that are kept: what refers to each of them still
--   rests on: TOO_MANY, MANY, LATELY, NEARLY_ALL
--   met by: `beside_a_collector()`: an app keeps one of four
--   fault: references kept
--   where frames are missing: M2
-- H15 real: {TOO_MANY} or more objects that came this way were each taken more than once and are held, up to the end.
--   next: the code that takes what comes this way: each acquire needs a release
--   rests on: TOO_MANY, MANY, GROWTH, LATELY
--   met by: `each_taken_twice()`: a client takes twice what replies give it
--   fault: references taken more than once
--   where frames are missing: H4
-- H16 real: {TOO_MANY} or more of its way are held over {VERY_LONG} after BR_DEAD_REPLY told that their process had
--     ended.
--   next: what the process does with BR_DEAD_REPLY: it lets go of nothing that is dead
--   rests on: TOO_MANY, VERY_LONG, OLD
--   met by: `holds_the_dead()`: a client calls ten objects of a process that ended, and keeps them
--   fault: references to ended processes
--   where frames are missing: M2
-- H17 maybe: {TOO_MANY} or more of its way are held over {VERY_LONG} after their process ended, and no death was asked
--     for.
--   next: whether the process can tell that they are dead: it asks for no death, and calls few of them
--   rests on: TOO_MANY, VERY_LONG, OLD
--   met by: `holds_the_dead()`: a client keeps ten objects of a process that ended, and calls nine
--   fault: references to ended processes
--   where frames are missing: M1
-- H18 real: {OFTEN} or more, and nearly all of its process, are not acknowledged while their threads went on.
--   next: the threads that read: each has to answer BR_INCREFS and BR_ACQUIRE
--   rests on: OFTEN, NEARLY_ALL
--   met by: `nodes_not_acknowledged()`: a process acknowledges none of three objects
--   fault: references never acknowledged
--   where frames are missing: M1

-- ---- what they say of which finding

-- The proxies of the dead go with the next collection of garbage: one is held for long after :VERY_LONG, and several
-- after :LONG.
CREATE TEMP TABLE mourned AS
SELECT id, place, age > :VERY_LONG OR coalesce(age > :LONG, 1) AND count(*) OVER (PARTITION BY upid) >= :OFTEN AS long
FROM (SELECT f.id, f.upid, min(t.place) AS place, coalesce(p.ended, last.ts) - x.ts AS age
  FROM finding f JOIN told_death t USING (generation) JOIN process_life p ON p.upid = f.upid
    JOIN raw_record r ON r.place = t.place LEFT JOIN side_time x ON x.seq = r.seq, last
  WHERE f.section = 'handles' AND f.what = 'held' GROUP BY f.id);
UPDATE finding SET rule = 'H3', said = 'told at {other}', other = m.place FROM mourned m
WHERE rule IS NULL AND m.id = finding.id AND m.long;
-- By which calls or replies they came, and how many of those that its process got so are such.
CREATE TEMP TABLE dead_way AS
SELECT v.upid, v.way, count(*) AS n FROM finding f JOIN given v USING (generation)
WHERE f.rule = 'H3' AND v.way NOTNULL GROUP BY 1, 2;
UPDATE finding SET
  said = 'told at {other}; {way}: {how_many} of {of_how_many} that came so',
  way = d.way,
  how_many = d.n,
  of_how_many = (SELECT sum(w.n) FROM given_way w WHERE (w.upid, w.way) = (d.upid, d.way))
FROM given v JOIN dead_way d USING (upid, way) WHERE rule = 'H3' AND v.generation = finding.generation;
-- Who asks for no death learns of it by a send that is refused, and libbinder sends nothing more to such a handle. So
-- what is kept of the ended makes no noise: it is told by how long its process worked on after their end.
CREATE TEMP TABLE outlives AS
SELECT f.id, f.upid, g.way, n.upid AS owner, l.last_ts - p.ended AS since
FROM finding f JOIN given g USING (generation) JOIN node_of n USING (generation) JOIN process_life p ON p.upid = n.upid
  JOIN recorded l ON l.upid = f.upid JOIN raw_generation h ON h.id = f.generation
  LEFT JOIN collector c ON c.upid = f.upid
WHERE f.section = 'handles' AND f.what = 'held' AND f.rule IS NULL AND n.certain AND l.last_ts - p.ended > :VERY_LONG
  AND g.asked IS NOT 0 AND f.upid NOT IN (SELECT upid FROM manager) AND (c.upid IS NULL OR c.collected > p.ended_after)
  AND NOT EXISTS (SELECT 1 FROM dead_record d WHERE (d.upid, d.handle) = (f.upid, f.handle)
    AND d.kind = :BC_REQUEST_DEATH_NOTIFICATION AND d.place > h.begin);
-- The longest that one of their ways was held after the end of its owner, of those that were let go of after that.
CREATE TEMP TABLE let_go_later AS
SELECT g.upid, g.way, max(z.ts - p.ended) AS longest
FROM (SELECT DISTINCT upid, way FROM outlives) w CROSS JOIN given g USING (upid, way)
  JOIN raw_generation h ON h.id = g.generation JOIN node_of n USING (generation)
  JOIN process_life p ON p.upid = n.upid JOIN raw_record e ON e.place = h.end JOIN side_time z ON z.seq = e.seq
WHERE z.ts > p.ended GROUP BY 1, 2;
DELETE FROM outlives WHERE since <= :OLD * (SELECT longest FROM let_go_later l
  WHERE (l.upid, l.way) = (outlives.upid, outlives.way));
-- Of a process that ended a missing frame may have handed over one that was let go of then.
UPDATE finding SET
  rule = iif(EXISTS (SELECT 1 FROM lossy JOIN process_life p USING (upid) WHERE p.ended_after NOTNULL), 'M2', 'H12'),
  relation = 'given',
  way = o.way,
  n_all = (SELECT sum(w.n) FROM given_way w WHERE (w.upid, w.way) = (o.upid, o.way)),
  said = 'held for {how_long} after {who} ended',
  other_upid = o.owner,
  how_long = o.since
FROM outlives o JOIN (SELECT upid, way FROM outlives GROUP BY 1, 2 HAVING count(DISTINCT owner) >= :OFTEN) w
  USING (upid, way)
WHERE o.id = finding.id;
-- Many of one process, of which BR_DEAD_REPLY told or not.
CREATE TEMP TABLE told_by_reply AS
SELECT o.id
FROM outlives o JOIN finding f USING (id) JOIN recorded l ON l.upid = o.upid
  JOIN raw_send s ON s.generation = f.generation JOIN raw_record e ON e.place = s.refused JOIN side_time x ON x.seq = e.seq
WHERE e.kind = :BR_DEAD_REPLY
GROUP BY 1
HAVING l.last_ts - min(x.ts) > :VERY_LONG;
UPDATE finding SET
  rule = iif(w.told >= :TOO_MANY, 'H16', 'H17'),
  relation = 'given',
  way = o.way,
  giver = (SELECT iif(g.reply, NULL, g.sender) FROM given g WHERE g.generation = finding.generation),
  said = 'held for {how_long} after {who} ended; BR_DEAD_REPLY told so of {how_many} of {of_how_many}',
  other_upid = o.owner,
  how_long = o.since,
  how_many = w.told,
  of_how_many = w.n
FROM outlives o JOIN (SELECT d.upid, d.way, d.owner, count(*) AS n, count(t.id) AS told
    FROM outlives d LEFT JOIN told_by_reply t USING (id)
    GROUP BY 1, 2, 3 HAVING count(*) >= :TOO_MANY) w
  ON (w.upid, w.way, w.owner) = (o.upid, o.way, o.owner)
WHERE rule IS NULL AND o.id = finding.id;
-- The most that a generation that is held had at once, if one thread took and let go of all. Records of several threads
-- say nothing of that: one may write late that it let go, when another has taken it again. By these a generation has
-- more only if it has three now, besides one for each of them that is in a call, and may let go after it.
-- beside: waits.sql
CREATE TEMP TABLE most_held AS
SELECT generation, iif(min(utid) = max(utid), max(strong), max(now_strong) - 1 - count(DISTINCT calls)) AS strong,
  iif(min(utid) = max(utid), max(weak), max(now_weak) - 1 - count(DISTINCT calls)) AS weak
FROM (SELECT c.generation, g.strong AS now_strong, g.weak AS now_weak, c.utid,
    iif(c.utid IN (SELECT utid FROM waits), c.utid, NULL) AS calls, c.strong_then AS strong, c.weak_then AS weak
  FROM held_change c CROSS JOIN raw_generation g ON g.id = c.generation) GROUP BY 1;
CREATE UNIQUE INDEX temp.most_held_of ON most_held(generation);
-- Of which references become more to the end: how many there are at the half of what was recorded of the process, and
-- at the end, if that is more by enough, and the last two quarters have each made it more.
-- beside: held.sql
CREATE TEMP TABLE more_references AS
SELECT generation, half || ' held at half of its time, ' || held || ' at the end' AS told
FROM (SELECT generation, sum(n * (left >= :LATELY)) AS half, sum(n * (left >= :LATELY / 2)) AS later, sum(n) AS held
  FROM (SELECT c.generation, iif(g.strong > 0, c.strong, c.weak) AS n,
      coalesce(1.0 * (l.grows_to_ts - x.ts) / (l.grows_to_ts - l.first_ts),
        1.0 * (l.grows_to_seq - c.seq) / (l.grows_to_seq - l.first_seq)) AS left
    FROM held_change c CROSS JOIN raw_generation g ON g.id = c.generation JOIN recorded l USING (upid)
      LEFT JOIN side_time x ON x.seq = c.seq) GROUP BY 1)
WHERE held - half >= max(:TOO_MANY, :GROWTH * held) AND half < later AND later < held;
CREATE UNIQUE INDEX temp.more_references_of ON more_references(generation);
UPDATE finding SET
  rule = iif(o.told NOTNULL, 'H11', 'H4'),
  said = iif(m.strong > 1 AND g.strong > 0, '{how_many:time}, and let go of {of_how_many:time}',
    '{how_many:time}, weakly, and let go of {of_how_many:time}'),
  how_many = iif(m.strong > 1 AND g.strong > 0, g.acquired, g.increfs),
  of_how_many = iif(m.strong > 1 AND g.strong > 0, g.released, g.decrefs),
  note = o.told
FROM raw_generation g JOIN most_held m ON m.generation = g.id LEFT JOIN more_references o ON o.generation = g.id
WHERE rule IS NULL AND section = 'handles' AND what = 'held' AND g.id = finding.generation
  AND (m.strong > 1 AND g.strong > 0 OR m.weak > 1 AND g.weak > 0);
-- H15. One reference too many of each of many objects of a way, which become more up to the end.
CREATE TEMP TABLE each_again AS
SELECT o.way FROM of_way o JOIN finding f USING (generation)
WHERE f.rule = 'H4'
GROUP BY 1
HAVING count(*) >= :TOO_MANY AND sum(o.came_left < :LATELY) >= max(:MANY, :GROWTH * count(*))
  AND sum(o.came_left < :LATELY / 2) > 0 AND sum(o.came_left >= :LATELY / 2 AND o.came_left < :LATELY) > 0;
UPDATE finding SET rule = 'H15' FROM of_way o
WHERE rule = 'H4' AND o.generation = finding.generation AND o.way IN (SELECT way FROM each_again);
-- They are told by the way, and each object by its note. What the context manager gives are services, each with a path
-- of its own.
UPDATE finding SET
  code = g.code,
  relation = 'given',
  way = g.way,
  giver = iif(g.reply, NULL, g.sender),
  note = coalesce(note || '; ', '') || (SELECT path FROM thing_path t WHERE t.id = finding.id)
FROM given g
WHERE rule IN ('H4', 'H11', 'H15') AND g.generation = finding.generation AND g.way NOTNULL
  AND coalesce(g.sender NOT IN (SELECT upid FROM manager), 1);
-- H5. One handle from each of many is registration, many from one may be a leak: the ways of which nearly all handles
-- are kept.
CREATE TEMP TABLE nearly_all AS
SELECT w.id AS way FROM kept_way w LEFT JOIN earlier b ON b.way = w.id
WHERE w.kept >= :MANY AND w.kept >= :NEARLY_ALL * (w.n + coalesce(b.let_go, 0));
-- A leak grows to the end: how many of a way are held at the half of what was recorded of the process, and at the end,
-- if that is more by enough, and the last two quarters have each made it more.
CREATE TEMP TABLE growing AS
SELECT way, half || ' held at half of its time, ' || kept || ' at the end'
  || iif(early, ', with what came before the capture', '') AS told
FROM (SELECT o.way, coalesce(b.kept, 0) AS early,
    coalesce(b.half, 0) + sum(came_left >= :LATELY AND (o.kept OR went_left < :LATELY)) AS half,
    coalesce(b.later, 0) + sum(came_left >= :LATELY / 2 AND (o.kept OR went_left < :LATELY / 2)) AS later,
    coalesce(b.kept, 0) + sum(o.kept) AS kept
  FROM of_way o LEFT JOIN earlier b USING (way)
  WHERE o.generation NOT IN (SELECT generation FROM finding WHERE rule IN ('H3', 'H4', 'H11', 'H12', 'H15'))
  GROUP BY o.way)
WHERE kept - half >= max(:MANY, :GROWTH * kept) AND half < later AND later < kept;
-- But what is in use and does not grow is a cache, also one that goes on changing what it has: so the ways of it, with
-- how many have no rule yet, and how many of these are in use.
CREATE TEMP TABLE by_design AS
SELECT k.way, sum(k.in_use) || ' of ' || count(*) || ' that are kept are in use, and their number does not grow' AS told
FROM kept_handle k JOIN finding f USING (generation)
WHERE f.rule IS NULL AND f.section = 'handles' AND k.way IN (SELECT way FROM nearly_all)
  AND k.way NOT IN (SELECT way FROM growing)
GROUP BY 1 HAVING avg(k.in_use) > :MOST;
-- And what a process takes as it starts, from one that starts too, it mostly keeps by design. Only if the process was
-- recorded for long is that quarter of its time its start.
INSERT INTO by_design
SELECT o.way, 'all came when its process started, and none since'
FROM of_way o JOIN kept_way w ON w.id = o.way JOIN recorded l USING (upid) JOIN process_life h ON h.upid = w.upid
  JOIN process_life g ON g.upid = w.sender
WHERE h.known AND g.known AND o.way NOT IN (SELECT way FROM by_design) AND o.way NOT IN (SELECT way FROM growing)
GROUP BY 1 HAVING min(o.came_left) >= 1 - :LATELY / 2 AND l.end_ts - max(o.came_ts) > :SETTLED;
CREATE UNIQUE INDEX temp.by_design_of ON by_design(way);
UPDATE finding SET rule = 'H5' FROM kept_handle k
WHERE rule IS NULL AND section = 'handles' AND what = 'held' AND k.generation = finding.generation
  AND k.way IN (SELECT way FROM nearly_all) AND k.way NOT IN (SELECT way FROM by_design);
-- H8. If others of the way were let go of, the longest of them says how long one is needed.
CREATE TEMP TABLE overdue AS
SELECT f.id, k.way, count(*) OVER (PARTITION BY k.way) AS of, l.n, l.longest, l.longest_seq
FROM finding f JOIN kept_handle k USING (generation) JOIN let_go l ON l.way = k.way
WHERE f.rule IS NULL AND f.section = 'handles' AND f.what = 'held' AND l.n >= :MANY AND NOT k.in_use
  AND coalesce(k.idle > max(:LONG, :OLD * l.longest), k.idle_seq > :OLD * l.longest_seq);
UPDATE finding SET
  rule = 'H8',
  said = '{how_many} others were let go of, each within ' || iif(o.longest IS NULL, '{of_how_many:frame}', '{usually}'),
  how_many = o.n,
  of_how_many = iif(o.longest IS NULL, o.longest_seq, NULL),
  usually = o.longest
FROM overdue o WHERE o.id = finding.id AND o.of >= :OFTEN;
-- H9. What grows, whatever share of it is kept, and whether it is used.
UPDATE finding SET rule = 'H9' FROM kept_handle k
WHERE rule IS NULL AND section = 'handles' AND what = 'held' AND k.generation = finding.generation
  AND k.way IN (SELECT way FROM growing);
-- H10. Many that are not used, and become more: no cache, and no design. What may be garbage does not count, and what
-- is mostly used is a cache that fills.
CREATE TEMP TABLE unused AS
SELECT
  k.way,
  count(*) AS n,
  sum(c.upid IS NULL OR coalesce(o.came < c.collected, 0)) AS sure
FROM kept_handle k JOIN finding f USING (generation) JOIN growing USING (way) JOIN of_way o USING (generation)
  LEFT JOIN collector c ON c.upid = f.upid
WHERE f.rule IN ('H5', 'H8') AND NOT k.in_use
GROUP BY 1;
UPDATE finding SET rule = 'H10' FROM kept_handle k
WHERE rule IN ('H5', 'H8') AND k.generation = finding.generation AND NOT k.in_use
  AND k.way IN (SELECT way FROM unused u
    WHERE u.sure >= :TOO_MANY AND u.sure > (1 - :MOST) * (SELECT count(*) FROM kept_handle a WHERE a.way = u.way));
-- H14. What outlived others of its way. Where garbage is collected, what is held at the half does not tell what grows,
-- as there is garbage in it. A cache that lets go of any entry has some old ones, too, but not most.
CREATE TEMP TABLE outliving AS
SELECT
  f.id,
  k.way,
  count(*) OVER one AS n,
  sum(o.came_left < :LATELY) OVER one AS lately,
  a.n AS n_kept
FROM outlived u JOIN of_way o ON o.way = u.way AND o.came < u.came JOIN kept_handle k USING (generation)
  JOIN (SELECT way, count(*) AS n FROM kept_handle GROUP BY way) a ON a.way = k.way
  JOIN finding f USING (generation)
WHERE NOT k.in_use AND f.section = 'handles'
  AND (f.rule IN ('H5', 'H8', 'H9') OR f.rule IS NULL AND f.upid IN (SELECT upid FROM collector))
WINDOW one AS (PARTITION BY k.way);
UPDATE finding SET rule = 'H14' FROM outliving o
WHERE o.id = finding.id AND o.n >= :TOO_MANY AND o.lately >= :MANY AND o.n > (1 - :NEARLY_ALL) * o.n_kept;
-- What is no leak yet, as it may be garbage.
CREATE TEMP TABLE not_collected AS
SELECT
  way,
  (n - sure) || ' of ' || n || ' that are not used may be garbage: they came after the last collection' AS told
FROM unused WHERE n > sure AND n >= :TOO_MANY AND sure < :TOO_MANY;
-- What others keep that get replies to the same code says more.
CREATE TEMP TABLE kept_elsewhere AS
SELECT w.id AS way, (SELECT group_concat(who || ' keeps ' || kept || ' of ' || n, ', ')
  FROM (SELECT x.who, o.kept, o.n FROM given_way o JOIN who x USING (upid)
    WHERE o.way = w.way AND o.sender = w.sender AND o.upid <> w.upid ORDER BY o.n DESC, o.upid LIMIT :NAMED)) AS told
FROM kept_way w;
-- What is said of a whole way.
UPDATE finding SET
  code = g.code,
  relation = 'given',
  way = g.way,
  giver = iif(g.reply, NULL, g.sender),
  note = nullif(ltrim(coalesce(note, '') || coalesce('; ' || w.told, '') || coalesce('; ' || e.told, '')
    || coalesce('; ' || c.told, ''), '; '), '')
FROM kept_handle k JOIN given g USING (generation) LEFT JOIN growing w ON w.way = k.way
  LEFT JOIN kept_elsewhere e ON g.reply AND e.way = k.way LEFT JOIN not_collected c ON c.way = k.way
WHERE rule IN ('H5', 'H8', 'H9', 'H10', 'H14') AND k.generation = finding.generation;
-- What is kept like a leak, but of which some is in use, may be a cache that still fills.
CREATE TEMP TABLE used_of_way AS
SELECT k.way, sum(k.in_use) AS n, count(*) AS kept FROM kept_handle k
WHERE k.way IN (SELECT k.way FROM kept_handle k JOIN finding f USING (generation) WHERE f.rule IN ('H5', 'H9'))
GROUP BY 1 HAVING sum(k.in_use) > 0;
UPDATE finding SET note = coalesce(note || '; ', '') || u.n || ' of ' || u.kept || ' that are kept are in use'
FROM kept_handle k JOIN used_of_way u USING (way)
WHERE rule IN ('H5', 'H9') AND k.generation = finding.generation;
-- A death recipient of libbinder keeps its object weakly, until it is unlinked. H4 and H11 say `weakly` themselves.
CREATE TEMP TABLE weakly_kept AS
SELECT id, is_watched
FROM (SELECT f.id, f.rule,
    f.generation IN (SELECT generation FROM finding WHERE section = 'requests') AS is_watched
  FROM finding f JOIN raw_generation g ON g.id = f.generation
  WHERE f.section = 'handles' AND f.what = 'held' AND f.rule NOTNULL AND g.strong = 0 AND g.weak > 0)
WHERE is_watched OR rule NOT IN ('H4', 'H11');
UPDATE finding SET
  note = coalesce(note || '; ', '') || 'held weakly' || iif(k.is_watched, ', with a request for its death', '')
FROM weakly_kept k WHERE k.id = finding.id;
UPDATE finding SET rule = CASE WHEN later = 0 AND finding.id IN (SELECT id FROM ended)
    OR finding.id IN (SELECT id FROM leaving) THEN 'T1'
  WHEN finding.upid IN (SELECT upid FROM lossy) THEN 'M1' WHEN later > 1 THEN 'U4' ELSE 'U6' END
FROM handle_row h
WHERE rule IS NULL AND section = 'nodes' AND h.id = finding.id AND h.more;
-- A process that acknowledges hardly any of its objects; and with which calls it handed them over first.
UPDATE finding SET rule = 'H18'
FROM (SELECT f.upid FROM finding f WHERE f.rule = 'U4' AND f.section = 'nodes' GROUP BY 1
  HAVING count(*) >= :OFTEN AND count(*) >= :NEARLY_ALL * (SELECT count(*) FROM asked a WHERE a.upid = f.upid)) p
WHERE rule = 'U4' AND section = 'nodes' AND p.upid = finding.upid;
CREATE TEMP TABLE handed_over AS
SELECT f.id, min(r.place) AS place
FROM finding f JOIN raw_object o ON o.binder = f.ptr JOIN raw_record r ON r.place = o.place
  JOIN raw_thread t ON t.utid = r.utid
WHERE f.rule = 'H18' AND t.upid = f.upid AND r.kind IN (:BC_TRANSACTION, :BC_TRANSACTION_SG) GROUP BY 1;
UPDATE finding SET note = 'handed over with '
  || call_name(r.code, coalesce(n.upid, -finding.upid), coalesce(n.ptr, r.handle))
FROM handed_over h JOIN raw_record r ON r.place = h.place JOIN raw_send s ON s.place = h.place
  LEFT JOIN node_of n ON n.generation = s.generation
WHERE h.id = finding.id;
-- What was let go is not in use, unless buffers hold it. Handles in use are one group with those that came the same
-- way.
UPDATE finding SET rule = 'H7' FROM handle_row h
WHERE rule IS NULL AND h.id = finding.id AND h.what = 'balanced' AND NOT h.more;
UPDATE finding SET rule = 'H6', relation = 'given', way = g.way,
  note = (SELECT path FROM thing_path t WHERE t.id = finding.id)
    || coalesce('; ' || (SELECT d.told FROM kept_handle k JOIN by_design d USING (way)
      WHERE k.generation = finding.generation), '')
FROM given g
WHERE rule IS NULL AND section = 'handles' AND what = 'held' AND g.generation = finding.generation AND g.way NOTNULL;
UPDATE finding SET rule = 'H6' WHERE rule IS NULL AND section IN ('handles', 'nodes');
