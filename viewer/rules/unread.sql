-- D12, D13: deaths that nobody can read, in place of D5.
-- needs: database/schema.sql: book_opening, finding, raw_call, raw_record, raw_thread, side_time; nodes.sql: node_of;
--   ages.sql: last, life, process_life
-- after: requests.sql
-- makes: temporary tables: unread_death, reads_deaths; indexes: reads_deaths_of

-- ---- the rules

-- D12 real: Its process ended over {VERY_LONG} before, and nobody can read of that: no thread of this one is a looper.
--   next: where this process starts its pool of threads: without one it is told of no death
--   rests on: VERY_LONG
--   met by: `death_without_a_reader()`: a process without a looper asks for the death of one that ends
--   fault: deaths that nobody reads
--   where frames are missing: M1
-- D13 maybe: Its process ended over {VERY_LONG} before, and all loopers of this one have been busy since.
--   next: what its loopers are in, and how many it may have
--   rests on: VERY_LONG
--   met by: `death_and_loopers()`: the only looper serves a call since before the death
--   fault: deaths that nobody reads
--   where frames are missing: M1

-- ---- what they say of which finding

-- The requests for the death of a process that ended, and since when that could be read.
CREATE TEMP TABLE unread_death AS
SELECT f.id, f.upid, n.upid AS owner, max(p.ended, x.ts) AS since,
  coalesce(a.ended, last.ts) - max(p.ended, x.ts) AS unread, a.known
FROM finding f JOIN node_of n USING (generation) JOIN process_life p ON p.upid = n.upid
  JOIN process_life a ON a.upid = f.upid JOIN side_time x ON x.seq = f.seq, last
WHERE f.rule = 'D5' AND n.certain AND coalesce(a.ended, last.ts) - max(p.ended, x.ts) > :VERY_LONG;
-- The loopers of those that asked, which alone read deaths: the threads that said so, or were seen to take a call. Each
-- with since when it has been busy up to the end: in a call, or with a oneway transaction after which it did nothing.
-- NULL: it was free. One that left, or ended, reads no more.
CREATE TEMP TABLE reads_deaths AS
SELECT t.upid, CASE WHEN s.kind = :BC_EXIT_LOOPER OR l.ended NOTNULL THEN 0
    ELSE (SELECT x.ts FROM side_time x WHERE x.seq = coalesce(o.seq, iif(r.flags & :TF_ONE_WAY, r.seq, NULL))) END
  AS busy
FROM raw_thread t JOIN life l USING (utid) JOIN raw_record r ON r.place = t.last_record
  LEFT JOIN (SELECT r.utid, r.kind, max(r.place)
    FROM (SELECT 1 FROM unread_death LIMIT 1) CROSS JOIN raw_record r
    WHERE r.kind IN (:BC_ENTER_LOOPER, :BC_REGISTER_LOOPER, :BC_EXIT_LOOPER) GROUP BY 1) s USING (utid)
  LEFT JOIN (SELECT utid, min(seq) AS seq FROM finding WHERE what = 'open' GROUP BY 1) o USING (utid)
WHERE t.upid IN (SELECT upid FROM unread_death) AND (s.kind NOTNULL
  OR EXISTS (SELECT 1 FROM raw_call c WHERE c.utid = t.utid AND c.served AND c.depth = 1));
CREATE INDEX temp.reads_deaths_of ON reads_deaths(upid);
-- Of a process that was met in mid-life, the driver's book of the end says whether it has loopers.
UPDATE finding SET rule = 'D12',
  said = '{who} ended {how_long} before the end, and no thread of this process is a looper',
  other_upid = d.owner,
  how_long = d.unread
FROM unread_death d
WHERE d.id = finding.id AND d.upid NOT IN (SELECT upid FROM reads_deaths)
  AND coalesce((SELECT b.loopers = 0 FROM book_opening b WHERE (b.moment, b.upid) = ('end', d.upid)), d.known);
UPDATE finding SET rule = 'D13',
  said = '{who} ended {how_long} before the end, and {how_many:looper} of this process had no time since',
  other_upid = d.owner,
  how_long = d.unread,
  how_many = (SELECT count(*) FROM reads_deaths r WHERE r.upid = d.upid)
FROM unread_death d
WHERE d.id = finding.id AND d.known AND d.upid IN (SELECT upid FROM reads_deaths)
  AND NOT EXISTS (SELECT 1 FROM reads_deaths r WHERE r.upid = d.upid AND coalesce(r.busy > d.since, 1));
