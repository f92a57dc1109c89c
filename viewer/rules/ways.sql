-- The ways by which handles came of which a process keeps several: how long it held those that it let go of, and
-- whether it uses those that it keeps.
-- needs: database/schema.sql: raw_generation, raw_process, raw_record, raw_send, side_process, side_time; nodes.sql:
--   manager, node_of; paths.sql: given, given_way; ages.sql: recorded
-- makes: temporary tables: kept_way, of_way, had_before, earlier, let_go, outlived, collector, kept_handle; indexes:
--   of_way_generation, had_before_of, earlier_of, let_go_of, outlived_of, collector_of, kept_handle_of

-- What the context manager gives, or gets, are services, which are meant to be kept.
CREATE TEMP TABLE kept_way AS
SELECT row_number() OVER () AS id, * FROM given_way
WHERE kept >= :OFTEN AND upid NOT IN (SELECT upid FROM manager);
-- Those that are kept, and those that were taken and let go of, `went` then. `came_left` and `went_left` are the shares
-- of what was recorded of the process that were left then.
CREATE TEMP TABLE of_way AS
SELECT way, generation, kept, came, came_ts, went, went_ts,
  coalesce(1.0 * (grows_to_ts - came_ts) / (grows_to_ts - first_ts),
    1.0 * (grows_to_seq - came) / (grows_to_seq - first_seq)) AS came_left,
  coalesce(1.0 * (grows_to_ts - went_ts) / (grows_to_ts - first_ts),
    1.0 * (grows_to_seq - went) / (grows_to_seq - first_seq)) AS went_left
FROM (SELECT w.id AS way, w.upid, v.generation, v.kept, b.seq AS came, x.ts AS came_ts, e.seq AS went, z.ts AS went_ts
  FROM (SELECT 1 FROM kept_way LIMIT 1) CROSS JOIN given v JOIN kept_way w ON (w.upid, w.way) = (v.upid, v.way)
      AND w.sender IS v.sender
    JOIN raw_generation g ON g.id = v.generation JOIN raw_record b ON b.place = g.given_by
    LEFT JOIN raw_record e ON e.place = g.end
    LEFT JOIN side_time x ON x.seq = b.seq LEFT JOIN side_time z ON z.seq = e.seq
  WHERE coalesce(v.asked, 1) <> 0 AND (v.reply OR v.sender NOTNULL)
    AND (v.kept OR g.end NOTNULL AND g.acquired + g.increfs > 0))
  JOIN recorded USING (upid);
CREATE UNIQUE INDEX temp.of_way_generation ON of_way(generation);
-- What a process had before the capture, by the process that it leads to, or -1: how many it held at the half, at three
-- quarters and at the end of what was recorded of it, and how many it let go of.
CREATE TEMP TABLE had_before AS
SELECT upid, sender, sum(went_left IS NULL OR went_left < :LATELY) AS half,
  sum(went_left IS NULL OR went_left < :LATELY / 2) AS later, sum(went_left IS NULL) AS kept, count(went_left) AS let_go
FROM (SELECT g.upid, coalesce(n.upid, -1) AS sender,
    coalesce(1.0 * (grows_to_ts - z.ts) / (grows_to_ts - first_ts),
      1.0 * (grows_to_seq - e.seq) / (grows_to_seq - first_seq)) AS went_left
  FROM recorded JOIN raw_generation g USING (upid) LEFT JOIN node_of n ON n.generation = g.id
    LEFT JOIN raw_record e ON e.place = g.end LEFT JOIN side_time z ON z.seq = e.seq
  WHERE g.given_by IS NULL AND g.handle <> 0 AND g.upid IN (SELECT upid FROM kept_way))
GROUP BY 1, 2;
CREATE UNIQUE INDEX temp.had_before_of ON had_before(upid, sender);
-- Of these, what may have come by a way: it leads to the process that handed over what came so, or it is not known
-- where.
CREATE TEMP TABLE earlier AS
SELECT w.id AS way, sum(h.half) AS half, sum(h.later) AS later, sum(h.kept) AS kept, sum(h.let_go) AS let_go
FROM kept_way w JOIN had_before h ON h.upid = w.upid AND h.sender IN (w.sender, -1) GROUP BY 1;
CREATE UNIQUE INDEX temp.earlier_of ON earlier(way);
-- How many were let go of, and the longest that one of them was held.
CREATE TEMP TABLE let_go AS
SELECT way, count(*) AS n, max(went - came) AS longest_seq, max(went_ts - came_ts) AS longest
FROM of_way WHERE NOT kept GROUP BY 1;
CREATE UNIQUE INDEX temp.let_go_of ON let_go(way);
-- When the last :MANY of these began to come. What is kept and came before is no cache that lets go of its oldest, nor
-- garbage that waits for its collection.
CREATE TEMP TABLE outlived AS
SELECT way, came
FROM (SELECT way, came, row_number() OVER (PARTITION BY way ORDER BY came DESC) AS nth FROM of_way WHERE NOT kept)
WHERE nth = :MANY;
CREATE UNIQUE INDEX temp.outlived_of ON outlived(way);
-- The processes that let go of handles only when they collect garbage, and when each did so last: what came since may
-- be garbage. NULL if it has not let go of any.
CREATE TEMP TABLE collector AS
SELECT q.upid, max(e.seq) AS collected
FROM side_process p JOIN raw_process q USING (device, process)
  LEFT JOIN raw_generation g ON g.upid = q.upid AND g.acquired + g.increfs > 0 LEFT JOIN raw_record e ON e.place = g.end
WHERE p.of_zygote
GROUP BY 1;
CREATE UNIQUE INDEX temp.collector_of ON collector(upid);
-- Each that is kept. `idle` goes from the last send to it, or else from when it came, to the end of its process or of
-- the capture. It is in use if something was sent to it in the last half of the time from when it came to the last
-- frame of its process. A send that the driver refused since the object is dead is no use.
CREATE TEMP TABLE kept_handle AS
SELECT
  way,
  generation,
  end_ts - since_ts AS idle,
  end_seq - since AS idle_seq,
  coalesce(last_ts - since_ts <= :LATELY * (last_ts - came_ts), last_seq - since <= :LATELY * (last_seq - came))
    AS in_use
FROM (
  SELECT
    o.way,
    o.generation,
    o.came,
    o.came_ts,
    coalesce(u.seq, o.came) AS since,
    (SELECT ts FROM side_time x WHERE x.seq = coalesce(u.seq, o.came)) AS since_ts,
    l.last_seq,
    l.last_ts,
    l.end_seq,
    l.end_ts
  FROM of_way o JOIN kept_way w ON w.id = o.way JOIN recorded l USING (upid)
    LEFT JOIN (SELECT s.generation, max(s.seq) AS seq FROM raw_send s LEFT JOIN raw_record e ON e.place = s.refused
      WHERE s.generation IN (SELECT generation FROM of_way WHERE kept) AND e.kind IS NOT :BR_DEAD_REPLY
      GROUP BY 1) u USING (generation)
  WHERE o.kept);
CREATE UNIQUE INDEX temp.kept_handle_of ON kept_handle(generation);
