-- Calls that are not answered, and the 50 that took longest, by time or else by frames, with what became of each, when
-- it was sent, and how long it took from the send to the delivery. An open call has the age that it had at the end, or
-- at the end of its thread. ?1: the most rows; of calls that were under way from frame ?2 to frame ?3, which begins at
-- ?4, or of all if ?2 is NULL; and of calls of the processes ?5, as JSON, or to them, or of all if ?5 is NULL.
-- needs: database/schema.sql: finding, raw_call, raw_delivery, raw_record, raw_send, raw_thread, side_time;
--   database/numbers.sql: verdict; rules/nodes.sql: node_of
-- makes: columns: place, upid, thread, handle, code, verdict, closer, dur_seq, dur, delivery, fits, server, reply,
--   delay_seq, delay, node_upid, ptr, interface, ts
WITH unanswered AS MATERIALIZED (
  SELECT f.place, f.age, f.age_seq, x.ts + f.age AS until
  FROM finding f LEFT JOIN side_time x USING (seq) WHERE f.section = 'calls' AND f.what = 'open'),
of_processes AS MATERIALIZED (SELECT utid FROM raw_thread WHERE upid IN (SELECT value FROM json_each(?5))),
asked AS (
  SELECT c.place, c.utid, c.verdict, c.closer, c.dur_seq, c.seq FROM raw_call c LEFT JOIN unanswered o USING (place)
  WHERE served = 0 AND verdict <> 1 AND (?2 IS NULL
      OR c.seq <= ?3 AND coalesce(c.seq + c.dur_seq >= ?2, o.until >= ?4, c.seq + o.age_seq >= ?2))
    AND (?5 IS NULL OR c.utid IN (SELECT utid FROM of_processes)
      OR EXISTS (SELECT 1 FROM raw_send s LEFT JOIN raw_delivery d ON d.place = s.delivery
        LEFT JOIN node_of n ON n.generation = s.generation
        WHERE s.place = c.place AND (d.utid IN (SELECT utid FROM of_processes)
          OR n.upid IN (SELECT value FROM json_each(?5)))))
  UNION ALL SELECT * FROM (SELECT c.place, c.utid, c.verdict, c.closer, c.dur_seq, c.seq FROM raw_call c
      LEFT JOIN side_time x ON x.seq = c.seq LEFT JOIN side_time z ON z.seq = c.seq + c.dur_seq
    WHERE c.served = 0 AND c.verdict = 1 AND (?2 IS NULL OR c.seq <= ?3 AND c.seq + c.dur_seq >= ?2)
      AND (?5 IS NULL OR c.utid IN (SELECT utid FROM of_processes) OR EXISTS (SELECT 1 FROM raw_send s
        JOIN raw_delivery d ON d.place = s.delivery
        WHERE s.place = c.place AND d.utid IN (SELECT utid FROM of_processes)))
    ORDER BY z.ts - x.ts DESC, c.dur_seq DESC LIMIT 50)
  LIMIT ?1)
SELECT c.place, t.upid, t.thread, r.handle, r.code, v.name AS verdict, c.closer, coalesce(c.dur_seq, o.age_seq) AS dur_seq,
  coalesce(z.ts - x.ts, o.age) AS dur,
  s.delivery, s.fits,
  coalesce((SELECT g.upid FROM raw_delivery d JOIN raw_thread g USING (utid) WHERE d.place = s.delivery), n.upid)
    AS server,
  (SELECT k.closer FROM raw_call k WHERE k.place = s.delivery) AS reply, d.seq - c.seq AS delay_seq,
  y.ts - x.ts AS delay, coalesce(n.upid, -t.upid) AS node_upid, coalesce(n.ptr, r.handle) AS ptr, r.interface,
  x.ts
FROM asked c JOIN raw_thread t USING (utid) JOIN raw_record r USING (place) JOIN verdict v ON v.number = c.verdict
  LEFT JOIN raw_send s USING (place) LEFT JOIN raw_delivery d ON d.place = s.delivery
  LEFT JOIN node_of n ON n.generation = s.generation
  LEFT JOIN side_time x ON x.seq = c.seq LEFT JOIN side_time y ON y.seq = d.seq
  LEFT JOIN side_time z ON z.seq = c.seq + c.dur_seq
  LEFT JOIN unanswered o USING (place)
ORDER BY c.verdict = 1, coalesce(z.ts - x.ts, o.age) DESC, coalesce(c.dur_seq, o.age_seq) DESC
