-- Sums over all sends, deliveries and calls, which statements take in place of the rows: of large captures there are very
-- many. Of a database that is not kept the loader makes tables of these names (database/sums.c), which have the same rows
-- in the same order in a tenth of the time. A view can't have parameters, so plan.py puts the numbers in.
-- needs: database/schema.sql: raw_call, raw_delivery, raw_record, raw_send, raw_thread, side_time
-- makes: temporary views: peer_sum, sent_sum, came_sum, served_sum, came_name, sent_name, again_sum

-- What was sent to a generation of a handle, by the nodes that it came to.
CREATE TEMP VIEW peer_sum AS
SELECT s.generation, t.upid, r.ptr, r.cookie, count(*) AS deliveries, sum(s.certain) AS certain
FROM raw_send s JOIN raw_record r ON r.place = s.delivery JOIN raw_thread t ON t.utid = r.utid
WHERE s.generation NOTNULL GROUP BY 1, 2, 3, 4;

-- What was sent to a generation of a handle, by code. `longest` is the longest call; `good` counts the calls that were
-- answered, and the oneway sends that were delivered, and the two after it are the longest of these. `waited` is the
-- longest time from a send to its delivery, and `handled` that from the delivery of a oneway send until it is freed.
-- `answer` is the last reply to a call.
-- beside: loading
CREATE TEMP VIEW sent_sum AS
SELECT
  s.generation,
  r.code,
  r.flags & :TF_ONE_WAY AS oneway,
  count(*) AS sends,
  sum(coalesce(c.verdict = 3, 0) OR s.refused NOTNULL) AS failed,
  count(s.refused) AS refused,
  coalesce(sum(c.verdict = 0), 0) AS open,
  total(r.data_size) AS bytes,
  count(s.delivery) AS delivered,
  coalesce(sum(s.certain AND s.fits = 1), 0) AS one_fits,
  sum(s.delivery NOTNULL AND d.freed_by IS NULL) AS buffers,
  max(d.held) AS peak,
  max(c.dur_seq) AS longest_seq,
  max(z.ts - x.ts) AS longest,
  count(e.seq) AS good,
  max(e.seq - s.seq) AS good_seq,
  max(y.ts - x.ts) AS good_time,
  max(w.ts - x.ts) AS waited,
  max(iif(r.flags & :TF_ONE_WAY, v.ts - w.ts, NULL)) AS handled,
  max(iif(c.verdict = 1, c.closer, NULL)) AS answer
FROM raw_send s CROSS JOIN raw_record r USING (place) LEFT JOIN raw_call c USING (place)
  LEFT JOIN raw_delivery d ON d.place = s.delivery
  LEFT JOIN raw_record e ON e.place = iif(r.flags & :TF_ONE_WAY, s.delivery, iif(c.verdict = 1, c.closer, NULL))
  LEFT JOIN side_time x ON x.seq = s.seq LEFT JOIN side_time z ON z.seq = c.seq + c.dur_seq
  LEFT JOIN side_time y ON y.seq = e.seq LEFT JOIN side_time w ON w.seq = d.seq
  LEFT JOIN side_time v ON v.seq = d.seq + d.dur_seq
WHERE s.generation NOTNULL GROUP BY 1, 2, 3;

-- What each process got: replies by the call that they answer, and all else by the object. A reply has no ptr and no
-- cookie; all else opens its call, if any, so that this has no handle and was not sent. `good` counts what was freed.
-- beside: loading
CREATE TEMP VIEW came_sum AS
SELECT
  reply,
  oneway,
  code,
  generation,
  handle,
  receiver,
  ptr,
  cookie,
  count(*) AS n,
  count(freed_by) AS good,
  max(dur_seq) AS longest_seq,
  max(z.ts - x.ts) AS longest
FROM (
  SELECT r.kind = :BR_REPLY AS reply, r.flags & :TF_ONE_WAY AS oneway, iif(r.kind = :BR_REPLY, c.code, r.code) AS code,
    s.generation, c.handle, t.upid AS receiver, r.ptr, r.cookie, d.freed_by, d.dur_seq, d.seq
  FROM raw_delivery d JOIN raw_record r USING (place) JOIN raw_thread t ON t.utid = d.utid
    LEFT JOIN raw_record c ON c.place = d.call LEFT JOIN raw_send s ON s.place = d.call) d
  LEFT JOIN side_time x ON x.seq = d.seq LEFT JOIN side_time z ON z.seq = d.seq + d.dur_seq
GROUP BY 1, 2, 3, 4, 5, 6, 7, 8;

-- What each object served, by code. `good` counts what was replied, and the two after it are the longest of that.
CREATE TEMP VIEW served_sum AS
SELECT r.code, t.upid, r.ptr, r.cookie, count(*) AS n, sum(c.verdict = 2) AS good,
  max(iif(c.verdict = 2, c.dur_seq, NULL)) AS longest_seq, max(iif(c.verdict = 2, z.ts - x.ts, NULL)) AS longest
FROM raw_call c JOIN raw_record r USING (place) JOIN raw_thread t ON t.utid = c.utid
  LEFT JOIN side_time x ON x.seq = c.seq LEFT JOIN side_time z ON z.seq = c.seq + c.dur_seq
WHERE c.served GROUP BY 1, 2, 3, 4;

-- Which interfaces the transactions name that came to an object, and those that were sent to a generation of a handle.
CREATE TEMP VIEW came_name AS
SELECT r.code, t.upid, r.ptr, r.interface, count(*) AS n
FROM raw_delivery d JOIN raw_record r USING (place) JOIN raw_thread t ON t.utid = d.utid
WHERE r.kind <> :BR_REPLY AND r.interface NOTNULL GROUP BY 1, 2, 3, 4;
CREATE TEMP VIEW sent_name AS
SELECT s.generation, r.code, r.interface, count(*) AS n
FROM raw_send s JOIN raw_record r USING (place)
WHERE s.generation NOTNULL AND r.interface NOTNULL GROUP BY 1, 2, 3;

-- The calls to a generation of a handle, by code and by how many bytes of data they have: how many there are, the first of
-- them, when the first and the last one were, and the least and the most time from one to the next.
CREATE TEMP VIEW again_sum AS
SELECT generation, code, data_size, count(*) AS n, min(place) AS place, min(ts) AS first, max(ts) AS last,
  min(gap) AS least, max(gap) AS most
FROM (
  SELECT s.generation, r.code, r.data_size, s.place, x.ts,
    x.ts - lag(x.ts) OVER (PARTITION BY s.generation, r.code, r.data_size ORDER BY s.place) AS gap
  FROM raw_send s JOIN raw_record r USING (place) JOIN side_time x ON x.seq = s.seq
  WHERE s.generation NOTNULL AND NOT r.flags & :TF_ONE_WAY)
GROUP BY 1, 2, 3;
