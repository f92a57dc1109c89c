-- Views of times: of each send where its time went; of a call all that was made within it; what the threads of a server
-- were in while a send waited for one; methods; and what clocks showed. They have numbers in place of names, and joined
-- lines, as views.sql has.
-- needs: schema.sql: capture, method, raw_call, raw_capture, raw_delivery, raw_frame, raw_interface, raw_process,
--   raw_record, raw_send, raw_thread, side_clock, side_lost, side_missed, side_process, side_thread, side_time;
--   rules/nodes.sql: who
-- makes: views: send_time, call_tree, queue_holder, method_time, clock

-- Of each transaction that was sent its time in parts, which add up to `dur`. `kind` says which parts are known:
--   queue    no thread got it: all is queue
--   served   a thread got it, and has not replied
--   back     a thread got it, and replied
--   lost     the same, but what the thread did meanwhile may be lost
--   reply    a thread got it, and its reply is not known
--   all      nothing is known but that it ended
--   order    its times are not in order, by more than the clocks of processors differ
-- A call that has no answer lasts to the end of its thread, to that of the call around it, or to that of the recording;
-- a oneway send until its buffer is freed, as libbinder does when the handler returns. What is used several times is in
-- json_each(json_array(..)), so that SQLite finds it once.
CREATE VIEW send_time AS
SELECT s.place, s.seq, b.ts, (r.flags & :TF_ONE_WAY) <> 0 AS oneway, ends.ts IS NULL AS is_open, c.parent,
  t.upid AS client_upid, s.utid AS client_utid, g.upid AS server_upid, d.utid AS server_utid, s.delivery,
  until.value - b.ts AS dur,
  CASE WHEN kind.value = 'queue' THEN until.value - b.ts WHEN kind.value IN ('all', 'order') THEN 0 ELSE y.ts - b.ts END
    AS queue,
  CASE kind.value WHEN 'served' THEN until.value - y.ts - below.value WHEN 'back' THEN w.ts - y.ts - below.value ELSE 0
    END AS work,
  below.value AS below,
  CASE WHEN kind.value IN ('back', 'lost') THEN until.value - w.ts ELSE 0 END AS back,
  CASE kind.value WHEN 'all' THEN until.value - b.ts WHEN 'order' THEN until.value - b.ts - below.value
    WHEN 'reply' THEN until.value - y.ts - below.value WHEN 'lost' THEN w.ts - y.ts - below.value ELSE 0 END AS unknown,
  CASE WHEN kind.value IN ('queue', 'served', 'back') THEN NULL WHEN kind.value = 'order'
    THEN 'its times are not in order' WHEN lost.value THEN 'a frame was lost' WHEN kind.value = 'all'
    THEN 'which thread served it is not known' ELSE 'its reply is not known' END AS why,
  CASE WHEN s.delivery NOTNULL THEN s.certain AND s.fits = 1 END AS certain
FROM raw_send s JOIN raw_record r USING (place) JOIN raw_thread t ON t.utid = s.utid
  JOIN raw_process a ON a.upid = t.upid
  LEFT JOIN raw_call c ON c.place = s.place
  LEFT JOIN raw_delivery d ON d.place = s.delivery LEFT JOIN raw_thread g ON g.utid = d.utid
  LEFT JOIN raw_process i ON i.upid = g.upid LEFT JOIN raw_call v ON v.place = d.place
  LEFT JOIN raw_send q ON q.place = v.closer
  LEFT JOIN raw_record e ON e.place = coalesce(c.closer, s.refused, d.freed_by)
  LEFT JOIN raw_call u ON u.place = c.parent
  LEFT JOIN side_time b ON b.seq = s.seq LEFT JOIN side_time y ON y.seq = d.seq
  LEFT JOIN side_time w ON w.seq = v.seq + v.dur_seq LEFT JOIN side_time ends ON ends.seq = e.seq
  LEFT JOIN side_time p ON p.seq = u.seq + u.dur_seq
  LEFT JOIN side_thread h ON (h.device, h.process, h.thread) = (a.device, a.process, t.thread)
  LEFT JOIN side_process j ON (j.device, j.process) = (a.device, a.process)
  LEFT JOIN side_thread hs ON (hs.device, hs.process, hs.thread) = (i.device, i.process, g.thread)
  LEFT JOIN side_process js ON (js.device, js.process) = (i.device, i.process),
  (SELECT CAST((SELECT value FROM capture WHERE key = 'until_ts') AS BIGINT) AS ts) o,
  (SELECT n.last_seq, n.missing <> 0 OR EXISTS (SELECT 1 FROM side_missed) AS some,
      n.missing <> (SELECT count(*) FROM side_lost WHERE process NOTNULL AND seq BETWEEN n.first_seq AND n.last_seq)
      AS unowned
    FROM raw_capture n) m,
  json_each(json_array(coalesce(ends.ts, p.ts, min(coalesce(h.ended, o.ts), coalesce(j.ended, o.ts), o.ts)))) until,
  json_each(json_array(CASE WHEN v.place IS NULL THEN 0 ELSE coalesce((
      SELECT sum(coalesce(kz.ts, w.ts, min(coalesce(hs.ended, o.ts), coalesce(js.ended, o.ts), o.ts)) - kb.ts)
      FROM raw_call k JOIN side_time kb ON kb.seq = k.seq LEFT JOIN side_time kz ON kz.seq = k.seq + k.dur_seq
      WHERE k.utid = v.utid AND k.place BETWEEN v.place AND coalesce(v.closer, 9223372036854775807)
        AND k.parent = v.place AND NOT k.served), 0) END)) below,
  json_each(json_array(m.some AND (
    EXISTS (SELECT 1 FROM side_lost x
      WHERE x.seq BETWEEN s.seq AND coalesce(e.seq, m.last_seq) AND (x.process IS NULL
        OR (x.device, x.process) IN ((a.device, a.process), (i.device, i.process))))
    OR EXISTS (SELECT 1 FROM side_missed x WHERE x.after >= s.seq AND x.from_seq <= coalesce(e.seq, m.last_seq))
    OR m.unowned AND coalesce(e.seq, m.last_seq) - s.seq + 1 <> (
        SELECT count(*) FROM raw_frame x WHERE x.seq BETWEEN s.seq AND coalesce(e.seq, m.last_seq))
      + (SELECT count(*) FROM side_lost x WHERE x.seq BETWEEN s.seq AND coalesce(e.seq, m.last_seq))))) lost,
  json_each(json_array(CASE
    WHEN d.place IS NULL THEN CASE WHEN c.verdict IN (1, 4) OR lost.value THEN 'all' ELSE 'queue' END
    WHEN min(y.ts - b.ts, coalesce(w.ts, y.ts) - y.ts, until.value - coalesce(w.ts, y.ts)) < -1000000 THEN 'order'
    WHEN c.verdict = 4 OR v.verdict = 4 OR c.verdict = 1 AND (v.verdict <> 2 OR q.delivery IS NOT c.closer) THEN 'reply'
    WHEN w.ts IS NULL THEN CASE WHEN lost.value THEN 'reply' ELSE 'served' END
    WHEN lost.value THEN 'lost'
    ELSE 'back' END)) kind
WHERE r.kind IN (:BC_TRANSACTION, :BC_TRANSACTION_SG);

-- All that was made within each call, `root`: itself, and the calls that its server made within it, in their order, and
-- so on. What is not known of a call is a row of its own, so that `own` of all rows of a root add up to its `dur`.
CREATE VIEW call_tree AS
SELECT f.place AS root, j.key * 2 + z.part AS n, json_extract(j.value, '$[1]') AS level, t.place,
  z.part AS is_unknown, t.ts - b.ts AS since,
  CASE WHEN z.part THEN t.unknown ELSE t.queue + t.work + t.back END AS own,
  CASE WHEN z.part THEN NULL ELSE t.queue END AS queue, CASE WHEN z.part THEN NULL ELSE t.work END AS work,
  CASE WHEN z.part THEN NULL ELSE t.below END AS below, CASE WHEN z.part THEN NULL ELSE t.back END AS back,
  CASE WHEN z.part THEN t.unknown ELSE t.dur END AS dur, CASE WHEN z.part THEN t.why END AS why, t.is_open, t.certain,
  t.client_upid, t.client_utid, t.server_upid, t.server_utid, t.delivery
FROM raw_send f LEFT JOIN side_time b ON b.seq = f.seq,
  json_each((
    WITH RECURSIVE made(place, level) AS (
      SELECT f.place, 0
      UNION ALL
      SELECT k.place, m.level + 1
      FROM made m JOIN raw_send x ON x.place = m.place JOIN raw_call v ON v.place = x.delivery
        JOIN raw_call k ON k.utid = v.utid AND k.place BETWEEN v.place AND coalesce(v.closer, 9223372036854775807)
          AND k.parent = v.place AND NOT k.served
      ORDER BY 2 DESC, 1)
    SELECT json_group_array(json_array(place, level)) FROM made)) j
  CROSS JOIN send_time t CROSS JOIN (SELECT 0 AS part UNION ALL SELECT 1) z
WHERE t.place = json_extract(j.value, '$[0]') AND (z.part = 0 OR t.unknown <> 0);

-- What the threads of a server that take calls were in while a send waited for one: a call that they served, a oneway
-- transaction whose handler was at work, or a call of their own. A thread that was in none has no row. `send` is that of
-- what it was in.
CREATE VIEW queue_holder AS
WITH waiting AS NOT MATERIALIZED (
    SELECT s.place, s.seq, b.ts AS since, coalesce(d.place, 9223372036854775807) AS came,
      coalesce(y.ts, CAST((SELECT value FROM capture WHERE key = 'until_ts') AS BIGINT)) AS until, x.utid, x.upid,
      coalesce((SELECT l.place FROM raw_call l WHERE l.utid = x.utid AND l.place < s.place AND l.depth = 1
        ORDER BY l.place DESC LIMIT 1), s.place) AS call_before,
      coalesce((SELECT f.place FROM raw_frame f WHERE f.utid = x.utid AND f.direction <> :WRITE
        AND f.seq BETWEEN s.seq - 20000 AND s.seq ORDER BY f.seq DESC LIMIT 1), s.place) AS read_before
    FROM raw_send s LEFT JOIN raw_delivery d ON d.place = s.delivery LEFT JOIN raw_thread g ON g.utid = d.utid
      LEFT JOIN node_of n ON n.generation = s.generation JOIN raw_thread x ON x.upid = coalesce(g.upid, n.upid)
      LEFT JOIN side_time b ON b.seq = s.seq LEFT JOIN side_time y ON y.seq = d.seq
    WHERE s.generation NOTNULL),
  held AS (
    SELECT w.place, w.upid, w.utid, w.since, w.until, c.place AS holder, NOT c.served AS own, 0 AS oneway,
      CASE WHEN c.served THEN d.send ELSE c.place END AS send, b.ts AS began, z.ts AS ended
    FROM waiting w JOIN raw_call c ON c.utid = w.utid AND c.place BETWEEN w.call_before AND w.came AND c.depth = 1
      LEFT JOIN raw_delivery d ON d.place = c.place LEFT JOIN side_time b ON b.seq = c.seq
      LEFT JOIN side_time z ON z.seq = c.seq + c.dur_seq
    WHERE c.served OR EXISTS (SELECT 1 FROM raw_call l WHERE l.utid = c.utid AND l.served AND l.depth = 1)
    UNION ALL
    SELECT w.place, w.upid, w.utid, w.since, w.until, d.place, 0, 1, d.send, b.ts, z.ts
    FROM waiting w JOIN raw_delivery d ON d.place BETWEEN w.read_before AND w.came AND d.utid = w.utid
      JOIN raw_record r ON r.place = d.place AND r.kind <> :BR_REPLY AND r.flags & :TF_ONE_WAY
      JOIN raw_thread t ON t.utid = d.utid LEFT JOIN raw_record e ON e.place = d.freed_by
      LEFT JOIN side_time b ON b.seq = d.seq LEFT JOIN side_time z ON z.seq = e.seq
    WHERE coalesce(e.utid = d.utid, t.last_record = d.place))
SELECT place, upid, utid, holder, send, own, oneway, began, ended,
  min(coalesce(ended, until), until) - max(began, since) AS dur
FROM held WHERE began < until AND coalesce(ended > since, 1) AND place <> send;

-- How long the calls of each method took that were answered, and the oneway sends whose buffers were freed; `client_upid`
-- is NULL in the row of all callers together. A hundredth is the least time that so many hundredths do not exceed.
CREATE VIEW method_time AS
WITH below AS MATERIALIZED (
    SELECT c.parent, sum(z.ts - b.ts) AS ns
    FROM raw_call c JOIN side_time b ON b.seq = c.seq JOIN side_time z ON z.seq = c.seq + c.dur_seq
    WHERE NOT c.served AND c.parent NOTNULL GROUP BY 1),
  timed AS MATERIALIZED (
    SELECT t.upid AS client_upid, coalesce(g.upid, n.upid) AS server_upid, coalesce(r.interface, k.interface) AS interface,
      r.code, r.flags & :TF_ONE_WAY AS oneway, z.ts - b.ts AS dur, y.ts - b.ts AS queue,
      coalesce(w.ts, z.ts) - y.ts - coalesce(l.ns, 0) AS work
    FROM raw_send s JOIN raw_record r USING (place) JOIN raw_thread t ON t.utid = s.utid
      LEFT JOIN raw_call c ON c.place = s.place JOIN raw_delivery d ON d.place = s.delivery
      LEFT JOIN raw_thread g ON g.utid = d.utid LEFT JOIN node_of n ON n.generation = s.generation
      LEFT JOIN raw_call v ON v.place = d.place LEFT JOIN below l ON l.parent = d.place
      LEFT JOIN call_interface k ON (k.code, k.upid, k.ptr) = (r.code, coalesce(n.upid, -t.upid),
        coalesce(n.ptr, r.handle))
      JOIN raw_record e ON e.place = CASE WHEN c.place IS NULL THEN d.freed_by WHEN c.verdict = 1 THEN c.closer END
      JOIN side_time b ON b.seq = s.seq JOIN side_time y ON y.seq = d.seq
      LEFT JOIN side_time w ON w.seq = v.seq + v.dur_seq JOIN side_time z ON z.seq = e.seq
    WHERE r.kind IN (:BC_TRANSACTION, :BC_TRANSACTION_SG)),
  ranked AS (
    SELECT *, count(*) OVER method AS n, row_number() OVER (method ORDER BY dur) AS of_dur,
      row_number() OVER (method ORDER BY queue) AS of_queue, row_number() OVER (method ORDER BY work) AS of_work
    FROM (
        SELECT NULL AS client_upid, server_upid, interface, code, oneway, dur, queue, work FROM timed
        UNION ALL
        SELECT client_upid, server_upid, interface, code, oneway, dur, queue, work FROM timed)
    WINDOW method AS (PARTITION BY client_upid, server_upid, interface, code, oneway))
SELECT q.client_upid, wc.who AS client, q.server_upid, ws.who AS server, i.name AS interface, q.code, m.method,
  coalesce(i.name || coalesce('.' || m.method, ' code ' || q.code), 'code ' || q.code) AS call,
  q.oneway <> 0 AS oneway, q.calls, q.calls / x.seconds AS per_s, q.median, q.p95, q.p99, q.longest, q.queue_median,
  q.queue_p95, q.queue_longest, q.work_median, q.work_p95, q.work_longest
FROM (
    SELECT client_upid, server_upid, interface, code, oneway, count(*) AS calls,
      max(CASE WHEN of_dur = (n + 1) / 2 THEN dur END) AS median,
      max(CASE WHEN of_dur = (n * 95 + 99) / 100 THEN dur END) AS p95,
      max(CASE WHEN of_dur = (n * 99 + 99) / 100 THEN dur END) AS p99, max(dur) AS longest,
      max(CASE WHEN of_queue = (n + 1) / 2 THEN queue END) AS queue_median,
      max(CASE WHEN of_queue = (n * 95 + 99) / 100 THEN queue END) AS queue_p95, max(queue) AS queue_longest,
      max(CASE WHEN of_work = (n + 1) / 2 THEN work END) AS work_median,
      max(CASE WHEN of_work = (n * 95 + 99) / 100 THEN work END) AS work_p95, max(work) AS work_longest
    FROM ranked GROUP BY client_upid, server_upid, interface, code, oneway) q
  LEFT JOIN raw_interface i ON i.id = q.interface LEFT JOIN method m ON (m.interface, m.code) = (i.name, q.code)
  LEFT JOIN who wc ON wc.upid = q.client_upid LEFT JOIN who ws ON ws.upid = q.server_upid,
  (SELECT nullif(CAST((SELECT value FROM capture WHERE key = 'until_ts') AS BIGINT)
    - CAST((SELECT value FROM capture WHERE key = 'first_ts') AS BIGINT), 0) / 1e9 AS seconds) x;

-- What other clocks showed at the time of each frame: the wall clock in nanoseconds since 1970, also after it was set; the
-- time since the system started, with sleep; and the wall clock as a text, of the zone UTC.
CREATE VIEW clock AS
SELECT x.seq, x.ts, x.ts + o.realtime AS realtime, x.ts + o.boottime AS boottime,
  strftime('%Y-%m-%d %H:%M:%S', (x.ts + o.realtime) / 1000000000, 'unixepoch')
    || printf('.%03d', (x.ts + o.realtime) / 1000000 % 1000) AS utc
FROM side_time x JOIN (
    SELECT ts AS since, realtime - ts AS realtime, boottime - ts AS boottime, row_number() OVER (ORDER BY ts) AS nth,
      coalesce(lead(ts) OVER (ORDER BY ts), 9223372036854775807) AS until
    FROM (
        SELECT CAST(b.value AS BIGINT) AS ts, CAST(r.value AS BIGINT) AS realtime, CAST(o.value AS BIGINT) AS boottime
        FROM capture b JOIN capture r ON r.key = 'realtime' LEFT JOIN capture o ON o.key = 'boottime'
        WHERE b.key = 'begin_ts'
        UNION ALL
        SELECT ts, realtime, boottime FROM side_clock)) o
  ON x.ts < o.until AND (x.ts >= o.since OR o.nth = 1);
