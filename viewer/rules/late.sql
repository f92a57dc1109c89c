-- What comes of frames that are later than the end of the recording. Today's recorder leaves them out. Earlier ones
-- recorded what a call that waited in the driver then read, but not what that comes of or leads to, in calls that began
-- later. So a finding that comes of such a frame says nothing (L1).
-- needs: database/schema.sql: capture, finding, raw_call, raw_delivery, raw_frame, raw_record, raw_send, raw_thread,
--   report, side_time
-- after: counts.sql
-- makes: temporary tables: late; indexes: late_frame

-- beside: nodes.sql
CREATE TEMP TABLE late AS
SELECT f.seq, f.place FROM capture e JOIN side_time x ON x.ts > e.value JOIN raw_frame f USING (seq)
WHERE e.key = 'end_ts';
CREATE UNIQUE INDEX temp.late_frame ON late(seq);
INSERT INTO capture SELECT 'late_frames', count(*) FROM late;

-- What such a frame has: for example a buffer that could not be freed any more, or an answer to what is in no frame.
UPDATE finding SET rule = 'L1' WHERE seq IN (SELECT seq FROM late);
-- An open call that its server read only then, which is one finding with what it serves; and a call that a service has
-- open, and replied to in a frame that is not there: its caller read the reply.
UPDATE finding SET rule = 'L1' FROM raw_send s JOIN raw_record r ON r.place = s.delivery
WHERE section = 'calls' AND what = 'open' AND s.place = finding.place AND r.seq IN (SELECT seq FROM late);
UPDATE finding SET rule = 'L1'
FROM raw_delivery d JOIN raw_call c ON c.place = d.send JOIN raw_record r ON r.place = c.closer
WHERE section = 'served' AND what = 'open' AND d.place = finding.place AND r.seq IN (SELECT seq FROM late);
-- A reference that the driver gave back, and had asked for in a call that is not recorded.
UPDATE finding SET rule = 'L1' FROM report p
WHERE finding.section = 'nodes' AND p.id = finding.report
  AND min(p.strong_low, p.weak_low) < 0
  AND EXISTS (SELECT 1 FROM raw_record r JOIN raw_thread t USING (utid)
    WHERE r.place > (SELECT min(place) FROM late) AND r.seq IN (SELECT seq FROM late)
      AND r.kind IN (:BR_RELEASE, :BR_DECREFS) AND (t.upid, r.ptr, r.cookie) = (finding.upid, finding.ptr,
      finding.cookie));
-- Buffers that came then do not count in their paths.
UPDATE finding SET n_all = n_all - l.n
FROM (SELECT relation, code, about, node, count(*) AS n FROM finding WHERE section = 'buffers' AND rule = 'L1'
  GROUP BY 1, 2, 3, 4) l
WHERE section = 'buffers' AND rule IS NULL AND l.relation = finding.relation AND l.code IS finding.code
  AND l.about = finding.about AND l.node IS finding.node;
