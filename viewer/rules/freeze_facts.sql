-- Freeze notifications: which were acknowledged, and which clears were confirmed. The report counts their records as
-- opaque, so what stays open, or answers nothing, becomes a finding here.
-- needs: database/schema.sql: finding, raw_generation, raw_record, raw_thread, report
-- after: nodes.sql
-- makes: temporary tables: freeze_record, freeze_about, freeze_dropped, freeze_step; indexes: freeze_place,
--   freeze_cookie, freeze_about_place, freeze_dropped_place

CREATE TEMP TABLE freeze_record AS
SELECT r.place, t.upid, r.kind, r.handle, r.cookie, r.value <> 0 AS frozen,
  iif(r.kind IN (:BR_FROZEN_BINDER, :BC_FREEZE_NOTIFICATION_DONE), 'freezes', 'freeze_clears') AS section,
  r.kind IN (:BC_FREEZE_NOTIFICATION_DONE, :BR_CLEAR_FREEZE_NOTIFICATION_DONE) AS is_answer
FROM (SELECT 1 FROM report WHERE section = 'codes' AND name = 'OPAQUE' LIMIT 1)
  CROSS JOIN raw_record r JOIN raw_thread t USING (utid)
WHERE r.kind IN (:BC_REQUEST_FREEZE_NOTIFICATION, :BC_CLEAR_FREEZE_NOTIFICATION, :BC_FREEZE_NOTIFICATION_DONE,
  :BR_FROZEN_BINDER, :BR_CLEAR_FREEZE_NOTIFICATION_DONE);
CREATE UNIQUE INDEX temp.freeze_place ON freeze_record(place);
CREATE UNIQUE INDEX temp.freeze_cookie ON freeze_record(upid, cookie, kind, place);
-- The handle that each of them is about, which the latest request or clear with its cookie names.
CREATE TEMP TABLE freeze_about AS
SELECT f.place, f.upid, q.place AS named, q.handle, (SELECT g.id FROM raw_generation g WHERE g.upid = q.upid
  AND g.handle = q.handle AND g.begin <= q.place ORDER BY g.begin DESC LIMIT 1) AS generation
FROM freeze_record f JOIN freeze_record q ON q.place = (SELECT max(x.place) FROM freeze_record x
  WHERE x.upid = f.upid AND x.cookie = f.cookie AND x.place <= f.place
    AND x.kind IN (:BC_REQUEST_FREEZE_NOTIFICATION, :BC_CLEAR_FREEZE_NOTIFICATION));
CREATE UNIQUE INDEX temp.freeze_about_place ON freeze_about(place);
-- The driver drops a request with the last reference of its handle, and with it what it told by that, unless this was
-- acknowledged, or the request cleared, before.
CREATE TEMP TABLE freeze_dropped AS
SELECT f.place, g.end
FROM freeze_record f JOIN freeze_about a USING (place) JOIN raw_generation g ON g.id = a.generation
WHERE f.kind = :BR_FROZEN_BINDER AND g.end > a.named AND NOT EXISTS (SELECT 1 FROM freeze_record x
  WHERE x.upid = f.upid AND x.cookie = f.cookie AND x.kind = :BC_FREEZE_NOTIFICATION_DONE
    AND x.place BETWEEN f.place AND g.end)
  AND NOT EXISTS (SELECT 1 FROM freeze_record x WHERE x.upid = f.upid AND x.cookie = f.cookie
    AND x.kind = :BC_CLEAR_FREEZE_NOTIFICATION AND x.place BETWEEN a.named AND g.end);
CREATE UNIQUE INDEX temp.freeze_dropped_place ON freeze_dropped(place);
-- An answer takes the earliest that its cookie has open, as the driver does. It is one too many if nothing is open: if
-- it makes more answers than there was to answer, and more than any answer before it.
CREATE TEMP TABLE freeze_step AS
SELECT place, upid, cookie, section, is_answer, count(*) FILTER (WHERE NOT is_answer) OVER so_far AS asked,
  sum(1 - 2 * is_answer) OVER so_far AS open
FROM freeze_record
WHERE kind <> :BC_REQUEST_FREEZE_NOTIFICATION AND place NOT IN (SELECT place FROM freeze_dropped)
WINDOW so_far AS (PARTITION BY upid, cookie, section ORDER BY place);
INSERT INTO finding(section, what, place, upid, cookie, handle, generation)
SELECT s.section, iif(s.is_answer, 'stray', iif(s.section = 'freezes', 'unacknowledged', 'unconfirmed')), s.place,
  s.upid, s.cookie, a.handle, a.generation
FROM (SELECT place, upid, cookie, section, is_answer, asked, open,
    min(0, coalesce(min(open) OVER (sorted ROWS BETWEEN UNBOUNDED PRECEDING AND 1 PRECEDING), 0)) AS least,
    sum(is_answer) OVER whole + min(0, min(open) OVER whole) AS answered
  FROM freeze_step WINDOW whole AS (PARTITION BY upid, cookie, section), sorted AS (whole ORDER BY place)) s
  LEFT JOIN freeze_about a USING (place)
WHERE iif(s.is_answer, s.open < s.least, s.asked > s.answered)
UNION ALL SELECT 'freezes', 'unacknowledged', f.place, f.upid, f.cookie, a.handle, a.generation
FROM freeze_dropped d JOIN freeze_record f USING (place) JOIN freeze_about a USING (place) ORDER BY 3;
