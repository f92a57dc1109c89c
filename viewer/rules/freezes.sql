-- D, M, P, T, U: freeze notifications, and clears of them.
-- needs: database/schema.sql: book_opening, finding, raw_record, side_time; nodes.sql: node_of; freeze_facts.sql:
--   freeze_dropped, freeze_record; ages.sql: begun, ended, last, leaving, old, process_life; rule.sql: lossy
-- makes: temporary tables: freeze_told, freeze_news, begun_freeze; indexes: freeze_told_of, freeze_news_of

-- ---- what findings are called

-- freezes unacknowledged are called: freeze notifications not acknowledged
-- freezes stray are called: acknowledgements of no freeze notification
-- freeze_clears unconfirmed are called: clears of freeze notifications not confirmed
-- freeze_clears stray are called: confirmations of no clear of a freeze notification

-- ---- the rules

-- D7 real: Not acknowledged, so the driver holds back the next change, of which others were told.
--   next: the thread that read the notification: it has to acknowledge
--   rests on: LONG
--   met by: `others_are_told()`
--   where frames are missing: M1

-- ---- what they say of which finding

-- What was dropped: by a process that was met in mid-life, only if it did not hold the handle from before.
UPDATE finding SET rule = iif((SELECT known FROM process_life p WHERE p.upid = finding.upid), 'D1', 'P1')
FROM freeze_dropped d JOIN raw_record r ON r.place = d.end LEFT JOIN side_time z ON z.seq = r.seq
WHERE rule IS NULL AND section = 'freezes' AND d.place = finding.place
  AND coalesce(z.ts - (SELECT ts FROM side_time x WHERE x.seq = finding.seq) <= :LONG, 1);
UPDATE finding SET rule = 'D3', said = 'the one at {other}', other = f.place FROM finding f
WHERE finding.rule IS NULL AND finding.section = 'freeze_clears' AND finding.what = 'unconfirmed'
  AND +f.section = 'freezes' AND f.what = 'unacknowledged' AND f.upid = finding.upid AND f.cookie = finding.cookie;
-- The driver tells a process nothing more of an object until it has acknowledged what it was told. Others are told
-- meanwhile: for each such notification, the first one of the contrary to anybody.
CREATE TEMP TABLE freeze_told AS
SELECT n.upid AS target, f.frozen, f.place FROM freeze_record f JOIN freeze_about a USING (place)
  JOIN node_of n USING (generation) WHERE f.kind = :BR_FROZEN_BINDER;
CREATE INDEX temp.freeze_told_of ON freeze_told(target, frozen, place);
CREATE TEMP TABLE freeze_news AS
SELECT f.id, (SELECT min(t.place) FROM freeze_told t WHERE t.target = f.target AND t.frozen = NOT r.frozen
  AND t.place > f.place) AS place
FROM finding f JOIN freeze_record r USING (place) WHERE f.section = 'freezes' AND f.what = 'unacknowledged';
CREATE UNIQUE INDEX temp.freeze_news_of ON freeze_news(id);
DELETE FROM freeze_news WHERE coalesce((SELECT last.ts FROM last) - (SELECT x.ts FROM raw_record r
  JOIN side_time x USING (seq) WHERE r.place = freeze_news.place) <= :LONG, 1);
-- A process that had taken its request back would not have been told.
DELETE FROM freeze_news WHERE EXISTS (SELECT 1 FROM finding f JOIN freeze_record c USING (upid, cookie)
  WHERE f.id = freeze_news.id AND c.kind = :BC_CLEAR_FREEZE_NOTIFICATION
    AND c.place BETWEEN f.place AND freeze_news.place);
UPDATE finding SET rule = CASE WHEN later = 0 AND finding.id IN (SELECT id FROM ended)
    OR finding.id IN (SELECT id FROM leaving) THEN 'T1'
  WHEN finding.upid IN (SELECT upid FROM lossy) THEN 'M1'
  WHEN later > 1 AND finding.id IN (SELECT id FROM freeze_news) THEN 'D7' WHEN later > 1 THEN 'U4'
  WHEN finding.id IN (SELECT id FROM old) THEN 'U5' ELSE 'U6' END
WHERE rule IS NULL AND section IN ('freezes', 'freeze_clears') AND what <> 'stray';
UPDATE finding SET said = 'another was told at {other}', other = n.place FROM freeze_news n
WHERE rule = 'D7' AND n.id = finding.id;
-- What answers nothing. The driver's books say that notifications wait for acknowledgement, and not how many.
CREATE TEMP TABLE begun_freeze AS
SELECT f.id, b.quiet, iif(f.section = 'freezes', o.freezes,
  row_number() OVER (PARTITION BY f.upid, f.section ORDER BY f.place) <= o.freeze_clears) AS had
FROM finding f JOIN begun b USING (upid) JOIN book_opening o ON o.upid = f.upid AND o.moment = 'begin'
WHERE f.rule IS NULL AND +f.section IN ('freezes', 'freeze_clears');
UPDATE finding SET rule = CASE
  WHEN EXISTS (SELECT 1 FROM begun_freeze b WHERE b.id = finding.id AND b.had) THEN 'P2'
  WHEN finding.upid IN (SELECT upid FROM lossy) THEN 'M1'
  WHEN (SELECT known FROM process_life p WHERE p.upid = finding.upid)
    OR EXISTS (SELECT 1 FROM begun_freeze b WHERE b.id = finding.id AND b.quiet) THEN 'D4' ELSE 'P1' END
WHERE rule IS NULL AND section IN ('freezes', 'freeze_clears');
