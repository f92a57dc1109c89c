-- D3, D4, D6, D8 to D11, T, U: deaths and clears.
-- needs: database/schema.sql: book_handle, book_opening, finding, raw_generation; database/views.sql: process;
--   nodes.sql: manager; records.sql: dead_record; paths.sql: given; ages.sql: begun, ended, leaving, old, process_life;
--   rule.sql: lossy
-- after: requests.sql
-- makes: temporary tables: dropped_death, other_cookie, balance, begun_death; indexes: balance_at

-- ---- what findings are called

-- deaths unacknowledged are called: deaths not acknowledged
-- deaths stray are called: acknowledgements of no death
-- clears unconfirmed are called: clears not confirmed
-- clears stray are called: confirmations of no clear

-- ---- the rules

-- D3 explained: The driver waits for the acknowledgement of the death, or of the freeze.
--   met by: `death()`
-- D4 maybe: It acknowledges or confirms what was never sent.
--   next: where the process has the cookie from, and whether it answers twice
--   met by: `ack-twice`: a death is acknowledged twice
-- D6 explained: Enough earlier deaths, or clears, had this cookie.
--   met by: `cookie_again()`: two requests have one cookie
-- D8 real: {OFTEN} or more, and nearly all of its process, are not acknowledged while their threads went on.
--   next: the thread that reads deaths: it has to acknowledge each
--   rests on: OFTEN, NEARLY_ALL
--   met by: `deaths_not_acknowledged()`: a service acknowledges none of three deaths
--   where frames are missing: M1
-- D9 explained: The process let go of the handle after it was told: the driver drops the death with the last reference.
--   met by: `deaths_not_acknowledged()`: the handles of the dead are released
-- D10 real: The request for this death has another cookie and stays: the driver takes no such clear.
--   next: where the process keeps the cookie of the request: the clear needs the same one
--   met by: `clear_with_another_cookie()`: a request with cookie 0xd, and a clear with 0xe
--   fault: clears with another cookie
--   where frames are missing: M1
-- D11 maybe: {OFTEN} or more of its process are not acknowledged; it let go of each handle after it was told.
--   next: the thread that reads deaths: it has to acknowledge each
--   rests on: OFTEN
--   of a part: whether it is the context manager is not recorded
--   met by: `deaths_not_acknowledged()`: a service lets go of the handles of three dead, and acknowledges no death

-- ---- what they say of which finding

-- A death whose request was cleared is no
-- more that of the handle: it waits for its acknowledgement. A clear after a later request with this cookie is of that
-- one. Of a process that was met in mid-life, the driver's books say what it held before. If it asked for the death before too, no handle is known; then the books of the end say
-- whether a death waits for its acknowledgement.
CREATE TEMP TABLE dropped_death AS
SELECT f.id FROM finding f JOIN process p USING (upid) JOIN raw_generation o ON o.id = f.generation
WHERE f.section = 'deaths' AND f.what = 'unacknowledged' AND (p.met = 'from-start' AND o.end > f.place
  OR p.met <> 'from-start' AND (SELECT sum(g.released + g.decrefs) > 0
      AND max(sum(g.acquired - g.released) + coalesce(b.strong, 0),
        sum(g.increfs - g.decrefs) + coalesce(b.weak, 0)) <= 0
    FROM begun u JOIN raw_generation g ON g.upid = u.upid AND g.handle = o.handle AND g.n <= o.n
      LEFT JOIN book_handle b ON b.moment = 'begin' AND b.upid = u.upid AND b.handle = o.handle
    WHERE u.upid = f.upid AND u.quiet))
  AND NOT EXISTS (SELECT 1 FROM dead_record c WHERE (c.upid, c.cookie) = (f.upid, f.cookie)
    AND c.kind = :BC_CLEAR_DEATH_NOTIFICATION AND c.place > coalesce((SELECT max(q.place) FROM dead_record q
      WHERE (q.upid, q.cookie) = (f.upid, f.cookie) AND q.kind = :BC_REQUEST_DEATH_NOTIFICATION AND q.place < f.place),
      -1)
    AND NOT EXISTS (SELECT 1 FROM dead_record q WHERE (q.upid, q.cookie) = (f.upid, f.cookie)
      AND q.kind = :BC_REQUEST_DEATH_NOTIFICATION AND q.place > f.place AND q.place < c.place))
UNION ALL SELECT f.id FROM finding f JOIN process p USING (upid) JOIN book_opening e USING (upid)
WHERE f.section = 'deaths' AND f.what = 'unacknowledged' AND f.generation IS NULL AND p.met = 'in-mid-life'
  AND e.moment = 'end' AND e.quiet AND NOT e.deaths
  AND f.upid IN (SELECT upid FROM raw_generation WHERE released + decrefs > 0);
UPDATE finding SET rule = 'D9' WHERE rule IS NULL AND id IN (SELECT id FROM dropped_death);
UPDATE finding SET rule = 'D3', said = 'the one at {other}', other = d.place FROM finding d
WHERE finding.rule IS NULL AND finding.section = 'clears' AND finding.what = 'unconfirmed' AND +d.section = 'deaths'
  AND d.what = 'unacknowledged' AND d.upid = finding.upid AND d.cookie = finding.cookie;
-- A clear whose cookie no request of this object has, while one with another cookie holds. What a process that was met
-- in mid-life asked for before is not known.
CREATE TEMP TABLE other_cookie AS
SELECT f.id, max(q.place) AS request
FROM finding f JOIN raw_generation g ON g.id = f.generation JOIN process_life p ON p.upid = f.upid
  JOIN dead_record q ON (q.upid, q.handle) = (f.upid, f.handle) AND q.place BETWEEN g.begin AND f.place
WHERE f.section = 'clears' AND f.what = 'unconfirmed' AND (p.known OR g.n > 1)
  AND q.kind = :BC_REQUEST_DEATH_NOTIFICATION
GROUP BY 1
HAVING sum(q.cookie = f.cookie) = 0;
DELETE FROM other_cookie WHERE EXISTS (SELECT 1 FROM dead_record q JOIN dead_record c USING (upid, handle, cookie)
  WHERE q.place = other_cookie.request AND c.kind = :BC_CLEAR_DEATH_NOTIFICATION AND c.place > q.place
    AND c.place < (SELECT place FROM finding f WHERE f.id = other_cookie.id));
UPDATE finding SET rule = 'D10', said = 'the request is at {other}', other = o.request FROM other_cookie o
WHERE rule IS NULL AND o.id = finding.id;
UPDATE finding SET
  relation = 'given',
  code = g.code,
  way = g.way,
  giver = iif(g.reply, NULL, g.sender)
FROM given g
WHERE rule = 'D10' AND g.generation = finding.generation AND g.way NOTNULL;
UPDATE finding SET rule = CASE WHEN later = 0 AND finding.id IN (SELECT id FROM ended)
    OR finding.id IN (SELECT id FROM leaving) THEN 'T1'
  WHEN finding.upid IN (SELECT upid FROM lossy) THEN 'M1' WHEN later > 1 THEN 'U4'
  WHEN finding.id IN (SELECT id FROM old) THEN 'U5' ELSE 'U6' END
WHERE rule IS NULL AND section IN ('deaths', 'clears') AND what IN ('unacknowledged', 'unconfirmed');
-- A process that acknowledges hardly any of the deaths that it was told.
UPDATE finding SET rule = 'D8'
FROM (SELECT f.upid FROM finding f WHERE f.rule = 'U4' AND f.section = 'deaths' GROUP BY 1
  HAVING count(*) >= :OFTEN AND count(*) >= :NEARLY_ALL * (SELECT count(*) FROM dead_record d
    WHERE d.upid = f.upid AND d.kind = :BR_DEAD_BINDER)) p
WHERE rule = 'U4' AND section = 'deaths' AND p.upid = finding.upid;
UPDATE finding SET said = '{way}', way = g.way FROM given g
WHERE rule = 'D8' AND g.generation = finding.generation AND g.way NOTNULL;
-- The same of deaths that the driver dropped. Of the context manager it is explained: the servicemanager of Android up
-- to 10 acknowledges none.
UPDATE finding SET rule = 'D11'
WHERE rule = 'D9' AND upid NOT IN (SELECT upid FROM manager)
  AND upid IN (SELECT upid FROM finding WHERE rule = 'D9' GROUP BY 1 HAVING count(*) >= :OFTEN);
-- Answers to deaths and clears. Several of one cookie may be under way at once, so those of a cookie are counted: an
-- answer is one too many if it makes more answers than questions, and more than any answer before it.
CREATE TEMP TABLE balance AS
SELECT place, is_answer, sum(1 - 2 * is_answer) OVER so_far AS open FROM (
  SELECT place, upid, cookie, kind IN (:BC_DEAD_BINDER_DONE, :BR_CLEAR_DEATH_NOTIFICATION_DONE) AS is_answer,
    kind IN (:BR_DEAD_BINDER, :BC_DEAD_BINDER_DONE) AS is_death
  FROM dead_record WHERE kind <> :BC_REQUEST_DEATH_NOTIFICATION
    AND EXISTS (SELECT 1 FROM finding WHERE section IN ('deaths', 'clears') AND what = 'stray'))
WINDOW so_far AS (PARTITION BY upid, cookie, is_death ORDER BY place);
CREATE UNIQUE INDEX temp.balance_at ON balance(place);
UPDATE finding SET rule = 'D6' FROM balance b, dead_record d
WHERE rule IS NULL AND section IN ('deaths', 'clears') AND b.place = finding.place AND d.place = finding.place
  AND b.open >= min(0, coalesce((SELECT min(x.open) FROM balance x JOIN dead_record y USING (place)
    WHERE y.upid = d.upid AND y.cookie = d.cookie AND x.place < d.place
      AND (y.kind IN (:BR_DEAD_BINDER, :BC_DEAD_BINDER_DONE)) = (finding.section = 'deaths')), 0));
-- The driver's books say that deaths wait for acknowledgement, and not how many.
CREATE TEMP TABLE begun_death AS
SELECT f.id, b.quiet, iif(f.section = 'deaths', b.deaths,
  row_number() OVER (PARTITION BY f.upid, f.section ORDER BY f.place) <= b.clears) AS had
FROM finding f JOIN begun b USING (upid) WHERE f.rule IS NULL AND f.section IN ('deaths', 'clears');
UPDATE finding SET rule = CASE
  WHEN EXISTS (SELECT 1 FROM begun_death b WHERE b.id = finding.id AND b.had) THEN 'P2'
  WHEN finding.upid IN (SELECT upid FROM lossy) THEN 'M1'
  WHEN (SELECT known FROM process_life p WHERE p.upid = finding.upid)
    OR EXISTS (SELECT 1 FROM begun_death b WHERE b.id = finding.id AND b.quiet) THEN 'D4' ELSE 'P1' END
WHERE rule IS NULL AND section IN ('deaths', 'clears');
