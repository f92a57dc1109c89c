-- How the references of each generation that is held became what they are: change after change. A handle may have very
-- many generations, of which at most one is held.
-- needs: database/schema.sql: raw_generation, raw_record, raw_thread
-- after: ages.sql
-- makes: temporary tables: held_change

CREATE TEMP TABLE held_change(generation INTEGER, place INTEGER, seq INTEGER, utid INTEGER, strong INTEGER,
  weak INTEGER, strong_then INTEGER, weak_then INTEGER, PRIMARY KEY(generation, place)) WITHOUT ROWID;
-- beside: loading, where they stay
INSERT INTO held_change
WITH held AS MATERIALIZED (
  SELECT id, upid, handle, begin FROM raw_generation WHERE strong + weak > 0 AND (acquired > 1 OR increfs > 1))
SELECT *, sum(strong) OVER changes AS strong_then, sum(weak) OVER changes AS weak_then
FROM (SELECT g.id AS generation, r.place, r.seq, r.utid, (r.kind = :BC_ACQUIRE) - (r.kind = :BC_RELEASE) AS strong,
    (r.kind = :BC_INCREFS) - (r.kind = :BC_DECREFS) AS weak
  FROM (SELECT 1 FROM held LIMIT 1) CROSS JOIN raw_record r CROSS JOIN raw_thread t USING (utid)
    CROSS JOIN held g ON g.upid = t.upid AND g.handle = r.handle AND g.begin <= r.place
  WHERE r.kind IN (:BC_INCREFS, :BC_ACQUIRE, :BC_RELEASE, :BC_DECREFS))
WINDOW changes AS (PARTITION BY generation ORDER BY place);
