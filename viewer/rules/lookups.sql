-- N: services that the context manager was asked for and did not give, which are findings of their own, one for each
-- process and name.
-- needs: database/schema.sql: finding, raw_process, raw_record, raw_thread, side_time; names.sql: is_service,
--   to_manager
-- after: behind.sql
-- makes: temporary tables: in_vain, was_there, not_found, came_later; indexes: was_there_of

-- ---- what findings are called

-- services are called: services not found

-- ---- the rules

-- N1 explained: Asked for when it was not there: it came later.
--   met by: `asks_in_vain()`: ten requests, and then it is registered
-- N2 maybe: Asked for {TOO_MANY} times or more, for over {VERY_LONG}, and not there up to the end.
--   next: whether the service is started at all, and registers under this name
--   rests on: TOO_MANY, VERY_LONG
--   of a part: whether it came later is not recorded
--   met by: `asks_in_vain()`: ten requests in 1.1 s
-- N3 normal: Asked for, and not there.
--   rests on: TOO_MANY, VERY_LONG
--   met by: `asks_in_vain()`: nine requests

-- ---- what they say of which finding

-- Requests for a name that were answered without an object. In all releases only codes 1 to 3 take a name alone and
-- answer with an object: `getService`, `checkService`, and `getService2` of Android 15.
CREATE TEMP TABLE in_vain AS
SELECT m.place, m.upid, p.device, m.service, r.seq, r.utid, r.code, x.ts
FROM to_manager m JOIN raw_record r USING (place) JOIN raw_record a ON a.place = m.closer
  JOIN raw_process p USING (upid) LEFT JOIN side_time x ON x.seq = r.seq
WHERE m.service NOTNULL AND m.objects = 0 AND m.verdict = 1 AND r.code BETWEEN 1 AND 3 AND a.offsets_size = 0
  AND NOT a.flags & :TF_STATUS_CODE;
-- When a service was there: it was registered, or given to a process that asked for it.
CREATE TEMP TABLE was_there AS
SELECT s.service, p.device, t.upid, s.place, s.registered NOTNULL AS registered, x.ts
FROM is_service s JOIN raw_record r USING (place) JOIN raw_thread t USING (utid) JOIN raw_process p USING (upid)
  LEFT JOIN side_time x ON x.seq = r.seq
WHERE EXISTS (SELECT 1 FROM in_vain);
CREATE INDEX temp.was_there_of ON was_there(service, device, place);
-- The requests of one process for one name, since it last got the service.
CREATE TEMP TABLE not_found AS
SELECT a.upid, a.device, a.service, min(v.place) AS place, a.last, count(*) AS n, max(v.ts) - min(v.ts) AS lasted,
  min(v.ts) AS since
FROM (SELECT upid, device, service, max(place) AS last FROM in_vain GROUP BY 1, 2, 3) a
  JOIN in_vain v USING (upid, service)
WHERE v.place > coalesce((SELECT max(w.place) FROM was_there w WHERE (w.service, w.device) = (a.service, a.device)
    AND w.upid = a.upid AND NOT w.registered AND w.place < a.last), -1)
GROUP BY 1, 2, 3;
-- When it came. If others got it meanwhile, and it was not registered anew, it was there for others all the time.
CREATE TEMP TABLE came_later AS
SELECT n.*, (SELECT min(w.place) FROM was_there w WHERE (w.service, w.device) = (n.service, n.device)
    AND w.place > n.last AND (NOT n.for_others OR w.upid = n.upid AND NOT w.registered)) AS came
FROM (SELECT f.*, EXISTS (SELECT 1 FROM was_there w WHERE (w.service, w.device) = (f.service, f.device)
      AND w.place BETWEEN f.place AND f.last)
    AND NOT EXISTS (SELECT 1 FROM was_there w WHERE (w.service, w.device) = (f.service, f.device)
      AND w.place BETWEEN f.place AND f.last AND w.registered) AS for_others
  FROM not_found f) n;
INSERT INTO finding(section, what, place, seq, upid, utid, relation, node, rule, said, other, how_many, how_long,
  usually)
SELECT 'services', 'not found', c.place, r.seq, c.upid, r.utid, 'service', c.service,
  CASE WHEN c.came NOTNULL THEN 'N1' WHEN c.n >= :TOO_MANY AND c.lasted > :VERY_LONG THEN 'N2' ELSE 'N3' END,
  '{how_many:request}' || iif(c.lasted > 0, ' within {how_long}', '')
    || CASE WHEN c.came NOTNULL THEN '; it came at {other}' || iif(w.ts IS NULL, '', ', {usually} after the first')
      WHEN c.for_others THEN '; others got it meanwhile: this process may be denied it' ELSE '' END,
  c.came, c.n, c.lasted, w.ts - c.since
FROM came_later c JOIN raw_record r USING (place) LEFT JOIN was_there w ON w.place = c.came;
