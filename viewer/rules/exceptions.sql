-- R4: methods that end with an exception from some call on, which are findings of their own, one for each of an object.
-- needs: database/schema.sql: exception, finding, raw_call, raw_record, raw_send, raw_thread, side_time; counts.sql:
--   sent; judging.py: counted, exception_name, exception_of, moment
-- after: late.sql
-- makes: temporary tables: last_answer, thrower, answer_of

-- ---- what findings are called

-- exceptions are called: calls that end with an exception

-- ---- the rules

-- R4 maybe: Each answer of this method is this exception from this call on, {TOO_MANY} or more, and none before.
--   next: what happened to the process that answers at the time in the note
--   rests on: TOO_MANY, ENOUGH
--   of a part: what others are answered is not recorded
--   met by: `begins_to_throw()`: ten calls end with an exception, after three good ones

-- ---- what they say of which finding

-- The last answer of each method with many.
-- beside: counts.sql
CREATE TEMP TABLE last_answer AS
SELECT node_upid AS upid, ptr, code, max(answer) AS place FROM sent GROUP BY 1, 2, 3
HAVING sum(good) >= :TOO_MANY + :ENOUGH;
INSERT INTO exception
WITH thrown AS MATERIALIZED (
  SELECT a.place, exception_of(r.attachment, r.data_size) AS number FROM last_answer a JOIN raw_record r USING (place)
  WHERE a.place NOT IN (SELECT place FROM exception))
SELECT place, number FROM thrown WHERE number NOTNULL;
-- All answers of those of which the last one is an exception.
CREATE TEMP TABLE thrower AS
SELECT a.upid, a.ptr, a.code, x.number FROM last_answer a JOIN exception x USING (place);
CREATE TEMP TABLE answer_of AS
SELECT t.upid, t.ptr, t.code, t.number, c.place, c.closer
FROM thrower t JOIN sent p ON (p.node_upid, p.ptr, p.code) = (t.upid, t.ptr, t.code)
  CROSS JOIN raw_send s ON s.generation = p.generation JOIN raw_record r ON r.place = s.place
  JOIN raw_call c ON c.place = s.place
WHERE NOT p.oneway AND r.code = t.code AND c.verdict = 1;
INSERT INTO exception
WITH thrown AS MATERIALIZED (
  SELECT r.place, exception_of(r.attachment, r.data_size) AS number
  FROM answer_of a JOIN raw_record r ON r.place = a.closer
  WHERE r.place NOT IN (SELECT place FROM exception))
SELECT place, number FROM thrown WHERE number NOTNULL;
INSERT INTO finding(section, what, place, seq, upid, utid, code, ptr, target, relation, about, node, rule, note)
SELECT 'exceptions', 'since', f.first, r.seq, t.upid, r.utid, f.code, f.ptr, f.upid, 'to', f.upid, f.ptr, 'R4',
  exception_name(f.number) || ', all ' || f.n || ' since '
    || coalesce((SELECT moment(x.ts) FROM side_time x WHERE x.seq = r.seq), 'the call at ' || f.first) || ', after '
    || counted(f.good, 'other answer')
FROM (
  SELECT a.upid, a.ptr, a.code, a.number, count(x.number) AS n, min(iif(x.number NOTNULL, a.place, NULL)) AS first,
    sum(x.number IS NULL) AS good
  FROM answer_of a LEFT JOIN exception x ON x.place = a.closer
  GROUP BY 1, 2, 3
  HAVING n >= :TOO_MANY AND good >= :ENOUGH AND first > max(iif(x.number IS NULL, a.place, NULL))
    AND min(x.number) = max(x.number)) f
  JOIN raw_record r ON r.place = f.first JOIN raw_thread t USING (utid);
