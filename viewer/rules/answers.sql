-- R: calls that were answered with a status.
-- needs: database/schema.sql: finding, side_time; paths.sql: answered; judging.py: moment
-- after: late.sql
-- makes: nothing

-- ---- what findings are called

-- answers are called: calls answered with an error

-- ---- the rules

-- R1 maybe: Nearly all calls of its path are answered with this status.
--   next: what the status means, and what the callers ask for
--   rests on: OFTEN, NEARLY_ALL
--   of a part: what others are answered is not recorded
--   met by: `answered_with_a_status()`: four calls of five
-- R2 normal: Answered with a status.
--   met by: `answered_with_a_status()`: two calls
-- R3 maybe: All calls of its path are answered with this status from some call on, {TOO_MANY} or more, and none before.
--   next: what happened to the process that answers at the time in the note
--   rests on: TOO_MANY, ENOUGH
--   of a part: what others are answered is not recorded
--   met by: `begins_to_answer_with_a_status()`: ten calls after five good ones

-- ---- what they say of which finding

UPDATE finding SET rule = 'R3',
  note = 'all ' || p.n || ' since ' || coalesce((SELECT moment(x.ts) FROM side_time x WHERE x.seq = p.seq),
    'the call at ' || p.first)
FROM (
  SELECT f.code, f.way, f.about, f.node, count(*) AS n, min(f.place) AS first, min(f.seq) AS seq
  FROM finding f JOIN answered a ON a.code = f.code AND a.way IS f.way AND a.about IS f.about AND a.node IS f.node
  WHERE f.section = 'answers' AND f.rule IS NULL AND a.good >= :ENOUGH
  GROUP BY 1, 2, 3, 4
  HAVING count(*) >= :TOO_MANY AND min(f.place) > max(a.last_good) AND min(f.status) IS max(f.status)) p
WHERE rule IS NULL AND section = 'answers' AND p.code = finding.code AND p.way IS finding.way
  AND p.about IS finding.about AND p.node IS finding.node;
UPDATE finding SET rule = 'R1'
FROM (SELECT code, way, about, node, status FROM finding WHERE section = 'answers' GROUP BY 1, 2, 3, 4, 5
  HAVING count(*) >= :OFTEN AND count(*) >= :NEARLY_ALL * max(n_all)) p
WHERE rule IS NULL AND section = 'answers' AND p.code = finding.code AND p.way IS finding.way
  AND p.about IS finding.about AND p.node IS finding.node AND p.status IS finding.status;
UPDATE finding SET rule = 'R2' WHERE rule IS NULL AND section = 'answers';
