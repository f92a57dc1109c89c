-- When each finding began, and how long it lasted if it is of a kind that lasts, by its group; those of no frame of the
-- capture are left out.
-- needs: database/schema.sql: finding, side_time; rules/groups.sql: finding_head
-- makes: columns: id, grp, leads, seq, ts, lasted, lasted_seq
SELECT id, grp, lead IS NULL AS leads, seq, ts, iif(lasts, age, NULL) AS lasted, iif(lasts, age_seq, NULL) AS lasted_seq
FROM (SELECT f.id, h.grp, f.lead, f.seq, x.ts, f.age, f.age_seq, f.section = 'buffers'
    OR f.what IN ('open', 'held', 'unacknowledged', 'unconfirmed', 'undelivered') AS lasts
  FROM finding_head h JOIN finding f USING (id) LEFT JOIN side_time x USING (seq))
