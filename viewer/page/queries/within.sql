-- The groups that have a finding in some frames, or a call that was open then, in their order. ?1, ?2: the first and
-- the last frame, or NULL; ?3: when that begins, or NULL; ?4: the processes of which a group has a finding, or that
-- cause one, as JSON, or NULL.
-- needs: database/schema.sql: finding, side_time; rules/groups.sql: finding_group, finding_head
-- makes: columns: grp
SELECT grp FROM finding_group WHERE grp IN (
  SELECT h.grp FROM finding f JOIN finding_head h USING (id) LEFT JOIN side_time x USING (seq)
  WHERE f.lead IS NULL AND (?1 IS NULL OR f.seq BETWEEN ?1 AND ?2 OR f.section = 'books'
      OR f.section IN ('calls', 'served') AND f.what = 'open' AND f.seq <= ?2
        AND coalesce(x.ts + f.age >= ?3, f.seq + f.age_seq >= ?1))
    AND (?4 IS NULL OR f.upid IN (SELECT value FROM json_each(?4))
      OR f.culprit IN (SELECT value FROM json_each(?4))))
ORDER BY nth
