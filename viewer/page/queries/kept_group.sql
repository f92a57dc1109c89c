-- The group that is about why a set was kept: that of the finding at a place or, if that is explained, what a person
-- looks at first that the same process causes. ?1: the place.
-- needs: database/schema.sql: finding; rules/groups.sql: finding_group, finding_head
-- makes: columns: grp
WITH here AS (SELECT h.grp, coalesce(f.culprit, f.upid) AS upid FROM finding f JOIN finding_head h USING (id)
    WHERE f.place = ?1 AND f.section <> 'buffers'),
  theirs AS (SELECT h.grp FROM finding f JOIN finding_head h USING (id)
    WHERE f.lead IS NULL AND coalesce(f.culprit, f.upid) IN (SELECT upid FROM here))
SELECT g.grp FROM finding_group g
WHERE g.grp IN (SELECT grp FROM here) OR g.grp IN (SELECT grp FROM theirs) AND g.verdict IN ('real', 'maybe')
ORDER BY g.verdict NOT IN ('real', 'maybe'), g.grp NOT IN (SELECT grp FROM here), g.nth LIMIT 1
