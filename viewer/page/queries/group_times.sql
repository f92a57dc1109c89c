-- When the first and the last finding of a group were; NULL if that is not known. ?1: the group.
-- needs: database/schema.sql: finding, side_time; rules/groups.sql: finding_head
-- makes: columns: first, last
SELECT min(x.ts) AS first, max(x.ts) AS last
FROM finding_head h JOIN finding f USING (id) JOIN side_time x USING (seq) WHERE h.grp = ?1 AND f.lead IS NULL
