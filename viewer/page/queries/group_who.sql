-- The processes that cause the findings of a group, in the order of their first frame. ?1: the group.
-- needs: database/schema.sql: finding; rules/groups.sql: finding_head
-- makes: columns: upid
SELECT DISTINCT coalesce(f.culprit, f.upid) AS upid FROM finding_head h JOIN finding f USING (id)
WHERE h.grp = ?1 AND f.lead IS NULL ORDER BY 1
