-- The keys of the defects of a group, in the order of their first findings. ?1: the group.
-- needs: rules/groups.sql: finding_head; rules/defects.sql: finding_defect
-- makes: columns: defect
SELECT x.defect FROM finding_head h JOIN finding_defect x ON x.finding = h.id WHERE h.grp = ?1 GROUP BY x.defect
ORDER BY min(x.finding)
