-- How many findings of a group are in each of 16 slices of the capture. ?1: the group.
-- needs: database/schema.sql: finding, raw_slice; rules/groups.sql: finding_head
-- makes: columns: slice, findings
SELECT (SELECT max(slice) FROM raw_slice WHERE first_seq <= f.seq) AS slice, count(*) AS findings
FROM finding_head h JOIN finding f USING (id)
WHERE h.grp = ?1 AND f.lead IS NULL AND f.seq NOTNULL GROUP BY 1
