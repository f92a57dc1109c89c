-- The groups of a verdict, in their order. ?1: the verdict, ?2: the most rows.
-- needs: rules/groups.sql: finding_group
-- makes: columns: grp, verdict, title, path, n, n_all, first, last, waiting, rules, note
SELECT grp, verdict, title, path, n, n_all, first, last, waiting, rules, note
FROM finding_group WHERE verdict = ?1 ORDER BY nth LIMIT ?2
