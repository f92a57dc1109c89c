-- The rules that findings have, in the order of their ids. ?1: the most rows.
-- needs: database/schema.sql: finding; rules/rule.sql: rule
-- makes: columns: id, verdict, text, next
SELECT id, verdict, text, next FROM rule WHERE id IN (SELECT rule FROM finding)
ORDER BY substr(id, 1, 1), CAST(substr(id, 2) AS INTEGER) LIMIT ?1
