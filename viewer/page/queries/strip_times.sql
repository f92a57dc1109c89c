-- How many frames came in each of ?3 parts of the time from ?1 on, which has ?2 nanoseconds.
-- needs: database/schema.sql: side_time
-- makes: columns: part, n
SELECT min((ts - ?1) / max(?2 / ?3, 1), ?3 - 1) AS part, count(*) AS n FROM side_time
WHERE ts BETWEEN ?1 AND ?1 + ?2 GROUP BY 1
