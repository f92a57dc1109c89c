-- How many records came in each of ?3 parts of the frames from ?1 on, of which there are ?2.
-- needs: database/schema.sql: raw_frame
-- makes: columns: part, n
SELECT min((seq - ?1) * ?3 / ?2, ?3 - 1) AS part, sum(records) AS n FROM raw_frame GROUP BY 1
