-- How many frames were lost for each reason, between the first and the last frame of the capture; and of each reason the
-- process that lost the most so. A process of which no frame came is called as in the side list.
-- needs: database/schema.sql: raw_capture, side_lost, side_process; rules/nodes.sql: who
-- makes: columns: why, total, who, n
SELECT why, total, who, n
FROM (SELECT l.why, count(*) AS n, sum(count(*)) OVER (PARTITION BY l.why) AS total,
    coalesce(w.who, coalesce(s.name || ' ', '') || l.process) AS who,
    row_number() OVER (PARTITION BY l.why ORDER BY l.process IS NULL, count(*) DESC, l.device, l.process) AS nth
  FROM raw_capture c JOIN side_lost l ON l.seq BETWEEN c.first_seq AND c.last_seq
    LEFT JOIN raw_process p USING (device, process) LEFT JOIN who w USING (upid)
    LEFT JOIN side_process s USING (device, process)
  GROUP BY l.why, l.device, l.process)
WHERE nth = 1 ORDER BY total DESC, why
