-- Where frames are missing: the frames before and after, when these were, and how many are missing between. ?1: the most
-- rows.
-- needs: database/schema.sql: raw_frame, side_time
-- makes: columns: before, begin, after, end, missing
SELECT g.before, b.ts AS begin, g.after, e.ts AS end, g.after - g.before - 1 AS missing
FROM (SELECT lag(seq) OVER (ORDER BY place) AS before, seq AS after FROM raw_frame) g
  LEFT JOIN side_time b ON b.seq = g.before LEFT JOIN side_time e ON e.seq = g.after
WHERE g.after - g.before > 1 ORDER BY missing DESC LIMIT ?1
