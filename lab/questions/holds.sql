-- Who holds most, by build: buffers at most, and on average in the end with references?
SELECT h.process, c.build, max(h.buffers_most) AS buffers_most, round(avg(coalesce(h.buffers, 0)), 1) AS buffers,
  round(avg(coalesce(h.refs, 0)), 1) AS refs
FROM held h JOIN capture c ON c.id = h.capture
WHERE c.malformed IS NULL GROUP BY h.process, c.build
ORDER BY buffers DESC, refs DESC, h.process, c.build LIMIT 20
