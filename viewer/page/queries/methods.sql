-- The calls that have a name: interface, code, method, where that is from, and how many were sent; most first. ?1: the
-- most rows.
-- needs: database/schema.sql: call_interface, method; database/views.sql: interface; rules/matters.sql: traffic
-- makes: columns: name, code, method, source, n
SELECT i.name, t.code, m.method, m.source, sum(t.sends) AS n
FROM traffic t JOIN call_interface c
    ON (c.code, c.upid, c.ptr) = (t.code, coalesce(t.node_upid, -t.upid), coalesce(t.ptr, t.handle))
  JOIN interface i ON i.id = c.interface LEFT JOIN method m ON (m.interface, m.code) = (i.name, t.code)
GROUP BY 1, 2
UNION ALL SELECT m.interface, t.code, m.method, m.source, sum(t.sends) FROM traffic t JOIN method m USING (code)
WHERE m.interface = 'android.os.IBinder' AND NOT EXISTS (SELECT 1 FROM call_interface c
  WHERE (c.code, c.upid, c.ptr) = (t.code, coalesce(t.node_upid, -t.upid), coalesce(t.ptr, t.handle)))
GROUP BY 1, 2
ORDER BY n DESC, 1, 2 LIMIT ?1
