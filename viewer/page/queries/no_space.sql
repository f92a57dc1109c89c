-- What filled the space of receivers when sends of a group found none, the most bytes first. ?1: the group; ?2: the
-- most rows.
-- needs: database/schema.sql: finding; rules/refusals.sql: no_space; rules/groups.sql: finding_head
-- makes: columns: place, receiver_upid, sender_upid, code, interface, method, reply, oneway, n, bytes, held, largest,
--   all_rows
SELECT f.place, m.receiver_upid, m.sender_upid, m.code, m.interface, m.method, m.reply, m.oneway, m.n, m.bytes, m.held,
  m.largest, count(*) OVER () AS all_rows
FROM no_space m JOIN finding_head h ON h.id = m.finding JOIN finding f ON f.id = m.finding
WHERE h.grp = ?1 ORDER BY f.place, m.bytes DESC, m.sender_upid, m.reply, m.oneway, m.code LIMIT ?2
