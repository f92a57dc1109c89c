-- What the openings that were met in mid-life had when the recording began, by the driver's books. ?1: the most rows.
-- needs: database/schema.sql: book_buffer, book_call, book_handle, book_node, book_opening; rules/nodes.sql: who
-- makes: columns: who, handles, nodes, buffers, made, served
SELECT w.who, (SELECT count(*) FROM book_handle h WHERE h.moment = 'begin' AND h.upid = o.upid) AS handles,
  (SELECT count(*) FROM book_node n WHERE n.moment = 'begin' AND n.upid = o.upid) AS nodes,
  (SELECT count(*) FROM book_buffer b WHERE b.moment = 'begin' AND b.upid = o.upid AND NOT b.unread) AS buffers,
  (SELECT count(*) FROM book_call c WHERE c.moment = 'begin' AND c.upid = o.upid AND c.side = 'made') AS made,
  (SELECT count(*) FROM book_call c WHERE c.moment = 'begin' AND c.upid = o.upid AND c.side = 'served') AS served
FROM book_opening o JOIN who w USING (upid) WHERE o.moment = 'begin' ORDER BY o.upid LIMIT ?1
