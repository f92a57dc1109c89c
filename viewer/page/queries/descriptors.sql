-- The file descriptors that came, by receiver, sender and call: how many, and the first, the last and the highest number
-- that the receiver got. ?1: the most rows.
-- needs: database/joined_views.sql: fd_sent
-- makes: columns: receiver_upid, sender_upid, interface, code, method, reply, count, first, last, highest
SELECT receiver_upid, sender_upid, interface, code, method, reply, sum(count) AS count,
  max(iif(up = 1, received_fd, NULL)) AS first, max(iif(down = 1, received_fd, NULL)) AS last,
  max(received_fd) AS highest
FROM (
  SELECT *, row_number() OVER (same ORDER BY received, idx) AS up, row_number() OVER (same ORDER BY received DESC, idx DESC)
    AS down
  FROM fd_sent WHERE received NOTNULL
  WINDOW same AS (PARTITION BY receiver_upid, sender_upid, interface, code, method, reply))
GROUP BY receiver_upid, sender_upid, interface, code, method, reply ORDER BY count DESC, receiver_upid LIMIT ?1
