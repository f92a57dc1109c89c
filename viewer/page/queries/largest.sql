-- The transactions with most data. ?1: the most rows.
-- needs: database/schema.sql: raw_record; database/numbers.sql: kind; database/joined_views.sql: txn
-- makes: columns: place, ts, client_upid, server_upid, ptr, handle, code, interface, oneway, data_size, reply_size,
--   outcome
WITH largest AS MATERIALIZED (
  SELECT r.place FROM raw_record r JOIN kind k ON k.number = r.kind
  WHERE k.name IN ('BC_TRANSACTION', 'BC_TRANSACTION_SG') ORDER BY r.data_size DESC, r.place LIMIT ?1)
SELECT t.place, t.ts, t.client_upid, t.server_upid, t.ptr, t.handle, t.code, r.interface, t.oneway, t.data_size,
  t.reply_size, t.outcome
FROM largest JOIN txn t USING (place) JOIN raw_record r USING (place) ORDER BY t.data_size DESC, t.place
