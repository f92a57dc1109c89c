-- The stacks of buffers that were freed, of the paths and processes of each group of buffers that were not, and how
-- many have each: of a reply the stack of its call, of a transaction that of the reply to it.
-- needs: database/schema.sql: finding, raw_call, raw_delivery, raw_record, raw_send, raw_thread, side_call;
--   rules/nodes.sql: node_of; rules/groups.sql: finding_head; rules/stacks.sql: finding_stack
-- makes: columns: grp, stack, buffers
WITH kept AS MATERIALIZED (
  SELECT DISTINCT h.grp, f.upid, f.what = 'BR_REPLY' AS reply, f.code, f.target, f.handle, f.ptr
  FROM finding f JOIN finding_head h USING (id) JOIN finding_stack s USING (id)
  WHERE f.section = 'buffers' AND f.lead IS NULL AND s.n = 1
    AND s.whose IN ('the call that it answers', 'the reply to it'))
SELECT k.grp, x.stack, count(*) AS buffers
FROM (SELECT 1 FROM kept LIMIT 1) CROSS JOIN raw_delivery d CROSS JOIN raw_thread t USING (utid)
  CROSS JOIN raw_record r USING (place) LEFT JOIN raw_record c ON c.place = d.call
  LEFT JOIN raw_send s ON s.place = d.call LEFT JOIN node_of n ON n.generation = s.generation
  LEFT JOIN raw_call v ON v.place = d.place AND v.served
  CROSS JOIN kept k ON k.upid = t.upid AND k.reply = (d.call NOTNULL) AND k.code = iif(k.reply, c.code, r.code)
    AND iif(k.reply, k.target IS n.upid AND iif(k.target IS NULL, c.handle = k.handle, n.ptr = k.ptr), r.ptr = k.ptr)
  JOIN raw_record w ON w.place = coalesce(d.call, v.closer) JOIN side_call x ON x.seq = w.seq
WHERE d.freed_by NOTNULL AND t.upid IN (SELECT upid FROM kept) GROUP BY 1, 2
