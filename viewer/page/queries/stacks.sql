-- The stacks that tell of the findings of a group, those of its first record first: for each finding its stacks in the
-- order in which they are shown. ?1: the group.
-- needs: database/schema.sql: finding, raw_record, raw_thread; rules/groups.sql: finding_head; rules/stacks.sql:
--   finding_stack
-- makes: columns: id, place, stack, whose, upid, thread
SELECT f.id, s.place, s.stack, s.whose, t.upid, t.thread
FROM finding_head h JOIN finding f USING (id) JOIN finding_stack s USING (id) JOIN raw_record r ON r.place = s.place
  JOIN raw_thread t ON t.utid = r.utid
WHERE h.grp = ?1 AND f.lead IS NULL ORDER BY f.place, f.id, s.n
