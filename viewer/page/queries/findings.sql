-- The findings of a group; those that another one leads come last. size is that of the data. The lane is that of the
-- thread at the place; of a call that came back to a thread that waits, and hangs (C10), that of the call within which
-- it waits. ?1: the group, ?2: the most rows.
-- needs: database/schema.sql: finding, raw_record, raw_thread, report, side_time; rules/groups.sql: finding_head
-- makes: columns: section, place, lane, lane_utid, upid, rule, note, text, thread, id, n_good, longest, ts, size
SELECT f.section, f.place, coalesce(o.place, f.place) AS lane, coalesce(o.utid, f.utid) AS lane_utid, f.upid, f.rule,
  f.note, r.text, t.thread, f.id, f.n_good, f.longest, x.ts, k.data_size AS size
FROM finding_head h JOIN finding f USING (id) LEFT JOIN report r ON r.id = f.report
  LEFT JOIN raw_thread t ON t.utid = f.utid LEFT JOIN side_time x ON x.seq = f.seq
  LEFT JOIN raw_record k ON k.place = f.place LEFT JOIN raw_record o ON f.rule = 'C10' AND o.place = f.other
WHERE h.grp = ?1 ORDER BY f.lead IS NOT NULL, f.place LIMIT ?2
