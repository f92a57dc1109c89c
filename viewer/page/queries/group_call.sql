-- The send of a call that a group is about, or of a oneway transaction: of its first findings that which took longest.
-- ?1: the group, ?2: so many findings.
-- needs: database/schema.sql: finding, raw_call, raw_delivery, raw_send, side_time; rules/groups.sql: finding_head
-- makes: columns: root
SELECT root
FROM (SELECT coalesce(d.send, s.place) AS root, coalesce(z.ts - x.ts, f.age) AS took, f.place
  FROM finding_head h JOIN finding f USING (id) LEFT JOIN raw_send s ON s.place = f.place
    LEFT JOIN raw_delivery d ON d.place = f.place LEFT JOIN raw_call c ON c.place = coalesce(d.send, s.place)
    LEFT JOIN side_time x ON x.seq = c.seq LEFT JOIN side_time z ON z.seq = c.seq + c.dur_seq
  WHERE h.grp = ?1 AND f.lead IS NULL
    AND f.section IN ('calls', 'served', 'answers', 'exceptions', 'slow', 'pools', 'queues', 'oneway')
  ORDER BY f.place LIMIT ?2)
WHERE root NOTNULL ORDER BY took DESC, place LIMIT 1
