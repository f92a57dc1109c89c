-- What limits the driver sets. To C6, C7, C11 and E5 its book `stats` of the end says for how many threads it asks the
-- process of the pool, and how much of the receiver's space for oneway sends was free. The driver in Rust hands calls
-- and oneway sends only to threads that have said that they take calls.
-- needs: database/schema.sql: book_stats, finding, raw_thread; database/views.sql: device, process; ages.sql:
--   process_life; rule.sql: lossy; waits.sql: full_pool, loop, occupies, queued, waits; refusals.sql: refused_first;
--   judging.py: counted
-- after: calls.sql
-- makes: temporary tables: pool_limit, no_looper

CREATE TEMP TABLE pool_limit AS
SELECT upid, CASE WHEN most = 0 AND started + requested = 0 THEN 'the driver asks it for no threads'
  ELSE 'of at most ' || counted(most, 'thread') || ' that the driver asks it for, ' || started
    || iif(started = 1, ' has', ' have') || ' come' || iif(requested, ', and ' || requested
    || iif(requested = 1, ' has', ' have') || ' not', '') END AS limits
FROM book_stats WHERE moment = 'end';
-- The pool that a call keeps busy, or else the one that it waits in.
UPDATE finding SET note = note || '; ' || p.limits FROM pool_limit p
WHERE (finding.rule = 'C6' OR finding.rule = 'C11') AND p.upid = (SELECT min(h.upid) FROM occupies h JOIN full_pool USING (upid)
  WHERE h.id = finding.id);
UPDATE finding SET note = coalesce(note || '; ', '') || p.limits FROM waits w JOIN full_pool f ON f.upid = w.server_upid
  JOIN pool_limit p ON p.upid = f.upid
WHERE (finding.rule = 'C7' OR finding.rule = 'C11') AND w.id = finding.id AND w.delivery IS NULL;
-- The note of the first refused oneway send says what was in the way then.
UPDATE finding SET note = note || '; at the end ' || counted(b.oneway_free, 'byte') || ' of its oneway space '
  || iif(b.oneway_free = 1, 'was', 'were') || ' free'
FROM book_stats b
WHERE finding.id IN (SELECT id FROM refused_first WHERE oneway) AND finding.note NOTNULL AND b.moment = 'end'
  AND b.upid = finding.target
  AND b.oneway_free NOTNULL;
-- Servers of the driver in Rust of which no thread has said so, as far as something waits for them.
CREATE TEMP TABLE no_looper AS
SELECT p.upid, ': none of its threads has said that it takes calls, and the driver in Rust hands none to others' AS why
FROM process p JOIN device d USING (device) JOIN process_life l USING (upid)
WHERE p.upid IN (SELECT upid FROM queued) AND d.driver = 'Rust' AND l.known AND p.upid NOT IN (SELECT upid FROM lossy)
  AND p.upid NOT IN (SELECT t.upid FROM loop o JOIN raw_thread t ON t.utid = o.utid);
UPDATE finding SET note = note || n.why FROM waits w JOIN no_looper n ON n.upid = w.server_upid
WHERE finding.rule = 'C5' AND w.id = finding.id AND w.delivery IS NULL;
