"""Whether the report agrees with the driver's books at the end of the recording. After the rules.

An opening is compared if it had no frame any more when the books were copied, no frames of it are missing, and it is
known what it held when the recording began: nothing, or what the books of then have. What the books say of it is in the
tables that load_books.py fills."""

import sqlite3

from viewer.database.sqlite import named_numbers
from viewer.units import counted

# A database that is reused has the tables, with what was compared of another capture.
TABLES = ("CREATE TEMP TABLE IF NOT EXISTS compared(upid INTEGER, deaths INTEGER)", "DELETE FROM compared",
          "CREATE TEMP VIEW IF NOT EXISTS strength AS"
          " SELECT 'strong' AS name, '' AS what UNION ALL SELECT 'weak', ', weakly'")

# The openings that are compared.
COMPARED = """INSERT INTO compared
SELECT e.upid, e.deaths FROM book_opening e JOIN process p USING (upid)
  LEFT JOIN book_opening b ON b.moment = 'begin' AND b.upid = e.upid
WHERE e.moment = 'end' AND e.quiet AND e.upid NOT IN (SELECT upid FROM lossy)
  AND (p.met = 'from-start' OR p.met = 'in-mid-life' AND b.quiet)"""

# What both sides say of an opening: its section, what it is about, and a number. The report counts from nothing, so
# what the books had at the beginning is added to it. What is on its way to a process is in the books alone.

# A buffer with objects holds references too. Where one was on its way, or was from before the recording, the references
# of handles are not compared.
# The driver in Rust does not say whether a buffer has objects.
CARRIERS = "SELECT upid FROM book_buffer WHERE offsets_size IS NOT 0 AND (unread OR moment = 'begin')"

# The driver in Rust does not say how many bytes of a buffer are data, nor which buffer is which: of openings that had
# some at the beginning it is not known which of them are left. Nor does it say which deaths are asked for.
SAYS_LESS = "SELECT upid FROM book_opening WHERE driver = 'Rust'"
HAD_BUFFERS = f"SELECT upid FROM book_buffer WHERE moment = 'begin' AND upid IN ({SAYS_LESS})"

QUERIES = {
    # The driver ignores a release of what is not held; the report counts it, and its low makes up for that.
    "handles": f"""
SELECT upid, 'handle ' || handle || what, sum(counted + had + held) - min(0, sum(low + had)), sum(books) FROM (
  SELECT p.upid, r.handle, w.what, iif(w.name = 'strong', r.strong, r.weak) AS counted,
    iif(w.name = 'strong', r.strong_low, r.weak_low) AS low,
    iif(w.name = 'strong', r.held_strong, r.held_weak) AS held, 0 AS had, 0 AS books
  FROM report r JOIN process p USING (device, process), strength w WHERE r.section = 'handles'
  UNION ALL SELECT upid, handle, what, 0, 0, 0, iif(moment = 'begin', iif(name = 'strong', strong, weak), 0),
    iif(moment = 'end', iif(name = 'strong', strong, weak), 0) FROM book_handle, strength)
WHERE upid NOT IN ({CARRIERS}) GROUP BY upid, handle, what""",
    # The driver itself has references to the node of a context manager.
    "nodes": """
SELECT upid, 'node ' || printf('0x%x', ptr) || what, sum(report), sum(books) FROM (
  SELECT f.upid, f.ptr, f.cookie, w.what, iif(w.name = 'strong', r.strong, r.weak) AS report, 0 AS books
  FROM finding f JOIN report r ON r.id = f.report, strength w WHERE f.section = 'nodes'
  UNION ALL SELECT upid, ptr, cookie, what,
    iif(moment = 'begin', iif(name = 'strong', strong, weak), 0) + (moment = 'end' AND ptr = 0 AND cookie = 0)
      - (moment = 'begin' AND ptr = 0 AND cookie = 0),
    iif(moment = 'end', iif(name = 'strong', strong, weak), 0) FROM book_node, strength)
GROUP BY upid, ptr, cookie, what""",
    "buffers": f"""
SELECT upid, what, sum(iif(of = 'buffers', report_n, report_bytes)), sum(iif(of = 'buffers', books_n, books_bytes))
FROM (SELECT upid, 1 AS report_n, data_size AS report_bytes, 0 AS books_n,
    0 AS books_bytes FROM report JOIN process USING (device, process) WHERE section = 'buffers'
  UNION ALL SELECT upid, 0, 0, 1, data_size FROM book_buffer e WHERE moment = 'end' AND NOT unread
    AND NOT EXISTS (SELECT 1 FROM book_buffer b WHERE b.moment = 'begin' AND (b.upid, b.number) = (e.upid, e.number)
      AND NOT b.unread)),
  (SELECT 'buffers' AS of, 'buffers' AS what UNION ALL SELECT 'bytes', 'bytes in buffers')
WHERE upid NOT IN ({HAD_BUFFERS}) AND (of = 'buffers' OR upid NOT IN ({SAYS_LESS}))
GROUP BY upid, what""",
    # A thread that left or ended has no calls any more. Of a call that was made before the recording it is not known
    # which answer is on its way.
    "calls": """
SELECT upid, 'calls ' || side, sum(report), sum(books) FROM (
  SELECT t.upid, iif(f.section = 'calls', 'made', 'served') AS side, 1 AS report, 0 AS books
  FROM finding f JOIN thread t USING (utid), book k
  WHERE f.section IN ('calls', 'served') AND f.what = 'open' AND k.moment = 'end' AND k.what = 'state'
    AND coalesce(t.ended > k.ts, 1)
  UNION ALL SELECT upid, side, 0, 1 FROM book_call e WHERE moment = 'end' AND NOT EXISTS (
    SELECT 1 FROM book_call b WHERE b.moment = 'begin' AND (b.upid, b.number) = (e.upid, e.number)))
WHERE upid NOT IN (SELECT upid FROM book_call WHERE moment = 'begin' AND side = 'made') GROUP BY upid, side""",
    # The driver says that deaths wait for acknowledgement, and not how many. It drops a death with the last reference.
    "deaths": """
SELECT upid, 'deaths not acknowledged', max(report), max(books) FROM (
  SELECT upid, 1 AS report, 0 AS books FROM finding WHERE section = 'deaths' AND what = 'unacknowledged'
    AND coalesce(rule NOT IN ('D9', 'D11'), 1)
  UNION ALL SELECT upid, 0, deaths FROM compared)
WHERE upid NOT IN (SELECT upid FROM book_opening WHERE moment = 'begin' AND deaths) GROUP BY upid""",
    # A request that waits for a death. The driver keeps it after it has told of the death, until nothing holds the
    # handle; then the number may mean another object, with a request of its own.
    "requests": f"""
SELECT upid, 'request for handle ' || handle, max(report), max(books) FROM (
  SELECT upid, handle, 1 AS report, 0 AS books FROM finding WHERE rule IN ('D5', 'D12', 'D13')
  UNION ALL SELECT upid, handle, 0, 1 FROM book_handle b WHERE moment = 'end' AND requested
    AND coalesce((SELECT max(place) FROM dead_record q WHERE (q.upid, q.handle) = (b.upid, b.handle)
        AND q.kind = :BC_REQUEST_DEATH_NOTIFICATION)
      > coalesce((SELECT max(place) FROM told_death t WHERE (t.upid, t.handle) = (b.upid, b.handle)), -1),
      NOT EXISTS (SELECT 1 FROM book_handle x WHERE x.moment = 'begin' AND (x.upid, x.handle) = (b.upid, b.handle)
        AND x.requested)))
WHERE upid NOT IN ({SAYS_LESS}) GROUP BY upid, handle"""}


INSERT = """WITH said(upid, what, report, books) AS ({query})
INSERT INTO disagreement(upid, section, what, report, books)
SELECT upid, :section, what, report, books FROM said JOIN compared USING (upid)
WHERE report IS NOT books ORDER BY upid, what"""


def compare(database: sqlite3.Connection) -> None:
    """Puts what differs into the table `disagreement`, and how many openings were compared into `capture`."""
    if not database.execute("SELECT 1 FROM book_opening WHERE moment = 'end'").fetchone():
        return
    for statement in TABLES:
        database.execute(statement)
    database.execute(COMPARED)
    numbers: dict[str, object] = {**named_numbers(database)}
    for section, query in QUERIES.items():
        database.execute(INSERT.format(query=query), numbers | {"section": section})
    database.execute("INSERT INTO capture SELECT 'books_compared', count(*) FROM compared")
    database.execute("INSERT INTO capture SELECT 'books_left_out', count(*) - (SELECT count(*) FROM compared)"
                     " FROM book_opening WHERE moment = 'end'")
    database.execute(LEFT_OUT)


# Why openings are left out, by the first reason of each.
REASONS = {"books_went_on": "had frames after the copy", "books_lossy": "without all frames in the capture",
           "books_in_use": "had frames when debugfs was copied at the beginning, or are not in that copy"}
LEFT_OUT = """INSERT INTO capture
SELECT CASE WHEN NOT quiet THEN 'books_went_on' WHEN upid IN (SELECT upid FROM lossy) THEN 'books_lossy'
  ELSE 'books_in_use' END, count(*)
FROM book_opening WHERE moment = 'end' AND upid NOT IN (SELECT upid FROM compared) GROUP BY 1"""

# The most differences that the line names.
NAMED = 8


# Why no opening is in the books of the end that are there.
NOTHING = """SELECT CASE
  WHEN NOT EXISTS (SELECT 1 FROM process p WHERE p.met NOTNULL AND coalesce(p.ended > b.ts, 1))
  THEN 'all processes had ended before the copy'
  WHEN c.last_seq IS NULL OR EXISTS (SELECT 1 FROM side_time s WHERE s.seq < c.first_seq
    OR s.seq > c.last_seq AND s.seq <= b.from_seq) THEN 'the capture was cut'
  ELSE 'it is not certain which of the openings in them are those of the capture' END
FROM book b, raw_capture c WHERE b.moment = 'end' AND b.what = 'state'"""


def line_of(database: sqlite3.Connection) -> str | None:
    """Says that both agree, or where not, or why nothing is compared; None if there are no books of the end."""
    known = dict(database.execute("SELECT key, value FROM capture WHERE key GLOB 'books_*'"))
    left = known.get("books_left_out", 0)
    reasons = ", ".join(f"{known[key]} {why}" for key, why in REASONS.items() if key in known)
    if not known.get("books_compared"):
        nothing = database.execute(NOTHING).fetchone()
        if nothing is None:
            return None
        why = f"of {counted(left, 'opening')} it is not certain what was held then: {reasons}" if left else nothing[0]
        return f"The report is not compared with the driver's debugfs at the end: {why}."
    of = counted(known["books_compared"], "opening")
    more = f"; {counted(left, 'other')} cannot be compared: {reasons}" if left else ""
    rows = database.execute("SELECT who, what, report, books FROM disagreement JOIN who USING (upid)"
                            " ORDER BY disagreement.id").fetchall()
    if not rows:
        return f"The report agrees with the driver's debugfs at the end on {of}{more}."
    told = "; ".join(f"{who}: {what} {report} by the report and {books} by debugfs"
                     for who, what, report, books in rows[:NAMED])
    told += f"; and {len(rows) - NAMED} more" if len(rows) > NAMED else ""
    return f"The report differs from the driver's debugfs at the end on {of}: {told}{more}."
