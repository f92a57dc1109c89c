"""The rows of which a timeline is made, in the order of the capture. walk.h has their columns."""

import operator
import re
import sqlite3
from typing import Iterator

# How many bytes of the capture are handed over at a time.
STRETCH = 2**18

# A place behind all others.
LAST_PLACE = 2**63 - 1

# A send, its call, its delivery if each names the other, the node that its handle leads to, and its stack.
SENDS = """
SELECT s.place, s.seq, x.ts, s.utid, r.code, r.data_size, r.handle, c.verdict, c.closer, s.refused, s.certain,
  s.fits, e.place, e.utid, e.seq, n.upid, n.certain, n.ptr, r.interface, k.stack
FROM raw_send s CROSS JOIN raw_record r ON r.place = s.place LEFT JOIN side_time x ON x.seq = s.seq
  LEFT JOIN raw_call c ON c.place = s.place LEFT JOIN raw_delivery e ON e.place = s.delivery AND e.send = s.place
  LEFT JOIN node_of n ON n.generation = s.generation LEFT JOIN side_call k ON k.seq = s.seq
ORDER BY s.place"""

# A delivery, its call, and its send if each names the other.
DELIVERIES = """
SELECT d.place, d.seq, x.ts, d.utid, r.kind, r.code, r.flags, r.data_size, r.ptr, r.cookie, r.sender_pid,
  d.freed_by, c.verdict, c.closer, p.place, p.utid, p.seq, p.certain, p.fits, r.interface
FROM raw_delivery d CROSS JOIN raw_record r ON r.place = d.place LEFT JOIN side_time x ON x.seq = d.seq
  LEFT JOIN raw_call c ON c.place = d.place LEFT JOIN raw_send p ON p.place = d.send AND p.delivery = d.place
ORDER BY d.place"""

# Other records that matter.
RECORDS = """
SELECT r.place, r.seq, x.ts, r.utid, r.kind, r.handle, r.cookie, r.value,
  iif(r.kind IN (:BR_DEAD_REPLY, :BR_FAILED_REPLY, :BR_FROZEN_REPLY),
    (SELECT q.place FROM raw_send q WHERE q.refused = r.place), NULL)
FROM raw_record r LEFT JOIN side_time x ON x.seq = r.seq
WHERE r.kind IN (:BC_FREE_BUFFER, :BC_ACQUIRE, :BC_RELEASE, :BR_ERROR, :BR_DEAD_REPLY, :BR_FAILED_REPLY,
  :BR_FROZEN_REPLY, :BR_DEAD_BINDER, :BR_FROZEN_BINDER, :BR_ONEWAY_SPAM_SUSPECT)
ORDER BY r.place"""

FINDINGS = """
SELECT f.place, f.seq, x.ts, f.utid, u.verdict, g.title, f.section, f.path, f.rule, u.text, f.note,
  coalesce(f.lead, f.id)
FROM finding f JOIN rule u ON u.id = f.rule JOIN finding_head h ON h.id = f.id JOIN finding_group g ON g.grp = h.grp
  LEFT JOIN side_time x ON x.seq = f.seq
WHERE f.utid NOTNULL AND f.place NOTNULL AND u.verdict <> 'normal' ORDER BY f.place, f.id"""

BY_PLACE = operator.itemgetter(0)


class Ahead:
    """Rows in the order of places, of which the next one is known."""

    def __init__(self, rows: Iterator[tuple]):
        self.rows = rows
        self.next = next(rows, None)

    def before(self, place: int) -> Iterator[tuple]:
        while self.next is not None and self.next[0] < place:
            yield self.next
            self.next = next(self.rows, None)


def statements(numbers: dict[str, int]) -> list[bytes]:
    """The statements for the rows of the walk, in the order of rows of one place."""
    def named(found: re.Match[str]) -> str:
        return str(numbers[found[1]])
    return [re.sub(":([A-Z_]+)", named, statement).encode() for statement in (SENDS, DELIVERIES, RECORDS)]


def finding_rows(database: sqlite3.Connection) -> Iterator[tuple]:
    """The findings at records, up to the last one."""
    last, = database.execute("SELECT coalesce(max(place), 0) FROM raw_record").fetchone()
    for row in database.execute(FINDINGS):
        if row[0] > last:
            return
        yield row
