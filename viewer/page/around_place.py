"""What a thread did around a place, its lane on the page: a line for each record, with the calls drawn as brackets."""

import sqlite3
from typing import Iterator, NamedTuple

from viewer.clocks import Times
from viewer.database.sqlite import FRAME_HEADER
from viewer.page.capture import Capture
from viewer.rules.names import Names

# At most RECORDS records before the place, and as many after it, within FRAMES frames of all threads; of each frame at
# most BYTES bytes are looked at.
RECORDS, FRAMES, BYTES = 6, 20_000, 4000

# What says least.
LEFT_OUT = "('BR_TRANSACTION_COMPLETE', 'BR_NOOP')"


class Line(NamedTuple):
    place: int
    seq: int
    ts: int | None
    text: str


def fields_of(names: Names, kind: str, oneway: int | None, handle: int | None, code: int | None, size: int | None,
              address: int | None, cookie: int | None, value: int | None, interface: int | None, to: int | None,
              ptr: int | None) -> str:
    called = None if kind.endswith("_REPLY") else code
    told = [kind, "oneway"] if oneway and called is not None else [kind]
    told += [f"{name}={value}" for name, value in (("handle", handle), ("code", called))
             if value is not None]
    if called is not None and names.named(called, None, None, interface):
        told += [names.field(called, interface)]
    told += [f"service={names.services[to, ptr]}"] if (to, ptr) in names.services else []
    told += [f"data_size={size}"] if size is not None else []
    told += [f"{name}=0x{value % 2**64:x}" for name, value in (("address", address), ("cookie", cookie)) if value]
    told += [f"is_frozen={value}"] if kind == "BR_FROZEN_BINDER" else []
    return " ".join(told)


# The last two say to which object something is sent, or has come.
FIELDS = ("SELECT r.place, r.seq, (SELECT x.ts FROM side_time x WHERE x.seq = r.seq), k.name,"
          " r.flags & (SELECT number FROM flag WHERE name = 'TF_ONE_WAY'), r.handle, r.code, r.data_size, r.address,"
          " r.cookie, r.value, r.interface,"
          + ",".join(f" coalesce((SELECT v.{key} FROM sent_to v WHERE v.place = r.place),"
                     f" (SELECT v.{key} FROM came_to v WHERE v.place = r.place))" for key in ("upid", "ptr")))
WANTED = f"JOIN kind k ON k.number = r.kind WHERE k.name NOT IN {LEFT_OUT} ORDER BY r.place"
OF_THREAD = (f"FROM (SELECT place + {FRAME_HEADER} AS first, place + {FRAME_HEADER} + command_length - 1 AS last"
             " FROM raw_frame WHERE utid = :utid AND records > 0 AND seq BETWEEN")
ITS_SEQ = "(SELECT seq FROM raw_record WHERE place = :place)"
BEFORE = (f"{FIELDS} {OF_THREAD} {ITS_SEQ} - {FRAMES} AND {ITS_SEQ} ORDER BY seq DESC LIMIT :count) f"
          " JOIN raw_record r ON r.place"
          f" BETWEEN max(f.first, min(f.last, :place) - :bytes) AND min(f.last, :place) {WANTED} DESC LIMIT :count")
AFTER = (f"{FIELDS} {OF_THREAD} {ITS_SEQ} AND {ITS_SEQ} + {FRAMES} ORDER BY seq LIMIT :count) f"
         " JOIN raw_record r ON r.place"
         f" BETWEEN max(f.first, :place + 1) AND min(f.last, max(f.first, :place) + :bytes) {WANTED} LIMIT :count")


def records(database: sqlite3.Connection, names: Names, query: str, utid: int, place: int, count: int) -> list[Line]:
    """The records of a thread before a place or after it, in the order of the file."""
    rows = database.execute(query, {"utid": utid, "place": place, "bytes": BYTES, "count": count})
    return sorted(Line(row[0], row[1], row[2], fields_of(names, *row[3:])) for row in rows)


def open_calls(database: sqlite3.Connection, utid: int, place: int) -> list[int]:
    """The closers of the calls that a thread has open before a place, the outermost first; 2^63 for a call without
    one."""
    row = database.execute("SELECT place, closer, parent FROM raw_call WHERE utid = ? AND place < ?"
                           " ORDER BY place DESC LIMIT 1", (utid, place)).fetchone()
    found = []
    while row is not None:
        if row[1] is None or row[1] >= place:
            found.append(2**63 if row[1] is None else row[1])
        row = database.execute("SELECT place, closer, parent FROM raw_call WHERE place = ?", (row[2],)).fetchone()
    return found[::-1]


def moment_of(times: Times, ts: int | None) -> str:
    """When a line was, in columns; nothing if the capture has no times."""
    since = f" {times.since(ts):>10}" if times.first is not None else ""
    return since + (f"  {times.clock(ts):>12}" if times.zone else "")


def lane_of(capture: Capture, utid: int, place: int) -> Iterator[tuple[str, bool]]:
    """The lines of a lane, each with whether it is that of the place."""
    database, names, times = capture.database, capture.names, capture.times
    lines = (records(database, names, BEFORE, utid, place, RECORDS + 1)
             + records(database, names, AFTER, utid, place, RECORDS))
    if not lines:
        return
    openers = dict(database.execute("SELECT place, coalesce(closer, 9223372036854775807) FROM raw_call"
                                    " WHERE utid = ? AND place BETWEEN ? AND ?",
                                    (utid, lines[0].place, lines[-1].place)))
    stack = open_calls(database, utid, lines[0].place)
    at = f" {'at':>10}" if times.first is not None else ""
    yield f"{'place':>10} {'seq':>8}{at}" + (f"  {times.zone:>12}" if times.zone else ""), False
    for line in lines:
        while stack and stack[-1] < line.place:
            stack.pop()
        bars = "│ " * len(stack)
        if line.place in openers:
            bars += "┌ "
            stack.append(openers[line.place])
        elif stack and stack[-1] == line.place:
            stack.pop()
            bars = "│ " * len(stack) + "└ "
        yield f"{line.place:>10} {line.seq:>8}{moment_of(times, line.ts)}  {bars}{line.text}", line.place == place
