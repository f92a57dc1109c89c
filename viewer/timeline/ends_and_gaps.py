"""What a timeline shows that is not a record: ends of threads and processes, and frames that are missing."""

import sqlite3
from typing import Iterator, NamedTuple

from viewer.timeline.tracks import Tracks

# A place after all others.
LAST = 2**64

# The place of the first frame after one.
NEXT_FRAME = "coalesce((SELECT f.place FROM raw_frame f WHERE f.seq > {} ORDER BY f.seq LIMIT 1), 9223372036854775807)"


class Mark(NamedTuple):
    """What is not a record: the end of something, or something that is missing. It comes after the frame `seq`; what
    `threads` are in ends there, and so does all that `processes` hold."""
    seq: int
    ts: int | None
    name: str
    category: str
    fields: dict[str, object]
    utid: int | None = None
    upid: int | None = None
    threads: tuple[int, ...] = ()
    processes: tuple[int, ...] = ()


# A place before which a mark comes, and the mark.
Row = tuple[int, Mark]


def ends_of(database: sqlite3.Connection, tracks: Tracks) -> list[Row]:
    """The ends of threads and processes up to the last frame. What has ended has no later frame."""
    found: list[Row] = []
    after = f"max(t.ended_after, t.last_seq) AS after, {NEXT_FRAME.format('max(t.ended_after, t.last_seq)')}"
    for utid, why, seq, place, ts in database.execute(
            f"SELECT t.utid, t.why, {after}, t.ended FROM thread t, raw_capture c WHERE t.ended_after <= c.last_seq"):
        found.append((place, Mark(seq, ts, "thread ended", "end", {"after": seq, "why": why}, utid=utid,
                                  threads=(utid,))))
    of: dict[int, list[int]] = {}
    for utid, upid in tracks.upid_of.items():
        of.setdefault(upid, []).append(utid)
    for upid, seq, place, ts in database.execute(
            f"SELECT t.upid, {after}, t.ended FROM process t, raw_capture c WHERE t.ended_after <= c.last_seq"):
        found.append((place, Mark(seq, ts, "process ended", "end", {"after": seq}, upid=upid,
                                  threads=tuple(of.get(upid, ())), processes=(upid,))))
    return sorted(found, key=lambda row: (row[0], row[1].seq, len(row[1].processes)))


def lost_of(database: sqlite3.Connection, tracks: Tracks) -> Iterator[Row]:
    """The frames that the recorder lost, as the side list tells."""
    threads = {(row.device, row.process, row.thread): row.utid for row in tracks.threads}
    processes = {(row.device, row.process): row.upid for row in tracks.processes}
    for seq, device, process, thread, why, place in database.execute(
            f"SELECT l.seq, l.device, l.process, l.thread, l.why, {NEXT_FRAME.format('l.seq')} FROM side_lost l,"
            " raw_capture c WHERE l.seq BETWEEN c.first_seq AND c.last_seq ORDER BY l.seq"):
        utid, upid = threads.get((device, process, thread)), processes.get((device, process))
        yield place, Mark(seq, None, "lost frame", "lost", {"seq": seq, "why": why}, utid=utid, upid=upid)


def missed_of(database: sqlite3.Connection) -> Iterator[Row]:
    """What the recorder missed without giving it a number."""
    for what, count, first, after, ts, place in database.execute(
            f"SELECT m.what, m.count, m.from_seq, m.after, m.ts, {NEXT_FRAME.format('m.after')} FROM side_missed m,"
            " raw_capture c WHERE m.after >= c.first_seq - 1 AND m.from_seq <= c.last_seq ORDER BY m.after, m.id"):
        yield place, Mark(after, ts, "missed", "lost", {"what": what, "count": count, "from": first,
                                                        "after": after})


# The frames after a number that no frame has, each with the number of the frame before. A number of 2**63 or more is
# stored less 2**64. Looking each number up takes a tenth of the time in which the frames are sorted.
AFTER_GAPS = """
SELECT g.place, g.before, g.seq, (SELECT count(*) FROM side_lost l WHERE l.seq > g.before AND l.seq < g.seq)
FROM (SELECT f.place, f.seq, coalesce((SELECT max(b.seq) FROM raw_frame b WHERE b.seq < f.seq AND (b.seq < 0) =
    (f.seq < 0)), iif(f.seq < 0, (SELECT max(b.seq) FROM raw_frame b WHERE b.seq >= 0), NULL)) AS before
  FROM raw_frame f WHERE NOT EXISTS (SELECT 1 FROM raw_frame p WHERE p.seq = f.seq - 1)) g
WHERE g.before NOTNULL ORDER BY g.place"""


def gaps_of(database: sqlite3.Connection) -> Iterator[Row]:
    """Numbers that no frame has and of which the side list says nothing."""
    missing, lost = database.execute("SELECT missing, (SELECT count(*) FROM side_lost WHERE seq BETWEEN first_seq AND"
                                     " last_seq) FROM raw_capture").fetchone()
    if missing % 2**64 == lost:
        return
    for place, before, seq, told in database.execute(AFTER_GAPS):
        count = (seq - before - 1) % 2**64 - told
        if count:
            yield place, Mark(before, None, "missing frames", "lost", {"after": before % 2**64, "count": count})
