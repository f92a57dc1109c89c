"""Whether a side list belongs to the capture. It must have a line for each frame of the capture, and a line for each
thread before the first frame of the thread.

A capture may be cut at either end, be some of the parts of a recording, or lack frames. So a side list that has more
frames than the capture only gives a doubt."""

import sqlite3
from typing import NamedTuple

from viewer.database.sqlite import path_of

OTHER = "the side list belongs to another capture"

# A list without its end may have been cut, and then says nothing of frames after its last number.
BEYOND = """SELECT min(seq) FROM raw_frame WHERE seq > :last"""

UNTOLD = """SELECT f.seq FROM raw_frame f LEFT JOIN side_time s USING (seq)
  WHERE s.seq IS NULL AND f.seq <= :last ORDER BY f.seq LIMIT 1"""

# A thread with a frame before the line that says what its number means, or without such a line.
STRANGER = """SELECT p.device, p.process, t.thread, t.first_seq FROM raw_thread t JOIN raw_process p USING (upid)
  LEFT JOIN side_thread s USING (device, process, thread)
  WHERE t.first_seq <= :last AND (s.from_seq IS NULL OR t.first_seq < s.from_seq) ORDER BY t.first_seq LIMIT 1"""

MORE = """SELECT count(*) FILTER (WHERE s.seq < c.first_seq),
    count(*) FILTER (WHERE s.seq BETWEEN c.first_seq AND c.last_seq) - c.frames,
    count(*) FILTER (WHERE c.last_seq IS NULL OR s.seq > c.last_seq)
  FROM raw_capture c, side_time s"""

# The same of packed tables, by the keys in their files (packed_keys.c). MORE is asked where each frame is told.
UNTOLD_IN_FILES = """SELECT seq FROM (SELECT first_only_in(:frames, :times) AS seq) WHERE seq <= :last"""

MORE_IN_FILES = f"""SELECT rows_up_to(:times, first_seq) - 1,
    rows_up_to(:times, last_seq) - rows_up_to(:times, first_seq) + 1 - frames,
    rows_up_to(:times, {2**63 - 1}) - ifnull(rows_up_to(:times, last_seq), 0)
  FROM raw_capture"""


class Looks(NamedTuple):
    """The statements by their names, those of them that look at all frames, or at all times, and their values."""
    text: dict[str, str]
    long: tuple[str, ...]
    values: dict[str, object]


def looks_of(database: sqlite3.Connection, last: int) -> Looks:
    """The looks at a side list with this last number."""
    packed, = database.execute("SELECT count(*) FROM sqlite_schema WHERE name IN ('raw_frame', 'side_time')"
                               " AND sql LIKE 'CREATE VIRTUAL %'").fetchone()
    if packed < 2:
        return Looks({"untold": UNTOLD, "more": MORE}, ("untold", "more"), {"last": last})
    path = path_of(database)
    return Looks({"untold": UNTOLD_IN_FILES, "more": MORE_IN_FILES}, ("untold",),
                 {"last": last, "frames": f"{path}.raw_frame", "times": f"{path}.side_time"})


def why_other(database: sqlite3.Connection, last: int, ended: bool, untold: tuple | None) -> str | None:
    """Why a side list with this last number can't belong to the capture; None if it can. `ended`: the list has its
    end; `untold`: the row of UNTOLD."""
    def first(query: str) -> tuple | None:
        return database.execute(query, {"last": last}).fetchone()
    beyond, = first(BEYOND) or (None,)
    if ended and beyond is not None:
        return f"{OTHER}: it ends with frame {last:,}, and the capture has frame {beyond:,}"
    if untold:
        return f"{OTHER}: it does not have frame {untold[0]:,} of the capture"
    if stranger := first(STRANGER):
        device, process, thread, seq = stranger
        return (f"{OTHER}: thread {thread} of process {process} on device {device} makes a call in frame {seq:,} of the"
                " capture, and the list has not named that thread by then")
    return None


def doubt(database: sqlite3.Connection, last: int, more: tuple) -> str | None:
    """In what the side list and the capture differ, if the list may still belong to the capture; `more`: the row of
    MORE."""
    beyond, = database.execute(BEYOND, {"last": last}).fetchone()
    if beyond is not None:
        return (f"the side list ends with frame {last:,}, before the capture does: it was cut, or belongs to another"
                " capture")
    before, within, after = more
    told = [f"{count:,} {where}" for count, where in
            ((before, "before the first"), (within, "between"), (after, "after the last")) if count]
    if not told:
        return None
    return (f"the side list has frames that are not in the capture, {', '.join(told)}: the capture is only a part of"
            " the recording, or the list belongs to another one")
