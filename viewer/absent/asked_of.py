"""Of whom and of when `--absent` asks."""

import sqlite3
from typing import NamedTuple

from viewer.files import Stopped
from viewer.processes_asked import as_name
from viewer.terminal import shown
from viewer.window import OfDay, Recording, Since, Window

# The words of `--between`.
Between = tuple[Since | OfDay, Since | OfDay]


class Opening(NamedTuple):
    """A process on a device, as frames number it, and how and when the recorder met it. If all of its frames were lost
    it has no upid."""
    device: int
    process: int
    upid: int | None
    who: str
    met: str | None
    since: int | None


# The processes that a word means: by a number, by the whole name, or else by a part of it. One without a frame counts.
OPENINGS = """WITH opening AS (
  SELECT s.device, s.process, p.upid, coalesce(w.who, coalesce(nullif(s.name, '') || ' ', '') || s.process) AS who,
    s.name, s.pid, s.met, s.opened AS since
  FROM side_process s LEFT JOIN raw_process p USING (device, process) LEFT JOIN who w USING (upid)
  UNION ALL
  SELECT p.device, p.process, p.upid, w.who, NULL, NULL, NULL, NULL FROM raw_process p JOIN who w USING (upid)
  WHERE NOT EXISTS (SELECT 1 FROM side_process s WHERE (s.device, s.process) = (p.device, p.process)))
SELECT device, process, upid, who, met, since FROM opening WHERE """
BY_NUMBER, BY_NAME, BY_PART = "? IN (CAST(process AS TEXT), CAST(pid AS TEXT))", "? IN (name, who)", "instr(name, ?)"


def openings_of(database: sqlite3.Connection, word: str) -> list[Opening]:
    word = as_name(word)
    for means in (BY_NUMBER,) if word.isascii() and word.isdigit() else (BY_NAME, BY_PART):
        if found := list(map(Opening._make, database.execute(OPENINGS + means, (word,)))):
            return found
    raise Stopped(1, f"--process: the capture has no process {shown(word)}")


class Moments(NamedTuple):
    """A time as it was asked for; None is the beginning, or the end, of what was recorded."""
    begin: int | None
    end: int | None


class Span(NamedTuple):
    """The numbers that the frames of a time may have, and the time."""
    first: int
    last: int
    asked: Moments


# The first and the last number of a recording, lost ones included. A recorder begins with 1; what a flight recorder has
# removed is not there any more.
NUMBERS = """SELECT iif(:from_start, 1, first_seq), max(last_seq, coalesce((SELECT max(seq) FROM side_lost), last_seq))
  FROM raw_capture"""
# The numbers next to some frames.
BEFORE = "SELECT max(seq) + 1 FROM raw_frame WHERE seq < ?"
AFTER = "SELECT min(seq) - 1 FROM raw_frame WHERE seq > ?"


def span_of(database: sqlite3.Connection, window: Window | None = None, between: Between | None = None) -> Span:
    """All of a recording, or a window, which is no longer than the recording though `between` may be. A lost frame that
    lies next to a frame of the window may belong to it."""
    facts = dict(database.execute("SELECT key, value FROM capture WHERE key IN ('side_list', 'first_file')"))
    from_start = bool(facts.get("side_list")) and facts.get("first_file", 1) == 1
    first, last = numbers = database.execute(NUMBERS, {"from_start": from_start}).fetchone()
    if first is None or last is None:  # no frames
        return Span(1, 0, Moments(None, None))
    if window is None:
        return Span(first, last, Moments(None, None))
    (before,), (after,) = (database.execute(query, (number,)).fetchone()
                           for query, number in ((BEFORE, window.first), (AFTER, window.last)))
    return Span(first if before is None else before, last if after is None else after,
                Moments(window.begin, window.end) if between is None else
                Moments(*Recording(database, *numbers).moments(*between)))
