"""Which call `--call` asks for: that at a place, or the longest one of a process at a moment."""

import argparse
import re
import sqlite3
from typing import NamedTuple

from viewer.clocks import SECOND
from viewer.files import Stopped
from viewer.processes_asked import processes_of
from viewer.window import OfDay, Recording, Since, moment

# The calls that threads of a process made, and that were open in a time, the longest first.
LONGEST = """
SELECT c.place FROM raw_thread t JOIN raw_call c ON c.utid = t.utid JOIN side_time x ON x.seq = c.seq
  LEFT JOIN side_time z ON z.seq = c.seq + c.dur_seq
WHERE t.upid = ? AND NOT c.served AND x.ts < :end AND coalesce(z.ts, :until) >= :begin
ORDER BY coalesce(z.ts, :until) - x.ts DESC, c.place LIMIT 1
"""


class Moment(NamedTuple):
    """A moment as it was given, which stands for a time that is as long as its last digit says, and a process."""
    begin: Since | OfDay
    length: int
    process: str


def precision(word: str) -> int:
    """How long the time is that a word means: 14:03 a minute, 14:03:17 a second, 14:03:17.2 a tenth."""
    if digits := re.search(r"\.(\d+) ?s?$", word):
        return SECOND // 10 ** len(digits[1])
    return 60 * SECOND if re.search(r"(?<![:\d])\d\d:\d\d$", word) else SECOND


def call(word: str) -> int | Moment:
    """A place, or a moment and a process: `14:03:17.2 com.example.app`."""
    if re.fullmatch("[0-9]{1,18}", word):
        return int(word)
    for space in reversed([found.start() for found in re.finditer(" ", word)]):
        try:
            return Moment(moment(word[:space]), precision(word[:space]), word[space + 1:])
        except argparse.ArgumentTypeError:
            continue
    raise argparse.ArgumentTypeError(f"{word!r} is no place of a call, and no moment and process, as '14:03:17.2"
                                     " com.example.app'")


def place_of(database: sqlite3.Connection, asked: int | Moment) -> int:
    """The place of the call that is asked for."""
    if isinstance(asked, Moment):
        return longest_at(database, asked)
    found = database.execute("SELECT c.place, d.send FROM raw_call c LEFT JOIN raw_delivery d ON c.served AND"
                             " d.place = c.place WHERE c.place = ?", (asked,)).fetchone()
    if found is None:
        raise Stopped(1, f"--call: no call begins at {asked}")
    if found[1] is None and database.execute("SELECT served FROM raw_call WHERE place = ?", (asked,)).fetchone()[0]:
        raise Stopped(1, f"--call: of the call that is served at {asked} the send is not known")
    return found[1] or found[0]


def longest_at(database: sqlite3.Connection, asked: Moment) -> int:
    first, last = database.execute("SELECT first_seq, last_seq FROM raw_capture").fetchone()
    recording = Recording(database, first, last)
    times = recording.times
    if times.first is None or times.until is None:
        raise Stopped(1, "--call: a moment takes the times of a side list, and there are none")
    begin = recording.nearest(asked.begin, times.first, times.until)
    found = [place for upid in processes_of(database, asked.process, "--call") for place, in database.execute(
        LONGEST.replace("?", str(int(upid))), {"begin": begin, "end": begin + asked.length, "until": times.until})]
    if not found:
        raise Stopped(1, f"--call: {asked.process} made no call at {times.both(begin)}")
    return max(found, key=lambda place: lasted(database, place, times.until or 0))


def lasted(database: sqlite3.Connection, place: int, until: int) -> int:
    return database.execute("SELECT coalesce(z.ts, ?) - x.ts FROM raw_call c JOIN side_time x ON x.seq = c.seq"
                            " LEFT JOIN side_time z ON z.seq = c.seq + c.dur_seq WHERE c.place = ?",
                            (until, place)).fetchone()[0]
