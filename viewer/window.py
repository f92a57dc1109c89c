"""The frames of a time: what --last, --between and --around ask for."""

import argparse
import contextlib
import datetime
import re
import sqlite3
from typing import Any, Callable, Iterator, NamedTuple

from viewer.clocks import SECOND, Times
from viewer.files import Stopped

# To either side of the place of --around: so long or, without times, so many frames.
AROUND, FRAMES_AROUND = SECOND, 100

UNITS = {"ms": SECOND // 1000, "s": SECOND, "m": 60 * SECOND, "h": 3600 * SECOND}
# The longest time that counts, in nanoseconds: 146 years, so that SQLite has each sum with a time of a recording.
LONGEST = 2**62
LENGTH = r"(\d{1,9})(?:\.(\d{1,9}))?(ms|s|m|h)"
# The years of which Python knows each moment in all zones: an earlier or a later year is taken for the nearest of them.
FIRST_YEAR, LAST_YEAR = 1900, 9998
SINCE = r"\+(\d{1,9})(?:\.(\d{1,9}))? ?s?"
OF_DAY = r"(?:(?:(\d{4})-)?(\d\d)-(\d\d)[ T])?(\d\d):(\d\d)(?::(\d\d)(?:\.(\d{1,9}))?)?"


def fraction(digits: str | None, unit: int) -> int:
    return int((digits or "0").ljust(9, "0")) * unit // SECOND


def length(word: str) -> int:
    """A length of time in nanoseconds: `5s`, `500ms`, `1.5m`."""
    found = re.fullmatch(LENGTH, word, re.ASCII)
    if not found:
        raise argparse.ArgumentTypeError(f"{word!r} is no length of time, as 5s, 500ms or 2m")
    unit = UNITS[found[3]]
    return min(int(found[1]) * unit + fraction(found[2], unit), LONGEST)


class Since(NamedTuple):
    """A moment, in nanoseconds since the first frame."""
    ns: int


class OfDay(NamedTuple):
    """A moment by the wall clock. It may have no day, or no year."""
    year: int | None
    month: int | None
    day: int | None
    time: datetime.time
    ns: int

    def possible(self, days: list[datetime.date]) -> Iterator[int]:
        """When it may be, in nanoseconds since 1970, if the recording has these days."""
        for day in days:
            with contextlib.suppress(ValueError, OverflowError):  # of the 29th of February, or no such day
                year = min(max(self.year or day.year, FIRST_YEAR), LAST_YEAR)
                on = day.replace(year, self.month or day.month, self.day or day.day)
                yield int(datetime.datetime.combine(on, self.time).timestamp()) * SECOND + self.ns


def moment(word: str) -> Since | OfDay:
    """`14:03:22.117`, the same with a day in front, as logcat has it, or `+2.288` seconds since the first frame."""
    if found := re.fullmatch(SINCE, word, re.ASCII):
        return Since(int(found[1]) * SECOND + fraction(found[2], SECOND))
    if found := re.fullmatch(OF_DAY, word, re.ASCII):
        year, month, day = (int(it) if it else None for it in found.groups()[:3])
        with contextlib.suppress(ValueError):
            time = datetime.time(int(found[4]), int(found[5]), int(found[6] or 0))
            return OfDay(year, month, day, time, fraction(found[7], SECOND))
    raise argparse.ArgumentTypeError(f"{word!r} is no moment, as 14:03:22, '11-28 14:03:22.117' or +2.288")


def place(word: str) -> int:
    if not re.fullmatch("[0-9]{1,18}", word):
        raise argparse.ArgumentTypeError(f"{word!r} is no place in a capture")
    return int(word)


# How the values of the options are read.
READ_BY: dict[str, Callable[[str], Any]] = {"--last": length, "--between": moment, "--around": place}


class Asked(NamedTuple):
    """What one of the options is given, and None of the others."""
    last: Any = None
    between: Any = None
    around: Any = None


class Window(NamedTuple):
    """The frames from `first` to `last`, of which there may be none, and the times from `begin` to `end`; without times
    both are None. `upids`: the processes, if only some are asked for; then `is_timed` says whether a time is, too."""
    first: int
    last: int
    begin: int | None
    end: int | None
    upids: tuple[int, ...] | None = None
    is_timed: bool = True

    def values(self) -> tuple[int | None, int | None, int | None, str | None]:
        """What queries take of it: the first and the last frame, when that begins, and the processes as JSON. What is
        not narrowed is None."""
        time = self[:3] if self.is_timed else (None, None, None)
        return *time, None if self.upids is None else f"[{', '.join(map(str, self.upids))}]"


# The values of no window.
WHOLE = (None, None, None, None)


class Recording:
    """The frames of a recording, with their times if there are any. Numbers of frames are as SQLite has them."""

    def __init__(self, database: sqlite3.Connection, first: int | None, last: int | None):
        self.database = database
        self.first, self.last = first or 0, last or 0
        self.times = Times(database)

    def window(self, asked: argparse.Namespace | Asked, frame_at: Callable[[int], int]) -> Window:
        """What is asked for. `frame_at` finds the number of the frame that has a place."""
        if asked.around is not None:
            return self.around(frame_at(asked.around))
        name = "--last" if asked.between is None else "--between"
        if self.times.first is None or self.times.until is None:
            raise Stopped(1, f"{name} takes the times of a side list, and there are none")
        begin, end = (self.times.until - asked.last, self.times.until) if asked.between is None else \
            self.moments(*asked.between)
        if end < self.times.first or begin > self.times.until:
            raise Stopped(1, f"{name}: the recording goes from {self.times.both(self.times.first)} to"
                             f" {self.times.both(self.times.until)}")
        return self.between(begin, end)

    def around(self, seq: int) -> Window:
        """What is near to a frame."""
        found = self.database.execute("SELECT ts FROM side_time WHERE seq = ?", (seq,)).fetchone()
        if found is None:
            return Window(max(seq - FRAMES_AROUND, self.first), min(seq + FRAMES_AROUND, self.last), None, None)
        return self.between(found[0] - AROUND, found[0] + AROUND)

    def between(self, begin: int, end: int) -> Window:
        """The frames of these times. The window is no longer than the recording, or than its frames if those are."""
        within = (self.first, self.last)
        times = self.database.execute("SELECT min(ts), max(ts) FROM side_time WHERE seq BETWEEN ? AND ?",
                                      within).fetchone()
        known = [ts for ts in (*times, self.times.first, self.times.until) if ts is not None]
        begin, end = max(begin, min(known)), min(end, max(known))
        first, = self.database.execute("SELECT min(seq) FROM side_time WHERE ts >= ? AND seq BETWEEN ? AND ?",
                                       (begin, *within)).fetchone()
        last, = self.database.execute("SELECT max(seq) FROM side_time WHERE ts <= ? AND seq BETWEEN ? AND ?",
                                      (end, *within)).fetchone()
        return Window(self.last + 1 if first is None else first, self.first - 1 if last is None else last, begin, end)

    def moments(self, begin: Since | OfDay, end: Since | OfDay) -> tuple[int, int]:
        """When --between begins and ends. What has no day is on the day on which it is in the recording."""
        first, until = self.times.first or 0, self.times.until or 0
        begins = self.nearest(begin, first, until)
        ends = self.nearest(end, max(begins, first), until)
        if ends < begins:
            raise Stopped(1, "--between: the end is before the beginning")
        return begins, ends

    def nearest(self, moment: Since | OfDay, first: int, until: int) -> int:
        """The time of a moment that is within these times, or else nearest to them."""
        if isinstance(moment, Since):
            return moment.ns + (self.times.first or 0)
        if not self.times.wall.is_known:
            raise Stopped(1, "the side list does not say what the wall clock showed: give seconds, as +2.288")
        times = [self.times.wall.back(ns) for ns in moment.possible(self.days(first, until))]
        if not times:
            raise Stopped(1, "--between names a day that is not in the calendar")
        return min(times, key=lambda ts: max(first - ts, ts - until, 0))

    def days(self, first: int, until: int) -> list[datetime.date]:
        """The days of the recording: the first and the last ones, if it was very long."""
        begin, end = (datetime.date(*self.times.local(ts)[:3]) for ts in (first, until))
        count = min((end - begin).days, 400)
        return [begin + datetime.timedelta(at) for at in range(count + 1)] + [end]
