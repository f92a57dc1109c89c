"""The clocks of a recording: the times of the side list are of CLOCK_MONOTONIC, and at some moments it says what others
showed."""

import bisect
import sqlite3
import time
from typing import NamedTuple


class Moment(NamedTuple):
    """One moment on three clocks. An old side list does not have CLOCK_BOOTTIME."""
    monotonic: int
    realtime: int
    boottime: int | None


def moments_of(database: sqlite3.Connection) -> list[Moment]:
    """The moments that the side list has, in their order: the beginning, each end of a sleep, each setting
    of the wall clock, and the end."""
    known = dict(database.execute("SELECT key, value FROM capture WHERE key IN ('begin_ts', 'realtime', 'boottime')"))
    first = [Moment(known["begin_ts"], known["realtime"], known.get("boottime"))] if "begin_ts" in known else []
    told = [Moment(*row) for row in database.execute("SELECT ts, realtime, boottime FROM side_clock")]
    return sorted(first + told, key=lambda moment: moment.monotonic)


class Clock:
    """How far another clock is ahead of CLOCK_MONOTONIC: from each moment on as far as it showed then."""

    def __init__(self, shown: list[tuple[int, int]]):
        self.is_known = bool(shown)
        self.since = [ns for ns, _ in shown[1:]]
        self.ahead = [other - ns for ns, other in shown] or [0]

    def of(self, ns: int) -> int:
        """A time of CLOCK_MONOTONIC on this clock; the same if that is not known."""
        return ns + self.ahead[bisect.bisect_right(self.since, ns)] if self.since else ns + self.ahead[0]

    def back(self, shown: int) -> int:
        """The time of CLOCK_MONOTONIC at which it showed this last; if it was set past this, when it was set."""
        times = [shown - ahead for ahead in self.ahead]
        at = next((at for at in range(len(self.since), 0, -1) if times[at] >= self.since[at - 1]), 0)
        return min([times[at], *self.since[at:at + 1]])


def boottime_of(moments: list[Moment]) -> Clock:
    """CLOCK_BOOTTIME, which is ahead by all the time that the system has slept."""
    return Clock([(moment.monotonic, moment.boottime) for moment in moments if moment.boottime is not None])


def wall_of(moments: list[Moment]) -> Clock:
    """The wall clock, in nanoseconds since 1970."""
    return Clock([(moment.monotonic, moment.realtime) for moment in moments])


SECOND = 10**9


class Times:
    """When something was, for a reader: seconds since the first frame, and the time of day in the zone of this system,
    or of TZ. Without a side list neither is known."""

    def __init__(self, database: sqlite3.Connection):
        known = dict(database.execute("SELECT key, value FROM capture WHERE key IN ('first_ts', 'until_ts')"))
        self.first: int | None = known.get("first_ts")
        self.until: int | None = known.get("until_ts")
        self.wall = wall_of(moments_of(database))

    def since(self, ts: int | None) -> str:
        """`2.288 s`; nothing if it is not known."""
        return "" if ts is None or self.first is None else f"{(ts - self.first) // 10**6 / 1000:.3f} s"

    def local(self, ts: int) -> time.struct_time:
        return time.localtime(self.wall.of(ts) // SECOND)

    def day(self, ts: int | None) -> str:
        """The day in the calendar."""
        return "" if ts is None or not self.wall.is_known else time.strftime("%Y-%m-%d", self.local(ts))

    def clock(self, ts: int | None) -> str:
        """The time of day, as logcat has it: `14:03:22.117`, and after midnight with the day."""
        if ts is None or not self.wall.is_known:
            return ""
        told = f"{time.strftime('%H:%M:%S', self.local(ts))}.{self.wall.of(ts) // 10**6 % 1000:03}"
        return told if self.day(ts) == self.day(self.first) else f"{self.day(ts)[5:]} {told}"

    def both(self, ts: int | None) -> str:
        """Both, as far as they are known."""
        return " ".join(filter(None, (self.since(ts), self.clock(ts))))

    @property
    def zone(self) -> str:
        """The zone of the times of day, as `CET` or `+0545`."""
        return "" if self.first is None or not self.wall.is_known else time.strftime("%Z", self.local(self.first))
