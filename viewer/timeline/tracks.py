"""What a timeline is drawn on: what is asked for of it, its axis, and the threads and processes that have tracks."""

import sqlite3
from typing import NamedTuple

from viewer.clocks import boottime_of, moments_of

# A double has whole numbers up to here.
EXACT = 2**53

# What is counted of frames, and told of an axis with times.
OF_AXIS = "frames_without_time", "frames_with_earlier_time"


class Window(NamedTuple):
    """What is asked for: processes, by a word and by their upids; a thread number; and the first and the last frame."""
    process: str | None = None
    upids: tuple[int, ...] | None = None
    thread: int | None = None
    first: int | None = None
    last: int | None = None

    def has(self, seq: int | None) -> bool:
        return seq is not None and (self.first is None or seq % 2**64 >= self.first) and not self.is_past(seq)

    def is_past(self, seq: int) -> bool:
        return self.last is not None and seq % 2**64 > self.last

    def is_whole(self) -> bool:
        return self.first is None and self.last is None

    def begins_within(self, last: int | None) -> bool:
        """Whether it has a frame of a capture that ends with this one."""
        return last is not None and (self.first is None or last % 2**64 >= self.first)

    def facts(self) -> dict[str, int | str]:
        named = (("--process", self.process), ("--thread", self.thread), ("--from", self.first), ("--to", self.last))
        return {name: value for name, value in named if value is not None}


class Axis:
    """Where in a timeline a frame is, in nanoseconds: at its time on CLOCK_MONOTONIC, or if no frame has a time, at a
    microsecond for each number. A frame without a time is where the one before it is. On a track times never go back;
    those of two threads may, by what a recorder of several processors was late. `ns` is where the walk begins."""

    def __init__(self, database: sqlite3.Connection, window: Window):
        first, self.last = database.execute("SELECT first_seq, last_seq FROM raw_capture").fetchone()
        earliest = database.execute("SELECT x.ts FROM side_time x JOIN raw_frame f USING (seq) ORDER BY x.seq LIMIT 1"
                                    ).fetchone()
        self.timed = earliest is not None
        self.moments = moments_of(database) if self.timed else []
        self.boottime = boottime_of(self.moments)
        end = 0 if self.last is None else self.last % 2**64
        self.base = 0 if end < EXACT // 1000 else first % 2**64
        self.ns = earliest[0] if earliest is not None else 0
        self.is_cut = window.last is not None and window.last < end
        self.end = self.end_of(database, end, window.last if window.last is not None and self.is_cut else None)

    def end_of(self, database: sqlite3.Connection, last: int, cut: int | None) -> int:
        """Where what is open at the end ends: at the end of the recording, or at the first frame past the window."""
        if not self.timed:
            return 1000 * ((last if cut is None else cut) + 1 - self.base)
        if cut is None:
            row = database.execute("SELECT value FROM capture WHERE key = 'until_ts'").fetchone()
        else:
            row = database.execute("SELECT ts FROM side_time WHERE seq > ? ORDER BY seq LIMIT 1", (cut,)).fetchone()
        return row[0] or 0 if row is not None else 0

    def facts(self, clock: str, counts: dict[str, int]) -> dict[str, object]:
        """What the timeline says of the axis, by what was counted."""
        if self.timed:
            return {"axis": clock, **{name: counts[name] for name in OF_AXIS}}
        return {"axis": "the number of the frame: one microsecond is one frame, and times are not known",
                "frame_at_zero": self.base}


class ProcessRow(NamedTuple):
    """A process of the capture, of one device."""
    upid: int
    device: int
    device_name: str
    process: int
    pid: int | None
    name: str | None
    opened: int | None
    ended: int | None


class ThreadRow(NamedTuple):
    """A thread of such a process."""
    utid: int
    upid: int
    device: int
    process: int
    thread: int
    tid: int | None
    name: str | None
    ended: int | None
    why: str | None


class Tracks:
    """The processes and threads of the capture, and which are shown."""

    def __init__(self, database: sqlite3.Connection, window: Window):
        self.several = database.execute("SELECT count(*) FROM device").fetchone()[0] > 1
        self.certain = dict(database.execute("SELECT upid, who FROM who"))
        self.uncertain = {upid: f"{who}, not certain" for upid, who in self.certain.items()}
        self.processes = [ProcessRow(*row) for row in database.execute(
            "SELECT p.upid, p.device, coalesce(d.name, 'device ' || p.device), p.process, p.pid, p.name, p.opened,"
            " p.ended FROM process p JOIN device d USING (device) ORDER BY p.upid")]
        self.threads = [ThreadRow(*row) for row in database.execute(
            "SELECT utid, upid, device, process, thread, tid, name, ended, why FROM thread ORDER BY utid")]
        self.upid_of = {row.utid: row.upid for row in self.threads}
        self.shown = {row.utid for row in self.threads
                      if (window.upids is None or row.upid in window.upids) and window.thread in (None, row.thread)}
        # The first thread that is shown of each process.
        self.first_of: dict[int, int] = {}
        for row in self.threads:
            if row.utid in self.shown:
                self.first_of.setdefault(row.upid, row.utid)
        self.ended = dict(database.execute("SELECT upid, ended FROM process, raw_capture c"
                                           " WHERE ended_after <= c.last_seq AND ended NOTNULL"))

    def who(self, upid: int, certain: int | None) -> str:
        return self.certain[upid] if certain else self.uncertain[upid]
