"""Whether a call is missing from a time: the calls that are in the capture, and all on which it rests that no other one
was made then."""

import functools
import sqlite3
from typing import Iterator, NamedTuple

from viewer.absent.called import Meant
from viewer.absent.asked_of import Opening, Span
from viewer.clocks import Times
from viewer.units import counted

# On what a condition rests: `proved` is what PROMISES says of report and tables, `bytes` what else the capture
# has, `side list` what the recorder says.
PROVED, BYTES, SIDE = "proved", "bytes", "side list"


class Condition(NamedTuple):
    """What must hold so that a call that the capture lacks was not made, whether it holds, and on what that rests."""
    rests_on: str
    holds: bool
    text: str


# Transactions that were sent in some frames, with the interface that their data name.
SENT = """SELECT r.place, r.seq, t.upid, i.name, r.code
  FROM raw_record r JOIN raw_thread t USING (utid) LEFT JOIN raw_interface i ON i.id = r.interface
  WHERE r.seq BETWEEN ? AND ?
    AND r.kind IN (SELECT number FROM kind WHERE name IN ('BC_TRANSACTION', 'BC_TRANSACTION_SG'))
  ORDER BY r.place"""

# How many transactions the whole capture has, by the report and by the tables.
COUNTED = """SELECT
  (SELECT coalesce(sum(count), 0) FROM report
    WHERE section = 'codes' AND name IN ('BC_TRANSACTION', 'BC_TRANSACTION_SG')),
  (SELECT count(*) FROM raw_record WHERE kind IN
    (SELECT number FROM kind WHERE name IN ('BC_TRANSACTION', 'BC_TRANSACTION_SG')))"""

MISSED = """SELECT what, count, from_seq, after FROM side_missed WHERE after >= :first - 1 AND from_seq <= :last
  ORDER BY id"""


class Sent(NamedTuple):
    place: int
    seq: int
    upid: int
    interface: str | None
    code: int


class Question:
    """A call, who may have made it, and when."""

    def __init__(self, database: sqlite3.Connection, meant: Meant, openings: list[Opening] | None, span: Span):
        self.database, self.meant, self.openings, self.span = database, meant, openings, span
        self.times = Times(database)
        self.facts = dict(database.execute("SELECT key, value FROM capture"))

    @property
    def who(self) -> str:
        """Who is asked about: at most three by name."""
        if self.openings is None:
            return "any process"
        names = [one.who for one in self.openings]
        return ", ".join(names[:3]) + (f" and {len(names) - 3:,} more" if len(names) > 3 else "")

    @functools.cached_property
    def sent(self) -> list[Sent]:
        """What was sent then by those who are asked about."""
        upids = None if self.openings is None else {one.upid for one in self.openings}
        rows = map(Sent._make, self.database.execute(SENT, (self.span.first, self.span.last)))
        return [one for one in rows if upids is None or one.upid in upids]

    @functools.cached_property
    def of_codes(self) -> list[Sent]:
        return [one for one in self.sent if self.meant.codes is None or one.code in self.meant.codes]

    @functools.cached_property
    def made(self) -> list[Sent]:
        """The calls that are meant, in the capture."""
        return [one for one in self.of_codes
                if not self.meant.names_itself or one.interface == self.meant.interface]

    @functools.cached_property
    def conditions(self) -> list[Condition]:
        return [*self.of_report(), self.of_numbers(), *self.of_frames(), self.of_missed(), *self.of_part(),
                self.of_time(), *self.of_names()]

    @property
    def failed(self) -> list[Condition]:
        return [one for one in self.conditions if not one.holds]

    def of_report(self) -> Iterator[Condition]:
        """All of the capture was read, and each transaction has its row."""
        fault = self.facts.get("malformed")
        yield Condition(PROVED, not fault, f"the capture ends at its first fault: {fault}" if fault
                        else "the capture is well formed to its end")
        report, rows = self.database.execute(COUNTED).fetchone()
        yield Condition(PROVED, report == rows, f"the report counts {counted(report, 'sent transaction')}, and the"
                        f" tables have {'as many' if report == rows else f'{rows:,}'}")

    def of_numbers(self) -> Condition:
        """Which numbers of frames are missing, and whether the side list has all of these."""
        first, last = self.span.first, self.span.last
        got, = self.database.execute("SELECT count(*) FROM raw_frame WHERE seq BETWEEN ? AND ?",
                                     (first, last)).fetchone()
        missing = max(last - first + 1, 0) - got
        if not missing:
            return Condition(BYTES, True, f"no frame is missing from number {first:,} to {last:,}")
        told = "of each whose" if missing == len(self.lost) else f"of {len(self.lost):,} alone whose"
        return Condition(BYTES, missing == len(self.lost), f"{counted(missing, 'frame is', 'frames are')} missing from"
                         f" number {first:,} to {last:,}, and the side list says {told}")

    @functools.cached_property
    def lost(self) -> list[tuple[int, int | None, int | None, str]]:
        return self.database.execute("SELECT seq, device, process, why FROM side_lost s WHERE seq BETWEEN ? AND ?"
                                     " AND NOT EXISTS (SELECT 1 FROM raw_frame f WHERE f.seq = s.seq) ORDER BY seq",
                                     (self.span.first, self.span.last)).fetchall()

    def of_frames(self) -> Iterator[Condition]:
        """None of the lost frames may have had the call."""
        theirs = None if self.openings is None else {(one.device, one.process) for one in self.openings}
        maybe = [(seq, why) for seq, device, process, why in self.lost
                 if theirs is None or device is None or (device, process) in theirs]
        if maybe:
            (seq, why), more = maybe[0], len(maybe) - 1
            yield Condition(SIDE, False, f"frame {seq:,}{f' and {more:,} more' if more else ''} may have had it, but"
                            f" was lost: {why}")
        elif self.lost:
            yield Condition(SIDE, True, "each lost frame is of another process")

    def of_missed(self) -> Condition:
        if not self.facts.get("side_list"):
            return Condition(SIDE, False, "without a side list it is not known what was missed without a number")
        rows = self.database.execute(MISSED, {"first": self.span.first, "last": self.span.last}).fetchall()
        if not rows:
            return Condition(SIDE, True, "nothing was missed without a number")
        (what, _, from_seq, after), count = rows[0], sum(row[1] for row in rows)
        return Condition(SIDE, False, f"{count:,} {what.replace('-', ' ')} were missed, of whatever process, first"
                         f" between the frames {from_seq:,} and {after:,}")

    def of_part(self) -> Iterator[Condition]:
        """The side list is that of the capture, and the recorder left out nothing that may have had the call."""
        if doubt := self.facts.get("side_doubt"):
            yield Condition(SIDE, False, str(doubt))
        left_out = self.facts.get("narrowed_devices") or (
            self.openings is None and self.facts.get("narrowed_processes"))
        if left_out:
            yield Condition(SIDE, False, f"only a part was recorded: {self.facts['narrowed']}")

    def of_time(self) -> Condition:
        """All of the time was recorded."""
        begin, end = self.recorded
        if begin is None or end is None:
            return Condition(SIDE, False, "without the times of a side list it is not known when was recorded")
        asked = self.span.asked
        holds = (asked.begin is None or asked.begin >= begin) and (asked.end is None or asked.end <= end)
        return Condition(SIDE, holds, f"{'' if holds else 'only '}from {self.times.both(begin)} to"
                         f" {self.times.both(end)} was recorded")

    @functools.cached_property
    def recorded(self) -> tuple[int | None, int | None]:
        """From when to when each call was looked at. Of a flight recorder the first file that is left begins it, and
        of a process that got the name of `--only` late, that; without its last line a list says nothing of what came
        after the last frame."""
        begin = self.facts.get("begin_ts" if self.facts.get("first_file", 1) == 1 else "first_ts")
        late = [one.since for one in self.openings or () if one.met == "in-mid-life" and one.since is not None
                and "--only" in str(self.facts.get("narrowed"))]
        return (max(begin, *late) if begin is not None and late else begin,
                self.facts.get("end_ts", self.facts.get("last_ts")))

    def of_names(self) -> Iterator[Condition]:
        """The data of each transaction that may be the call name another interface."""
        if not self.meant.names_itself:
            return
        unnamed = [one for one in self.of_codes if one.interface is None]
        with_code = "" if self.meant.codes is None else " with this code"
        if unnamed:
            yield Condition(BYTES, False, f"the data of {counted(len(unnamed), 'transaction')}{with_code} name no"
                            f" interface, the first one at place {unnamed[0].place}")
        elif self.of_codes:
            yield Condition(BYTES, True, f"the data of {counted(len(self.of_codes), 'transaction')}{with_code} name an"
                            " interface each")
        else:
            yield Condition(BYTES, True, f"of {counted(len(self.sent), 'transaction')} none has this code")
