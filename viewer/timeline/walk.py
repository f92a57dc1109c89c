"""The walk through a capture by which a timeline is made, in whatever format. walk.c goes from record to record; here
is what it asks for, and what is not a record. docs/PAGE.md says what the events mean."""

import heapq
import sqlite3
from typing import Callable, Iterator, NamedTuple, Sequence

from viewer.database.sqlite import named_numbers
from viewer.rules.names import Names
from viewer.timeline.ends_and_gaps import Mark, Row, ends_of, gaps_of, lost_of, missed_of
from viewer.timeline import walker
from viewer.timeline.events import ADDRESSES, ARGUMENTS, SIGNED, SORTS, TEXTS, Called, Events, Finding, Where
from viewer.timeline.rows import BY_PLACE, LAST_PLACE, STRETCH, Ahead, finding_rows, statements
from viewer.timeline.tracks import Axis, Tracks, Window
from viewer.timeline.walker import Walker, signed

VERDICTS = "open", "answered", "replied", "failed", "crossed"

# Why something begins or ends elsewhere than at its record, by its number.
NO_WHY, AROUND, THREAD_ENDED, PROCESS_ENDED, AT_END, BEFORE_FROM, NEVER_CAME = range(7)
WHYS = {AROUND: "the call around it ended", THREAD_ENDED: "its thread ended", PROCESS_ENDED: "its process ended",
        BEFORE_FROM: "before --from", NEVER_CAME: "never seen to come"}

# The forms of arguments, and what has a name, by their numbers.
UNSIGNED_FORM, SIGNED_FORM, ADDRESS_FORM, *TEXT_FORMS = range(6)
FORMS = {**dict.fromkeys(SIGNED, SIGNED_FORM), **dict.fromkeys(ADDRESSES, ADDRESS_FORM),
         **dict(zip(TEXTS, TEXT_FORMS))}
NAMED_CODE, NAMED_OBJECT = 1, 2

# What stands in the place of an interface that is not known: only the code matters, or all of the key.
ONLY_CODE = -2

# Of so much that is called it is remembered what was made of it.
REMEMBERED = 4096

# What is counted, in the order in which walk.c has it.
COUNTED = ("slices", "queue_slices", "flows", "counter_events", "instants", "pairs_without_flow",
           "deliveries_before_their_send", "frames_without_time", "frames_with_earlier_time")


class Recorded(NamedTuple):
    """A record that is an instant. The lowest bits of `has` say whether it has a cookie, a value, and what it refuses.
    """
    kind: int
    utid: int
    place: int
    cookie: int
    value: int
    refused: int
    has: int

    def fields(self, name: str) -> tuple[str, dict[str, object]]:
        """The category, and what the instant says."""
        value = self.value if self.has & 2 else None
        if name == "BR_DEAD_BINDER":
            return "death", {"place": self.place, "cookie": self.cookie}
        if name == "BR_FROZEN_BINDER":
            return "freeze", {"place": self.place, "cookie": self.cookie, "is_frozen": value}
        if name == "BR_ONEWAY_SPAM_SUSPECT":
            return "spam", {"place": self.place}
        more = {"value": value} if value is not None else {"refuses": self.refused} if self.has & 4 else {}
        return "error", {"place": self.place, **more}


class Walk:
    """Has a capture walked through, and hands over what the walk does not write by itself."""

    def __init__(self, database: sqlite3.Connection, axis: Axis, tracks: Tracks, window: Window):
        self.database, self.axis, self.tracks, self.window = database, axis, tracks, window
        self.names = Names(database)
        self.numbers = named_numbers(database)
        self.kinds = {number: name for name, number in self.numbers.items()}
        self.whys = {**WHYS, AT_END: "after --to" if axis.is_cut else "open at the end"}
        self.answers: dict[int, Callable[..., list[bytes]]] = {
            walker.CALLED: lambda *key: self.out.called(self.meant(*key)),
            walker.QUEUE_NAME: lambda *key: [self.out.name_of_queue(self.meant(*key))],
            walker.AIDL: lambda *key: [self.out.aidl(key[-1], self.meant(*key[:-1]))],
            walker.TO: lambda upid, certain: [self.out.argument("to", self.tracks.who(upid, certain))],
            walker.FROM: lambda upid, _: [self.out.argument("from", self.tracks.certain[upid])],
            walker.VERDICT: lambda verdict, _: [self.out.argument("verdict", VERDICTS[verdict])],
            walker.COUNTERS: lambda upid: self.out.counters(upid),
            walker.QUEUE_TRACK: lambda upid, lane: [self.out.queue_track(upid, lane)],
            walker.STACK: lambda stack, _: [self.out.stack(stack)],
            walker.WHY: lambda use, why: [self.out.why(use, self.whys[why])]}

    # -- what the walk asks

    def answer(self, what: int, numbers: Sequence[int], data: bytes) -> int:
        """Answers by orders. Returns bits that belong to the answer."""
        bits = 0
        if what == walker.NEW:
            self.out.tell_new()
        elif what == walker.END_FRAME:
            self.out.end_frame()
        elif what == walker.RECORD:
            self.record(Recorded(*numbers), data.decode())
        else:
            for text in self.answers[what](*numbers):
                self.walker.order(walker.TEXT, data=text)
            if what == walker.CALLED and self.meant(*numbers).interface is not None:
                bits = walker.HAS_INTERFACE
        return bits | (walker.HAS_NEW if self.out.has_new() else 0)

    def meant(self, code: int, upid: int | None, ptr: int | None, last: int) -> Called:
        """What a key is for."""
        if last == ONLY_CODE:
            upid = ptr = None
        interface = last if last > 0 else None
        full, method = self.names.meant(code, upid, ptr, interface)
        return Called(self.names.call(code, upid, ptr, interface) or "", code, full, method,
                      self.names.services.get((upid, ptr)))

    def instant(self, where: Where, at: str, category: str, name: str, fields: dict[str, object]) -> None:
        self.out.instant(where, at, category, name, fields)
        self.walker.order(walker.INSTANT)

    def record(self, record: Recorded, at: str) -> None:
        name = self.kinds[record.kind]
        category, fields = record.fields(name)
        self.instant(Where(utid=record.utid), at, category, name, fields)

    # -- what the walk begins with

    def begin(self, out: Events, program: Walker) -> None:
        self.out, self.walker = out, program
        out.begin()
        self.give()
        for utid in sorted(self.tracks.shown):
            head = out.head_of_thread(utid)
            program.order(walker.SHOWN, utid, data=head)
        for upid, ended in self.tracks.ended.items():
            program.order(walker.ENDED, upid, ended)
        for since, ahead in zip([0, *self.axis.boottime.since], self.axis.boottime.ahead):
            program.order(walker.CLOCK, since, ahead)
        for code, upid, ptr in self.names.called:
            program.order(walker.NAME, code, upid, ptr, NAMED_CODE)
        for upid, ptr in self.names.services:
            program.order(walker.NAME, 0, upid, ptr, NAMED_OBJECT)
        program.order(walker.STATEMENTS, data=b"\0".join(statements(self.numbers)))

    def give(self) -> None:
        """Gives what the walk has to know first."""
        axis, window, numbers, tracks = self.axis, self.window, self.numbers, self.tracks
        lanes: dict[object, int] = {}
        for utid in tracks.upid_of:
            lanes.setdefault(self.out.lane_of(utid), len(lanes))
        kinds = ("BR_REPLY", "BC_FREE_BUFFER", "BC_ACQUIRE", "BR_DEAD_BINDER", "BR_FROZEN_BINDER",
                 "BR_ONEWAY_SPAM_SUSPECT")
        self.walker.order(
            walker.GIVEN, self.out.is_android, axis.timed, window.first is not None, window.last is not None,
            window.begins_within(axis.last), signed(window.first or 0), signed(window.last or 0), signed(axis.base),
            axis.ns, signed(axis.end % 2**64), axis.end >> 64, STRETCH, signed(self.out.recording), REMEMBERED,
            max(tracks.upid_of, default=0), max((row.upid for row in tracks.processes), default=0), len(lanes),
            *(numbers[kind] for kind in kinds))
        for utid, upid in tracks.upid_of.items():
            self.walker.order(walker.THREAD, utid, upid, lanes[self.out.lane_of(utid)])
        self.walker.order(walker.EVENT_BEGIN, data=self.out.event_begin)
        for sort in SORTS:
            for name in ARGUMENTS[sort]:
                self.walker.order(walker.ARGUMENT, sort, FORMS.get(name, UNSIGNED_FORM),
                                  data=self.out.argument_head(name))

    # -- what is not a record

    def marks(self) -> Iterator[Row]:
        yield from heapq.merge(ends_of(self.database, self.tracks), lost_of(self.database, self.tracks),
                               missed_of(self.database), gaps_of(self.database), key=BY_PLACE)

    def mark(self, place: int, mark: Mark, next_finding: int) -> bool:
        """What is not a record: an end, or something that is missing. Returns whether the walk goes on."""
        if self.window.is_past(mark.seq):
            self.walker.done(walker.GO_TO, place)
            return False
        why = PROCESS_ENDED if mark.processes else THREAD_ENDED
        status, at = self.walker.done(walker.GO_TO_MARK, place, next_finding, mark.ts is not None, mark.ts or 0,
                                      *(mark.processes or (0,)), why, *mark.threads)
        if status == walker.IS_PAST:
            return False
        where = Where(mark.utid, mark.upid)
        is_shown = mark.utid in self.tracks.shown if mark.utid is not None else \
            mark.upid in self.tracks.first_of if mark.upid is not None else bool(self.tracks.shown)
        if is_shown and self.window.has(mark.seq):
            self.instant(where, at, mark.category, mark.name, mark.fields)
        return True

    def finding(self, row: tuple) -> bool:
        """A finding. Returns whether the walk goes on."""
        place, seq, ts, utid, verdict, title, section, path, rule, text, note, one = row
        status, at = self.walker.done(walker.GO_TO_FINDING, place, seq, ts is not None, ts or 0, utid)
        if status == walker.GOES_ON:
            told = {"place": place, "section": section, "path": path, "rule": rule, "why": text, "note": note}
            self.out.finding(utid, self.tracks.upid_of[utid], at, Finding(
                verdict, title, one, {name: value for name, value in told.items() if value not in (None, "")}))
            self.walker.order(walker.INSTANT)
        return status != walker.IS_PAST

    # -- all of it

    def goes_on(self) -> bool:
        """Goes through all. Returns whether there is something behind the last mark, up to the end of the window."""
        findings = Ahead(finding_rows(self.database))
        for place, mark in self.marks():
            if not all(map(self.finding, findings.before(place))):
                return False
            if not self.mark(place, mark, LAST_PLACE if findings.next is None else findings.next[0]):
                return False
        return all(map(self.finding, findings.before(LAST_PLACE)))

    def walk(self) -> dict[str, int]:
        """Walks, and ends what is open. Returns what was counted."""
        if self.goes_on() and self.walker.done(walker.GO_TO, LAST_PLACE)[0] != walker.IS_PAST:
            self.walker.flush()
        self.walker.done(walker.END)
        return dict(zip(COUNTED, self.walker.counts))
