"""Perfetto's own format: packets, one after another, as `perfetto` writes them on a phone.

Messages and fields have the names that they have in `protos/perfetto/trace` of Perfetto's sources.
"""

import hashlib
import sqlite3
import zlib
from typing import Mapping

from viewer.clocks import Moment
from viewer.timeline.call_stacks import CallStacks
from viewer.timeline.events import ARGUMENTS, BEGIN_OF_SLICE, CATEGORIES, SORTS, VERBS, Called, Finding, Out, Where
from viewer.timeline.interned import CATEGORY, CATEGORY_NAMES, EVENT_NAME, EVENT_NAMES, Interned
from viewer.timeline.system import System
from viewer.timeline.tracks import Axis, ProcessRow, Tracks
from viewer.timeline.wire import VARINT, fixed, key, message, number, text, varint

# The only field of Trace, and those of TracePacket.
PACKET = 1
CLOCK_SNAPSHOT, TIMESTAMP, SEQUENCE, INTERNED_DATA, FLAGS = 6, 8, 10, 12, 13
COMPRESSED, CLOCK_ID, DEFAULTS, TRACK_DESCRIPTOR, FIRST_ON_SEQUENCE, ATTRIBUTES = 50, 58, 59, 60, 87, 126
STATE_CLEARED, NEEDS_STATE = 1, 2

# TrackEvent; packets.c writes also FLOWS and a correlation, the field 52.
TYPE, TRACK, COUNTER_VALUE, EXTRA_TRACKS, EXTRA_VALUES, FLOWS = 9, 11, 30, 31, 12, 47
INSTANT, COUNTER = number(TYPE, 3), number(TYPE, 4)

# TrackDescriptor, ProcessDescriptor, ThreadDescriptor and CounterDescriptor.
UUID, NAME, OF_PROCESS, OF_THREAD, PARENT, OF_COUNTER, OWN_TRACK = 1, 2, 3, 4, 5, 8, 9
PROCESS_PID, PROCESS_NAME, PROCESS_LABELS = 1, 6, 8
THREAD_PID, THREAD_TID, THREAD_NAME = 1, 2, 5
UNIT, UNIT_COUNT, UNIT_BYTES = 3, 2, 3

# ClockSnapshot, and the numbers of clocks.
CLOCKS, PRIMARY_CLOCK, CLOCK, CLOCK_TIME = 1, 2, 1, 2
REALTIME, MONOTONIC, BOOTTIME = 1, 3, 6

# TraceAttributes.
ATTRIBUTE, ATTRIBUTE_KEY, ATTRIBUTE_NUMBER, ATTRIBUTE_TEXT = 1, 1, 2, 3

# The counters of a process.
COUNTER_TRACKS = (("binder buffers held", UNIT_COUNT), ("binder buffer bytes", UNIT_BYTES),
                  ("binder async bytes", UNIT_BYTES), ("binder strong references", UNIT_COUNT),
                  ("binder calls open", UNIT_COUNT), ("binder threads busy", UNIT_COUNT))

# The tracks above those of the processes.
FINDINGS, OTHERS = "binder_audit: {}", "binder_audit: of no process"
OTHER_TRACKS = FINDINGS.format("real"), FINDINGS.format("maybe"), OTHERS

# The number of this sequence of packets: "BIND". Those of `traced` count from 1. Processes and threads are told on one
# of their own: the last thread of a sequence counts as that of its events, so Perfetto would make this thread and its
# process at the first event, and once more when a system trace says that they begin.
SEQUENCE_NUMBER = 0x42494E44
DESCRIBING = SEQUENCE_NUMBER + 1

# What comes before the time of an event.
EVENT_BEGIN = number(SEQUENCE, SEQUENCE_NUMBER) + number(FLAGS, NEEDS_STATE) + key(TIMESTAMP, VARINT)

# Numbers of tracks, and of flows of findings, of one recording.
BITS_OF_NUMBERS = 21
FLOWS_OF_FINDINGS = 2**62

LEVEL = 4


def compressed(packets: bytes) -> bytes:
    """A packet that has others, as `traced` makes it of a trace that is to be small."""
    return message(PACKET, message(COMPRESSED, zlib.compress(packets, LEVEL)))


class Numbers:
    """The numbers of the tracks of a recording."""

    def __init__(self, first: int, tracks: Tracks):
        self.processes = 1 + max((row.upid for row in tracks.processes), default=0)
        self.threads = 1 + max(tracks.upid_of, default=0)
        self.of_others = first
        self.of_processes = self.of_others + len(OTHER_TRACKS)
        self.of_threads = self.of_processes + self.processes
        self.of_counters = self.of_threads + self.threads
        self.of_queues = self.of_counters + self.processes * len(COUNTER_TRACKS)

    def of_other(self, name: str) -> int:
        return self.of_others + OTHER_TRACKS.index(name)

    def of_process(self, upid: int) -> int:
        return self.of_processes + upid

    def of_thread(self, utid: int) -> int:
        return self.of_threads + utid

    def of_counter(self, upid: int, counter: int) -> int:
        return self.of_counters + upid * len(COUNTER_TRACKS) + counter

    def of_queue(self, upid: int, lane: int) -> int:
        return self.of_queues + lane * self.processes + upid


class Packets:
    """Writes a timeline as packets. Threads of the capture that are one thread of the system have one track."""

    form, is_android = "packets", False
    clock = "CLOCK_MONOTONIC of the recorded system, in nanoseconds"
    event_begin = EVENT_BEGIN

    def __init__(self, out: Out, axis: Axis, tracks: Tracks, database: sqlite3.Connection):
        self.out, self.axis, self.tracks = out, axis, tracks
        self.system = System(tracks)
        self.interned = Interned()
        self.new = self.interned.new
        self.stacks = CallStacks(database, self.interned)
        # What tells the tracks and flows of this recording from those of others in one trace.
        facts = database.execute("SELECT key, value FROM capture WHERE key IN ('begin_ts', 'realtime', 'bytes',"
                                 " 'records') ORDER BY key").fetchall()
        self.recording = int.from_bytes(hashlib.blake2b(repr(facts).encode(), digest_size=8).digest(), "little")
        self.numbers = Numbers(self.recording % 2**BITS_OF_NUMBERS << BITS_OF_NUMBERS, tracks)
        self.processes: dict[int, int] = {}
        self.lanes: dict[tuple[int, int], bytes] = {}
        self.others: dict[str, bytes] = {}
        self.seen = self.first_seen(database) if axis.timed else {}

    def begin(self) -> None:
        for name in dict.fromkeys(name for names in ARGUMENTS for name in names):
            self.argument_head(name)
        self.tell_clocks(self.axis.moments)
        defaults = message(DEFAULTS, number(CLOCK_ID, MONOTONIC)) if self.axis.moments else b""
        self.packet(number(FLAGS, STATE_CLEARED), number(FIRST_ON_SEQUENCE, 1), defaults)

    def first_seen(self, database: sqlite3.Connection) -> dict[tuple[int, int] | int, int]:
        """When each thread and each process is first seen."""
        seen: dict[tuple[int, int] | int, int] = {}
        for utid, ts in database.execute("SELECT t.utid, x.ts FROM thread t JOIN side_time x ON x.seq = t.first_seq"):
            lane = self.system.lane_of[utid]
            both: tuple[tuple[int, int] | int, ...] = lane, lane[0]
            for one in both:
                seen[one] = min(ts, seen.get(one, ts))
        return seen

    # -- packets

    def packet(self, *parts: bytes, sequence: int = SEQUENCE_NUMBER) -> None:
        self.out.packet(message(PACKET, *parts, number(SEQUENCE, sequence)))

    def event(self, body: bytes) -> None:
        """A packet with a TrackEvent, at the time of instants."""
        self.tell_new()
        self.out.event(body)

    def has_new(self) -> bool:
        return bool(self.new)

    def tell_new(self) -> None:
        if self.new:
            self.packet(message(INTERNED_DATA, *self.new), number(FLAGS, NEEDS_STATE))
            self.new.clear()

    def tell_clocks(self, moments: list[Moment]) -> None:
        """What the clocks showed, and that times are of CLOCK_MONOTONIC if they are times. The wall clock goes on as it
        began: where it was set back, Perfetto would count an error."""
        for moment in moments:
            passed = moment.boottime - moments[0].boottime if moment.boottime is not None and \
                moments[0].boottime is not None else moment.monotonic - moments[0].monotonic
            shown = {BOOTTIME: moment.boottime, MONOTONIC: moment.monotonic, REALTIME: moments[0].realtime + passed}
            clocks = [message(CLOCKS, number(CLOCK, clock), number(CLOCK_TIME, time))
                      for clock, time in shown.items() if time is not None]
            first = number(PRIMARY_CLOCK, MONOTONIC if moment.boottime is None else BOOTTIME)
            self.packet(message(CLOCK_SNAPSHOT, *clocks, first))

    # -- tracks

    def track(self, uuid: int, *parts: bytes, of: tuple[int, int] | int | None = None) -> bytes:
        """Tells of a track, and returns how an event names it. A thread or a process is told with the time at which it
        is first seen, because numbers of processes are used again: Perfetto takes the process that has the number at
        the time of the packet, and without a time the one that it met last, which differs by the order of the files of
        a joined trace."""
        time = [number(TIMESTAMP, self.seen[of]), number(CLOCK_ID, MONOTONIC)] if of in self.seen else []
        self.packet(*time, message(TRACK_DESCRIPTOR, number(UUID, uuid), *parts),
                    sequence=SEQUENCE_NUMBER if of is None else DESCRIBING)
        return number(TRACK, uuid)

    def process_track(self, upid: int) -> int:
        """The track of a process of the system, by one of its openings."""
        one = self.system.process_of[upid]
        if one not in self.processes:
            rows = self.system.openings[one]
            labels = [text(PROCESS_LABELS, label) for label in dict.fromkeys(map(self.label_of, rows))]
            name = next((row.name for row in rows if row.name), "process")
            self.processes[one] = self.numbers.of_process(one)
            self.track(self.processes[one], message(
                OF_PROCESS, number(PROCESS_PID, self.system.pid(rows[0])), text(PROCESS_NAME, name), *labels), of=one)
        return self.processes[one]

    def label_of(self, row: ProcessRow) -> str:
        """The device of an opening, and the number that it has in the capture, if that is another one."""
        other = f", process {row.process} of the capture" if row.pid not in (None, row.process) else ""
        return row.device_name + other

    def lane_of(self, utid: int) -> tuple[int, int]:
        return self.system.lane_of[utid]

    def head_of_thread(self, utid: int) -> bytes:
        lane = self.lane_of(utid)
        self.process_track(self.tracks.upid_of[utid])
        if lane not in self.lanes:
            upid, tid = lane
            parent = self.process_track(upid)
            name = self.system.names.get(lane)
            described = message(OF_THREAD, number(THREAD_PID, self.system.pid_of(upid)), number(THREAD_TID, tid),
                                text(THREAD_NAME, name) if name else b"")
            self.lanes[lane] = self.track(self.numbers.of_thread(utid), number(PARENT, parent), described,
                                          number(OWN_TRACK, 1), of=lane)
        return self.lanes[lane]

    def counters(self, upid: int) -> list[bytes]:
        """Of each counter of a process what comes before its value: as the counter of an event, and as an extra one;
        and an extra one of 0."""
        parent, of, made = self.process_track(upid), self.system.opening_of(upid), list[bytes]()
        for at, (name, unit) in enumerate(COUNTER_TRACKS):
            uuid = self.numbers.of_counter(upid, at)
            head = self.track(uuid, number(PARENT, parent), text(NAME, name + of),
                              message(OF_COUNTER, number(UNIT, unit)))
            extra = number(EXTRA_TRACKS, uuid) + key(EXTRA_VALUES, VARINT)
            made += COUNTER + head + key(COUNTER_VALUE, VARINT), extra, extra + varint(0)
        return made

    def other_track(self, name: str) -> bytes:
        """A track above those of the processes."""
        if name not in self.others:
            self.others[name] = self.track(self.numbers.of_other(name), text(NAME, name))
        return self.others[name]

    def queue_track(self, upid: int, lane: int) -> bytes:
        """A track for a lane of the queue of a process. All of them have one name, so Perfetto shows them as one."""
        return self.track(self.numbers.of_queue(upid, lane), number(PARENT, self.process_track(upid)),
                          text(NAME, "binder queue"))

    # -- what the walk asks for

    def named(self, category: str, name: str) -> bytes:
        return self.interned.text(EVENT_NAMES, EVENT_NAME, name) + \
            self.interned.text(CATEGORY_NAMES, CATEGORY, category)

    def fields(self, fields: Mapping[str, object]) -> bytes:
        return b"".join([self.argument(name, value) for name, value in fields.items() if value is not None])

    def argument_head(self, name: str) -> bytes:
        return self.interned.argument_head(name)

    def argument(self, name: str, value: object) -> bytes:
        return self.interned.argument(name, value)

    def called(self, called: Called) -> list[bytes]:
        fields = self.fields(called.fields())
        return [self.named(CATEGORIES[sort], self.name_of(sort, called)) + fields for sort in SORTS]

    def name_of(self, sort: int, called: Called) -> str:
        """The name of a slice."""
        return f"{VERBS[sort]} {called.label}"

    def aidl(self, sort: int, called: Called) -> bytes:
        """Only the names of Android have such slices."""
        raise NotImplementedError

    def name_of_queue(self, called: Called) -> bytes:
        return self.named("queue", f"queue {called.label}")

    def stack(self, stack: int) -> bytes:
        return self.stacks.of(stack)

    def why(self, use: int, why: str) -> bytes:
        return self.argument("begin" if use == BEGIN_OF_SLICE else "end", why)

    # -- what the walk hands over

    def head_of(self, where: Where) -> bytes:
        if where.utid is not None:
            return self.lanes[self.lane_of(where.utid)]
        return self.other_track(OTHERS) if where.upid is None else number(TRACK, self.process_track(where.upid))

    def instant(self, where: Where, _: str, category: str, name: str, fields: Mapping[str, object]) -> None:
        head = self.head_of(where)
        self.event(INSTANT + head + self.named(category, name) + self.fields(fields))

    def finding(self, utid: int, upid: int, _: str, finding: Finding) -> None:
        """A finding is on a track above the processes, and at its record. A flow goes through both, and through the
        findings that are one with it, in the order of their times."""
        category = f"finding,{finding.verdict}"
        flow = fixed(FLOWS, self.recording + FLOWS_OF_FINDINGS + finding.one)
        names = [(self.head_of(Where(utid)), f"{finding.verdict}: {finding.title}")]
        if finding.verdict in ("real", "maybe"):
            names.insert(0, (self.other_track(FINDINGS.format(finding.verdict)),
                             f"{finding.title}: {self.tracks.certain[upid]}"))
        fields = b""
        for head, name in names:
            named = self.named(category, name)
            fields = fields or self.fields(finding.fields)
            self.event(INSTANT + head + named + fields + flow)

    def end_frame(self) -> None:
        """A flow is a field of its event here, so nothing has to wait for the end of a frame."""

    def finish(self, told: dict[str, object]) -> None:
        made = [message(ATTRIBUTE, text(ATTRIBUTE_KEY, name), number(ATTRIBUTE_NUMBER, value)
                        if isinstance(value, int) else text(ATTRIBUTE_TEXT, str(value)))
                for name, value in told.items()]
        self.packet(message(ATTRIBUTES, *made))
        self.out.flush()
