"""A slow second reading of a capture's raw tables, by the rules of the pages and nothing cleverer.

The rules are those of docs/DATABASE.md, of viewer/database/schema.sql, to which that page leads, of docs/COMMANDS.md,
docs/ENVELOPE.md and docs/REPORT.md. It shares no code with the listing.
"""

from collections import Counter, deque
from itertools import chain
from typing import Iterator

from checks.kit.second_reading import READ, WRITE, Frame, Process
from checks.kit.tables.calls import ANSWERED, REPLIED, Call, Thread as Calls
from checks.kit.tables.cut import (CONFIRMATIONS, DELIVERED, ERROR_REPLIES, FAULTS, FREE, GOT_REPLY, GOT_TRANSACTIONS,
                                   SENT, SENT_TRANSACTIONS, STATUS_CODE, Cut, Record, cut_of)
from checks.kit.tables.handles import COUNTED, Generation, Handles
from checks.kit.tables.messages import Delivery, Send
from checks.kit.tables.names import name_of_reply, names_in
from checks.kit.tables.pairs import Facts, Pairs
from checks.kit.tables.seen import Seen

LAYOUT = 5
SLICES = 16
MOST = 2**63 - 1
CAUSES = "ListLength", "Misaligned", "Overlap", "Short", "UnknownSort"
LEVELS = "buffers", "bytes", "refs", "calls", "served"
# Columns that are fields, in order.
FIELDS = ("handle", "ptr", "cookie", "address", "code", "flags", "sender_pid", "sender_euid", "data_size",
          "offsets_size", "offsets", "extra")
OBJECT_FIELDS = ("flags", "binder", "handle", "fd", "cookie", "num_fds", "buffer", "length", "parent",
                 "parent_offset")

Row = list[int | str | None]
Tables = dict[str, list[Row]]


class Owner:
    """What has frames: a process by its upid, or a thread by its utid."""

    def __init__(self, number: int, first: Frame) -> None:
        self.number, self.first, self.last, self.frames = number, first, first, 0

    def take_frame(self, frame: Frame) -> None:
        self.last = frame
        self.frames += 1


class OfProcess(Owner):
    """What a process holds: its handles, its deliveries that are not freed, and its levels, with the most of each
    slice."""

    def __init__(self, upid: int, first: Frame, made: list[Generation]) -> None:
        super().__init__(upid, first)
        self.handles = Handles(upid, made)
        self.unfreed: dict[int, list[Delivery]] = {}
        self.held: Counter[object] = Counter()
        self.levels: Counter[str] = Counter()
        self.most: list[dict[str, int]] = []

    def begin_slices(self, count: int) -> None:
        """Begins slices until there are so many."""
        while len(self.most) < count:
            self.most.append({name: self.levels[name] for name in LEVELS})

    def change(self, **by: int) -> None:
        for name, steps in by.items():
            self.levels[name] += steps
            self.most[-1][name] = max(self.most[-1][name], self.levels[name])

    def deliver(self, it: Delivery) -> None:
        self.unfreed.setdefault(it.record.fields["address"], []).append(it)
        self.held[it.path] += 1
        it.held = self.held[it.path]
        for name, generation in it.holds:
            generation.held[name] += 1
            generation.given_by = generation.given_by or it.record
        self.change(buffers=1, bytes=it.record.fields["data_size"])

    def free(self, record: Record) -> None:
        """Frees all deliveries of an address."""
        freed = self.unfreed.pop(record.fields["address"], [])
        for it in freed:
            it.freed_by = record
            self.held[it.path] -= 1
            self.change(buffers=-1, bytes=-it.record.fields["data_size"])
            for name, generation in it.holds:
                generation.held[name] -= 1
        for it in freed:
            for _, generation in it.holds:
                generation.end_if_empty(record)


class OfThread(Owner):
    """A thread: its calls, and its sends that wait to be confirmed."""

    def __init__(self, process: OfProcess, utid: int, first: Frame) -> None:
        super().__init__(utid, first)
        self.process = process
        self.last_record: Record | None = None
        self.last_write: Record | None = None
        self.calls = Calls()
        self.waiting: deque[Send] = deque()

    def settle(self, record: Record) -> None:
        """A confirmation or an error reply."""
        if self.waiting:
            send = self.waiting.popleft()
            if record.kind in CONFIRMATIONS:
                send.confirmed = record
            else:
                send.refused = record


class Reading:
    """What the records of a capture come to."""

    def __init__(self, cut: Cut, parts: int) -> None:
        self.cut, self.parts = cut, parts
        self.processes: dict[Process, OfProcess] = {}
        self.threads: dict[tuple[Process, int], OfThread] = {}
        self.calls: list[tuple[OfThread, Call]] = []
        self.generations: list[Generation] = []
        self.sends: list[Send] = []
        self.deliveries: list[Delivery] = []
        self.begins = slices(cut.frames)
        self.seen = Seen()
        self.missing = {frame.sequence: frame.sequence - cut.frames[0].sequence - index
                        for index, frame in enumerate(cut.frames)}
        for frame, records in zip(cut.frames, cut.records):
            self.take_frame(frame, records)
        for process in self.processes.values():
            process.begin_slices(SLICES)
        for number, generation in enumerate(self.generations, 1):
            generation.id = number
        self.pair()

    def pair(self) -> None:
        Pairs(Facts(self.sends, self.deliveries, self.seen, self.missing, max(self.missing.values(), default=0),
                    {it.number: process.number for process, it in self.processes.items()},
                    {it.record: it for it in self.sends}, {it.record: it for it in self.deliveries})).all_walks()

    def thread(self, frame: Frame) -> OfThread:
        """The thread of a frame, which is new if it has none before."""
        if frame.process not in self.processes:
            self.processes[frame.process] = OfProcess(len(self.processes) + 1, frame, self.generations)
        key = frame.process, frame.thread
        if key not in self.threads:
            self.threads[key] = OfThread(self.processes[frame.process], len(self.threads) + 1, frame)
        return self.threads[key]

    def take_frame(self, frame: Frame, records: list[Record]) -> None:
        thread, is_write = self.thread(frame), frame.direction == WRITE
        process = thread.process
        thread.take_frame(frame)
        process.take_frame(frame)
        process.begin_slices(sum(begin <= frame.sequence for begin in self.begins))
        missing = self.missing[frame.sequence]
        self.seen.take_frame(process.number, thread.number, frame.direction == READ, missing)
        for record in records:
            thread.last_record = record
            thread.last_write = record if is_write else thread.last_write
            self.seen.take(process.number, thread.number, record, missing)
            self.take(thread, record, missing)

    def take(self, thread: OfThread, record: Record, missing: int) -> None:
        process, target = thread.process, None
        if (handle := record.fields.get("handle")) is not None:
            target = process.handles.named_by(record, handle, missing)
            if record.kind in COUNTED:
                process.change(refs=target.take(record))
        call = self.take_call(thread, record)
        if record.kind in SENT:
            sent = Send(record, process.number, thread.number, missing)
            sent.generation, sent.call = target, call
            self.sends.append(sent)
            thread.waiting.append(sent)
            sent.handles = dict(self.objects_of(process, record, missing))
        elif record.kind in DELIVERED:
            came = Delivery(record, process.number, thread.number, missing)
            came.call = call
            self.deliveries.append(came)
            came.handles = dict(self.objects_of(process, record, missing))
            came.holds = [(it.name, came.handles[it.number]) for it in record.good if it.number in came.handles]
            process.deliver(came)
            if record.kind != GOT_REPLY:
                self.seen.take_delivery(came)
        elif record.kind == FREE:
            process.free(record)
        elif record.kind in (*CONFIRMATIONS, *ERROR_REPLIES):
            thread.settle(record)

    def objects_of(self, process: OfProcess, record: Record, missing: int) -> Iterator[tuple[int, Generation]]:
        """The generations that the objects of a record name, by the number of the object."""
        for it in record.good:
            if it.name in ("handle", "weak_handle"):
                yield it.number, process.handles.named_by(record, it.fields["handle"], missing)

    def take_call(self, thread: OfThread, record: Record) -> Call | None:
        """The call that a record opens, or that it closes as its reply."""
        opened, closed = thread.calls.take(record)
        if opened:
            self.calls.append((thread, opened))
        for call, by in ((opened, 1), (closed, -1)):
            if call:
                thread.process.change(**{"served" if call.served else "calls": by})
        return opened or (closed if closed and closed.verdict in (ANSWERED, REPLIED) else None)

    # ---- the tables

    def tables(self) -> Tables:
        levels: list[Row] = [[process.number, number, *(min(most[name], MOST) for name in LEVELS)]
                             for process in self.processes.values() for number, most in enumerate(process.most)]
        slice_rows: list[Row] = [[number, begin] for number, begin in enumerate(self.begins)]
        return {"capture": [self.capture_row()], "process": self.process_rows(), "thread": self.thread_rows(),
                "frame": [self.frame_row(*it) for it in zip(self.cut.frames, self.cut.records)],
                **self.record_tables(), "object": list(chain.from_iterable(map(object_rows, self.all_records()))),
                "call": [call_row(*it) for it in self.calls], "generation": list(map(generation_row, self.generations)),
                "send": list(map(send_row, self.sends)), "delivery": list(map(delivery_row, self.deliveries)),
                "slice": slice_rows, "level": levels}

    def all_records(self) -> list[Record]:
        return list(chain.from_iterable(self.cut.records))

    def capture_row(self) -> Row:
        frames, fault = self.cut.frames, self.cut.fault
        row: Row = [LAYOUT, self.parts, self.cut.bytes, len(frames), len(self.all_records())]
        row += (frames[0].sequence, frames[-1].sequence) if frames else (None, None)
        row.append(max(self.missing.values(), default=0))
        row += (FAULTS.index(fault[0]) + 1, *fault[1:]) if fault else (None, None, None)
        return row

    def process_rows(self) -> list[Row]:
        return [[it.number, device, number, it.first.sequence, it.last.sequence, it.frames]
                for (device, number), it in self.processes.items()]

    def thread_rows(self) -> list[Row]:
        return [[it.number, it.process.number, number, it.first.sequence, it.last.sequence, it.frames,
                 place_of(it.last_record), place_of(it.last_write)] for (_, number), it in self.threads.items()]

    def frame_row(self, it: Frame, records: list[Record]) -> Row:
        return [it.sequence, it.place, self.thread(it).number, it.direction, len(it.commands), len(it.attachments),
                len(records)]

    def record_tables(self) -> Tables:
        """The tables record, interface and service."""
        interfaces: dict[str, int] = {}
        services: dict[str, int] = {}
        rows: list[Row] = []
        for it in self.all_records():
            interface, service = names_of(it)
            rows.append(record_row(it, self.thread(it.frame).number, numbered(interfaces, interface),
                                   numbered(services, service)))
        return {"record": rows, "interface": name_rows(interfaces), "service": name_rows(services)}


def place_of(thing: Record | Send | Delivery | None) -> int | None:
    return None if thing is None else thing.place


def numbered(numbers: dict[str, int], name: str | None) -> int | None:
    """The number of a name: the next one, if it is new."""
    return None if name is None else numbers.setdefault(name, len(numbers) + 1)


def name_rows(numbers: dict[str, int]) -> list[Row]:
    return [[number, name] for name, number in numbers.items()]


def slices(frames: list[Frame]) -> list[int]:
    """Where the slices of a capture begin."""
    if not frames:
        return []
    first, count = frames[0].sequence, frames[-1].sequence - frames[0].sequence + 1
    return [first + -(-number * count // SLICES) for number in range(SLICES)]


def names_of(it: Record) -> tuple[str | None, str | None]:
    """The interface and the service that the data of a record name."""
    if it.entry is None:
        return None, None
    if it.kind in SENT_TRANSACTIONS + GOT_TRANSACTIONS:
        return names_in(it.fields["code"], it.entry.body)
    return name_of_reply(it.entry.body), None


def status_of(it: Record) -> int | None:
    if it.kind != GOT_REPLY or it.entry is None or not it.fields["flags"] & STATUS_CODE or it.fields["data_size"] != 4:
        return None
    return int.from_bytes(it.entry.body, "little", signed=True)


def value_of(it: Record) -> int | None:
    return it.word if it.kind in (255, 511) else it.fields.get("value")


def record_row(it: Record, utid: int, interface: int | None, service: int | None) -> Row:
    return [it.place, it.seq, utid, it.kind, *map(it.fields.get, FIELDS), it.attachment, status_of(it), value_of(it),
            interface, service]


def object_rows(it: Record) -> Iterator[Row]:
    for one in it.good:
        yield [it.place, one.number, one.offset, one.sort, *map(one.fields.get, OBJECT_FIELDS), None]
    if it.bad is not None:
        index, offset, cause = it.bad
        yield [it.place, index, offset, None, *[None] * len(OBJECT_FIELDS), CAUSES.index(cause) + 1]


def call_row(thread: OfThread, it: Call) -> Row:
    return [it.opener.place, it.opener.seq, thread.number, int(it.served), it.depth,
            place_of(it.parent.opener if it.parent else None), it.verdict, place_of(it.closer),
            it.closer.seq - it.opener.seq if it.closer else None]


def generation_row(it: Generation) -> Row:
    return [it.id, it.process, it.handle, it.n, it.begin.place, place_of(it.end), place_of(it.given_by),
            place_of(it.held_since) if it.strong else None, *(it.counts[name] for name in COUNTED.values()), it.strong,
            it.weak, it.held["handle"], it.held["weak_handle"]]


def send_row(it: Send) -> Row:
    return [it.place, it.seq, it.thread, it.generation.id if it.generation else None, place_of(it.confirmed),
            place_of(it.refused), place_of(it.delivery), None if it.certain is None else int(it.certain), it.fits]


def delivery_row(it: Delivery) -> Row:
    return [it.place, it.seq, it.thread, place_of(it.freed_by), it.freed_by.seq - it.seq if it.freed_by else None,
            place_of(it.call.opener if it.call else None), place_of(it.send), it.held]


def tables_of(parts: list[bytes]) -> Tables:
    """The rows of the fourteen tables of a capture in these files."""
    return Reading(cut_of(parts), len(parts)).tables()
