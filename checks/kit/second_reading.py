"""A slow second reading of a capture, by the rules of the pages and nothing cleverer.

    checks/run second_reading                            compares the answers of the cases with its own
    checks/run second_reading -- FILE...                 prints what `report` writes about the capture
    checks/run second_reading -- --first-fault FILE...   prints what `first-fault` writes

Each of its rules of the report is in docs/ENVELOPE.md, docs/COMMANDS.md or docs/REPORT.md, and it
shares no code with the auditor. It puts what belongs together into one list, goes through the lists
and counts. It has no stack, joins no sums, and takes some seconds for a million records. The status
is 2 if the capture is malformed, 1 if a case differs, 64 for another command line, and 0 otherwise.

Of crates/audit_cases it looks at the cases that have a capture and an answer about it. If all is well
it prints nothing. Otherwise it names each case that differs, with status 1.
"""

import pathlib
import struct
import sys
from collections import Counter
from itertools import accumulate
from typing import Any, Callable, Iterable, Iterator, NamedTuple, TypeVar, ValuesView

from checks.kit import captures

# ---- the tables

NAMES = {code: name for name, code in vars(captures).items() if name.startswith(("BC_", "BR_"))}


def table_of(codes: Iterable[int]) -> dict[int, dict[int, str]]:
    """For each number of these code words the payload sizes, and the name for each size."""
    table: dict[int, dict[int, str]] = {}
    for code in codes:
        table.setdefault(code & 0xFF, {})[code >> 16 & 0x3FFF] = NAMES[code]
    return table


COMMANDS, RETURNS = table_of(captures.COMMANDS), table_of(captures.RETURNS)

# What opaque records are that a newer header lists, by their code words. In the report they are `OPAQUE`.
NEWER = {code: NAMES[code] for code in captures.FREEZES}

# For each direction: the letter of the codes, their direction bits if there is a payload, their table.
WRITE, READ = 1, 2
DIRECTIONS = {WRITE: (ord("c"), 1, COMMANDS), READ: (ord("r"), 2, RETURNS)}

# For each sort: the name of the object in the report, and its length.
SORTS = {
    0x73622A85: ("binder", 24),
    0x77622A85: ("weak_binder", 24),
    0x73682A85: ("handle", 24),
    0x77682A85: ("weak_handle", 24),
    0x66642A85: ("fd", 24),
    0x66646185: ("fda", 32),
    0x70742A85: ("ptr", 40),
}

TF_ONE_WAY = 0x01
KNOWN_FLAGS = 0x7D

SENT_TRANSACTIONS = "BC_TRANSACTION", "BC_TRANSACTION_SG"
SENT_REPLIES = "BC_REPLY", "BC_REPLY_SG"
GOT_TRANSACTIONS = "BR_TRANSACTION", "BR_TRANSACTION_SEC_CTX"
DELIVERIES = (*GOT_TRANSACTIONS, "BR_REPLY")
TRANSACTIONS_AND_REPLIES = (*SENT_TRANSACTIONS, *SENT_REPLIES, *DELIVERIES)
CONFIRMATIONS = (
    "BR_TRANSACTION_COMPLETE", "BR_ONEWAY_SPAM_SUSPECT", "BR_TRANSACTION_PENDING_FROZEN")
ERROR_REPLIES = "BR_DEAD_REPLY", "BR_FAILED_REPLY", "BR_FROZEN_REPLY"


# ---- what a capture holds


class Fault(Exception):
    """The first fault of a capture: its kind and its place."""


class PartFault(Exception):
    """The first fault of parts: the part's number, from 1, the kind, and the place in that part."""


class Process(NamedTuple):
    """A process: its device and its number, as in a row."""
    device: int
    number: int

    def __str__(self) -> str:
        return f"{self.device} {self.number}"


class Frame(NamedTuple):
    place: int
    sequence: int
    process: Process
    thread: int
    direction: int
    commands: bytes
    attachments: bytes


class Record(NamedTuple):
    offset: int  # from the frame's first command byte
    code: int
    kind: str
    payload: bytes


class Entry(NamedTuple):
    body: bytes
    listed: bytes


class Event(NamedTuple):
    """A record of a capture, with the process and the thread of its frame."""
    place: int
    process: Process
    thread: int
    code: int
    kind: str
    payload: bytes
    entry: Entry | None


def number(data: bytes, at: int, size: int) -> int:
    """The number in the `size` bytes there, the lowest byte first."""
    return int.from_bytes(data[at:at + size], "little")


# The fields of a transaction or reply.


def target_handle(event: Event) -> int:
    return number(event.payload, 0, 4)


def transaction_code(event: Event) -> int:
    return number(event.payload, 16, 4)


def flags(event: Event) -> int:
    return number(event.payload, 20, 4)


def sender_pid(event: Event) -> int:
    return int.from_bytes(event.payload[24:28], "little", signed=True)


def data_size(event: Event) -> int:
    return number(event.payload, 32, 8)


def buffer(event: Event) -> int:
    return number(event.payload, 48, 8)


Thing = TypeVar("Thing")
Key = TypeVar("Key")
Moved = TypeVar("Moved", Frame, Event)


# ---- from bytes to frames and events, or to the first fault


VERSIONS = {b"BNDRCAP1": 1, b"BNDRCAP2": 2}


def version_of(capture: bytes) -> int:
    """The version in the file header."""
    if len(capture) < 16:
        raise Fault("HeaderShort", 0)
    if capture[:8] not in VERSIONS:
        raise Fault("HeaderMagic", 0)
    if number(capture, 8, 4) != 8:
        raise Fault("HeaderProtocol", 8)
    if number(capture, 12, 4) != 0:
        raise Fault("HeaderReserved", 12)
    return VERSIONS[capture[:8]]


# Sequence, process, thread, direction, reserved, command length, attachment length, device. In version
# 1 the field of the device is reserved too.
FRAME_HEADER = struct.Struct("<QIIB3sIII")


def read_frame(capture: bytes, version: int, place: int, before: Frame | None) -> Frame:
    """The frame that begins there. `before` is the frame before it, if there is one."""
    if place + 32 > len(capture):
        raise Fault("FrameShort", place)
    sequence, process, thread, direction, reserved, commands, attachments, device = (
        FRAME_HEADER.unpack_from(capture, place))
    if before is not None and sequence <= before.sequence:
        raise Fault("FrameSequence", place)
    if direction not in DIRECTIONS:
        raise Fault("FrameDirection", place)
    if any(reserved) or version == 1 and device != 0:
        raise Fault("FrameReserved", place)
    first = place + 32
    second, end = first + commands, first + commands + attachments
    if end > len(capture):
        raise Fault("FrameLength", place)
    return Frame(place, sequence, Process(device, process), thread, direction,
                 capture[first:second], capture[second:end])


def kind_of(code: int, direction: int, place: int) -> str:
    """The name of a code word at this place, in a frame of this direction."""
    letter, bits, table = DIRECTIONS[direction]
    size = code >> 16 & 0x3FFF
    if code >> 8 & 0xFF != letter or code >> 30 != (bits if size else 0):
        raise Fault("RecordDirection", place)
    sizes = table.get(code & 0xFF)
    if sizes is None:
        return "OPAQUE"
    if size not in sizes:
        raise Fault("RecordSize", place)
    return sizes[size]


def records_of(frame: Frame) -> Iterator[Record]:
    """The records of a frame, up to a fault."""
    commands, offset = frame.commands, 0
    while offset < len(commands):
        place, first = frame.place + 32 + offset, offset + 4
        if first > len(commands):
            raise Fault("RecordShort", place)
        code = number(commands, offset, 4)
        kind = kind_of(code, frame.direction, place)
        end = first + (code >> 16 & 0x3FFF)
        if end > len(commands):
            raise Fault("RecordShort", place)
        yield Record(offset, code, kind, commands[first:end])
        offset = end


def entries_of(frame: Frame, records: Iterable[Record]) -> Iterator[tuple[int, int, Entry]]:
    """The attachment entries of a frame, up to a fault: the offset of the record, the place of the entry, and the
    entry."""
    owners = {record.offset: record for record in records if record.kind in TRANSACTIONS_AND_REPLIES}
    attached, at, latest = frame.attachments, 0, -1
    while at < len(attached):
        place, body = frame.place + 32 + len(frame.commands) + at, at + 12
        if body > len(attached):
            raise Fault("AttachShort", place)
        offset, d, o = (number(attached, field, 4) for field in (at, at + 4, at + 8))
        listed, end = body + d, body + d + o
        if end > len(attached):
            raise Fault("AttachShort", place)
        if offset not in owners or offset <= latest:
            raise Fault("AttachRecord", place)
        owner = owners[offset].payload
        if (d, o) != (number(owner, 32, 8), number(owner, 40, 8)):
            raise Fault("AttachSize", place)
        yield offset, place, Entry(attached[body:listed], attached[listed:end])
        at, latest = end, offset


def events_of(frame: Frame) -> list[Event]:
    """The records of a frame, each with its attachment entry if it has one."""
    records = list(records_of(frame))
    entries = {offset: entry for offset, _, entry in entries_of(frame, records)} if frame.attachments else {}
    return [Event(frame.place + 32 + record.offset, frame.process, frame.thread,
                  record.code, record.kind, record.payload, entries.get(record.offset))
            for record in records]


def read_part(part: bytes, before: Frame | None) -> tuple[list[Frame], list[Event]]:
    """The frames and the events of a part. `before` is the frame before it, if there is one."""
    version, place = version_of(part), 16
    frames, events = [], []
    while place < len(part):
        before = read_frame(part, version, place, before)
        frames.append(before)
        events += events_of(before)
        place += 32 + len(before.commands) + len(before.attachments)
    return frames, events


def moved(things: Iterable[Moved], base: int) -> list[Moved]:
    """The frames or events, each this many bytes further on."""
    return [thing._replace(place=base + thing.place) for thing in things] if base else list(things)


def read_parts(parts: list[bytes]) -> tuple[list[Frame], list[Event]]:
    """The frames and the events of parts without a fault, at their places in the joined capture."""
    frames: list[Frame] = []
    events: list[Event] = []
    base = 0
    for number, part in enumerate(parts, 1):
        try:
            more, told = read_part(part, frames[-1] if frames else None)
        except Fault as fault:
            raise PartFault(number, *fault.args) from None
        frames += moved(more, base)
        events += moved(told, base)
        base += len(part) - 16
    return frames, events


# ---- totals and codes


def different(things: Iterable[Key]) -> list[Key]:
    """These things without repetitions, each where it comes first."""
    return list(dict.fromkeys(things))


def grouped(things: Iterable[Thing], key: Callable[[Thing], Key]) -> dict[Key, list[Thing]]:
    """For each key the list of the things that have it, in their order."""
    groups: dict[Key, list[Thing]] = {}
    for thing in things:
        groups.setdefault(key(thing), []).append(thing)
    return groups


def by_place(events: list[Event]) -> list[Event]:
    return sorted(events, key=lambda event: event.place)


def of_kind(events: list[Event], *kinds: str) -> list[Event]:
    return [event for event in events if event.kind in kinds]


def totals(frames: list[Frame], events: list[Event]) -> list[str]:
    missing = frames[-1].sequence - frames[0].sequence - (len(frames) - 1) if frames else 0
    opaque = len(of_kind(events, "OPAQUE"))
    return [f"frames {len(frames)} records {len(events)} opaque {opaque} missing {missing}"]


def codes(events: list[Event]) -> list[str]:
    found = Counter((event.code, event.kind) for event in events)
    rows = [f"  0x{code:08x} {kind} {found[code, kind]}" for code, kind in sorted(found)]
    return [f"codes {len(rows)}", *rows]


# ---- the calls of each thread


def is_oneway(event: Event) -> bool:
    return flags(event) & TF_ONE_WAY != 0


def is_oneway_send(event: Event) -> bool:
    return event.kind in SENT_TRANSACTIONS and is_oneway(event)


def is_mark(event: Event) -> bool:
    if event.kind in GOT_TRANSACTIONS:
        return not is_oneway(event)
    return event.kind in (
        *SENT_TRANSACTIONS, *SENT_REPLIES, "BR_REPLY", *CONFIRMATIONS, *ERROR_REPLIES)


def refused_sends(thread: list[Event]) -> list[Event | None]:
    """For each event of a thread the send that it reports as refused, or None."""
    sends: list[Event | None] = []
    latest = None
    for event in thread:
        tells = (event.kind in ERROR_REPLIES and latest is not None
                 and (is_oneway_send(latest) or latest.kind in SENT_REPLIES))
        sends.append(latest if tells else None)
        if is_mark(event):
            latest = event
    return sends


def is_opener(event: Event) -> bool:
    return event.kind in (*SENT_TRANSACTIONS, *GOT_TRANSACTIONS) and not is_oneway(event)


def is_closer(event: Event, refused: Event | None) -> bool:
    """Whether an event closes a call. `refused` is the send that it reports as refused, or None."""
    return (event.kind in ("BR_REPLY", *SENT_REPLIES)
            or event.kind in ERROR_REPLIES and refused is None)


def ends_of(openers: list[bool], closers: list[bool]) -> dict[int, int | None]:
    """Where each opener is closed: the index of the first event at which the closers since the
    opener are as many as the openers, the opener included; None if there is no such event. The lists
    say for each event of the thread whether it is an opener, and whether it is a closer.

    The height at an event is the number of openers before it less the number of closers. So an opener
    is closed by the first event after which the height is what it was before the opener."""
    steps = (opens - closes for opens, closes in zip(openers, closers))
    heights = list(accumulate(steps, initial=0))
    ends, first_behind = {}, {}
    for index in reversed(range(len(openers))):
        first_behind[heights[index + 1]] = index
        if openers[index]:
            ends[index] = first_behind.get(heights[index])
    return ends


def verdict(opener: Event, closer: Event | None) -> str:
    if closer is None:
        return "open"
    if opener.kind in SENT_TRANSACTIONS:
        if closer.kind == "BR_REPLY":
            return "answered"
        return "failed" if closer.kind in ERROR_REPLIES else "crossed"
    return "replied" if closer.kind in SENT_REPLIES else "crossed"


class Calls(NamedTuple):
    """What became of the calls of all threads."""
    judged: list  # for each opener: the event, its verdict, and its closer or None
    strays: list
    refused: list  # for each refused send: the event that reports it, and the send


def calls_of_thread(thread: list[Event]) -> Calls:
    sends = refused_sends(thread)
    openers = [is_opener(event) for event in thread]
    closers = [is_closer(event, send) for event, send in zip(thread, sends)]
    ends = ends_of(openers, closers)
    judged = []
    for index, end in ends.items():
        closer = None if end is None else thread[end]
        judged.append((thread[index], verdict(thread[index], closer), closer))
    matched = set(ends.values())
    strays = [event for index, event in enumerate(thread)
              if closers[index] and index not in matched]
    refused = [(event, send) for event, send in zip(thread, sends) if send is not None]
    return Calls(judged, strays, refused)


def calls_of(events: list[Event]) -> Calls:
    judged, strays, refused = [], [], []
    for events_of_thread in grouped(events, lambda event: (event.process, event.thread)).values():
        thread = calls_of_thread(events_of_thread)
        judged += thread.judged
        strays += thread.strays
        refused += thread.refused
    return Calls(sorted(judged, key=lambda row: row[0].place), by_place(strays),
                 sorted(refused, key=lambda row: row[0].place))


def call_row(event: Event, shown: int, verdict: str, closer: Event | None) -> str:
    """A row of `calls` or `served`. `shown` is the field in which the two sections differ."""
    return (f"  {event.place} {event.process} {event.thread} {shown} {transaction_code(event)}"
            f" {verdict} {'-' if closer is None else closer.place}")


def calls(found: Calls) -> list[str]:
    made = [row for row in found.judged if row[0].kind in SENT_TRANSACTIONS]
    verdicts = [row[1] for row in made]
    answered, failed = verdicts.count("answered"), verdicts.count("failed")
    unanswered = verdicts.count("crossed") + verdicts.count("open")
    return [f"calls {len(made)} answered {answered} failed {failed} unanswered {unanswered}",
            *(call_row(row[0], target_handle(row[0]), row[1], row[2])
              for row in made if row[1] != "answered")]


def served(found: Calls) -> list[str]:
    got = [row for row in found.judged if row[0].kind in GOT_TRANSACTIONS]
    verdicts = [row[1] for row in got]
    replied, crossed = verdicts.count("replied"), verdicts.count("crossed")
    return [f"served {len(got)} replied {replied} crossed {crossed} open {verdicts.count('open')}",
            *(call_row(row[0], sender_pid(row[0]), row[1], row[2])
              for row in got if row[1] != "replied")]


def thread_row(event: Event) -> str:
    return f"  {event.place} {event.process} {event.thread} {event.kind}"


def strays(found: Calls) -> list[str]:
    return [f"strays {len(found.strays)}", *map(thread_row, found.strays)]


def refused(found: Calls) -> list[str]:
    return [f"refused {len(found.refused)}", *(thread_row(row[0]) for row in found.refused)]


# ---- what each process holds


def count(events: list[Event], up: str, down: str) -> tuple[int, int]:
    """The number of events of kind `up` less those of kind `down`, and the least value that it ever
    had, beginning with 0."""
    values = [0]
    for event in events:
        values.append(values[-1] + (event.kind == up) - (event.kind == down))
    return values[-1], min(values)


def of_each_process(processes: list[Process], events: list[Event]) -> list[tuple[Process, list[Event]]]:
    """Each of the processes, with its own events."""
    own = grouped(events, lambda event: event.process)
    return [(process, own.get(process, [])) for process in processes]


def of_rising_keys(events: list[Event], key: Callable[[Event], Any]) -> list[tuple[Any, list[Event]]]:
    """Each key of these events, in rising order, with the events that have it."""
    return sorted(grouped(events, key).items())


def handle_of(event: Event) -> int:
    return number(event.payload, 0, 4)


def held_by(deliveries: list[Event]) -> Counter[tuple[str, int]]:
    """How many objects with a handle these deliveries have, by the name of the object and the handle."""
    held: Counter[tuple[str, int]] = Counter()
    for delivery in deliveries:
        if delivery.entry is not None:
            good, _ = objects_of(delivery.entry)
            held.update((name, number(delivery.entry.body, offset + 8, 4))
                        for name, offset in good if name in ("handle", "weak_handle"))
    return held


def handles(processes: list[Process], events: list[Event]) -> list[str]:
    named = of_kind(events, "BC_ACQUIRE", "BC_RELEASE", "BC_INCREFS", "BC_DECREFS")
    unfreed = BUFFERS.outstanding(events)
    rows, unbalanced = [], 0
    for (process, own), (_, deliveries) in zip(
            of_each_process(processes, named), of_each_process(processes, unfreed)):
        took, held = grouped(own, handle_of), held_by(deliveries)
        for handle in sorted({*took, *(handle for _, handle in held)}):
            same = took.get(handle, [])
            strong, strong_low = count(same, "BC_ACQUIRE", "BC_RELEASE")
            weak, weak_low = count(same, "BC_INCREFS", "BC_DECREFS")
            unbalanced += (strong, weak) != (0, 0)
            rows.append(f"  {process} {handle} {strong} {strong_low} {weak} {weak_low}"
                        f" {held['handle', handle]} {held['weak_handle', handle]}")
    return [f"handles {len(rows)} unbalanced {unbalanced}", *rows]


def node_of(event: Event) -> tuple[int, int]:
    return number(event.payload, 0, 8), number(event.payload, 8, 8)


def nodes(processes: list[Process], events: list[Event]) -> list[str]:
    named = of_kind(events, "BR_ACQUIRE", "BR_RELEASE", "BR_INCREFS", "BR_DECREFS",
                    "BC_ACQUIRE_DONE", "BC_INCREFS_DONE")
    rows, unbalanced = [], 0
    for process, own in of_each_process(processes, named):
        for (ptr, cookie), same in of_rising_keys(own, node_of):
            strong, strong_low = count(same, "BR_ACQUIRE", "BR_RELEASE")
            weak, weak_low = count(same, "BR_INCREFS", "BR_DECREFS")
            strong_due, _ = count(same, "BR_ACQUIRE", "BC_ACQUIRE_DONE")
            weak_due, _ = count(same, "BR_INCREFS", "BC_INCREFS_DONE")
            unbalanced += (strong, weak, strong_due, weak_due) != (0, 0, 0, 0)
            rows.append(f"  {process} 0x{ptr:x} 0x{cookie:x} {strong} {strong_low}"
                        f" {weak} {weak_low} {strong_due} {weak_due}")
    return [f"nodes {len(rows)} unbalanced {unbalanced}", *rows]


class Ledger(NamedTuple):
    """Records that open and close something by a key, each process for itself."""
    opens: tuple
    closes: tuple
    key: Callable[[Event], Any]

    def of_each_key(self, events: list[Event]) -> ValuesView[list[Event]]:
        """For each key in each process, the list of the events that have it."""
        ours = of_kind(events, *self.opens, *self.closes)
        return grouped(ours, lambda event: (event.process, self.key(event))).values()

    def outstanding(self, events: list[Event]) -> list[Event]:
        """The opens without a later close of their key."""
        found = []
        for same in self.of_each_key(events):
            closes = [event.place for event in same if event.kind in self.closes]
            found += [event for event in same if event.place > max(closes, default=-1)]
        return by_place(found)

    def strays(self, events: list[Event]) -> list[Event]:
        """The closes whose latest earlier event of their key is not an open."""
        found = []
        for same in self.of_each_key(events):
            found += [event for before, event in zip([None, *same], same)
                      if event.kind in self.closes
                      and (before is None or before.kind in self.closes)]
        return by_place(found)


def cookie_of(event: Event) -> int:
    """The cookie of a death, of its acknowledgement, or of the confirmation of a clear."""
    return number(event.payload, 0, 8)


def cookie_behind_handle(event: Event) -> int:
    """The cookie of a request or of a clear."""
    return number(event.payload, 4, 8)


def address_of(event: Event) -> int:
    """The address of a delivery or of a free."""
    return buffer(event) if event.kind in DELIVERIES else number(event.payload, 0, 8)


def cleared_cookie(event: Event) -> int:
    """The cookie of a clear or of its confirmation."""
    confirms = event.kind == "BR_CLEAR_DEATH_NOTIFICATION_DONE"
    return cookie_of(event) if confirms else cookie_behind_handle(event)


BUFFERS = Ledger(DELIVERIES, ("BC_FREE_BUFFER",), address_of)
DEATHS = Ledger(("BR_DEAD_BINDER",), ("BC_DEAD_BINDER_DONE",), cookie_of)
CLEARS = Ledger(
    ("BC_CLEAR_DEATH_NOTIFICATION",), ("BR_CLEAR_DEATH_NOTIFICATION_DONE",), cleared_cookie)


def buffers(events: list[Event]) -> list[str]:
    leaked = BUFFERS.outstanding(events)
    return [f"buffers {len(of_kind(events, *DELIVERIES))} leaked {len(leaked)}",
            *(f"  {event.place} {event.process} 0x{address_of(event):x} {data_size(event)}"
              f" {event.kind}" for event in leaked)]


def frees(events: list[Event]) -> list[str]:
    stray = BUFFERS.strays(events)
    return [f"frees {len(of_kind(events, 'BC_FREE_BUFFER'))} stray {len(stray)}",
            *(f"  {event.place} {event.process} 0x{BUFFERS.key(event):x}" for event in stray)]


def last_places(events: list[Event], key: Callable[[Event], Any]) -> dict[tuple[Process, Any], int]:
    """For each key the place of the last of these events that has it."""
    return {key(event): event.place for event in events}


def requests(events: list[Event]) -> list[str]:
    """A request is standing if nothing after it ends it. It is ended by a clear in its process with
    its handle and cookie, which are the payload of both, or by a death in its process with its
    cookie."""
    made = of_kind(events, "BC_REQUEST_DEATH_NOTIFICATION")
    cleared = last_places(of_kind(events, "BC_CLEAR_DEATH_NOTIFICATION"),
                          lambda clear: (clear.process, clear.payload))
    died = last_places(of_kind(events, "BR_DEAD_BINDER"),
                       lambda death: (death.process, cookie_of(death)))
    standing = [request for request in made if request.place > max(
        cleared.get((request.process, request.payload), -1),
        died.get((request.process, cookie_behind_handle(request)), -1))]
    return [f"requests {len(made)} standing {len(standing)}",
            *(f"  {event.place} {event.process} {handle_of(event)}"
              f" 0x{cookie_behind_handle(event):x}" for event in standing)]


def open_and_stray(name: str, open_name: str, ledger: Ledger, events: list[Event]) -> list[str]:
    """The section of a ledger that lists what is open and what is stray in one list."""
    outstanding, stray = ledger.outstanding(events), ledger.strays(events)
    told = [(event, open_name) for event in outstanding] + [(event, "stray") for event in stray]
    head = (f"{name} {len(of_kind(events, *ledger.opens))} {open_name} {len(outstanding)}"
            f" stray {len(stray)}")
    return [head, *(f"  {event.place} {event.process} 0x{ledger.key(event):x} {what}"
                    for event, what in sorted(told, key=lambda row: row[0].place))]


def deaths(events: list[Event]) -> list[str]:
    return open_and_stray("deaths", "unacknowledged", DEATHS, events)


def clears(events: list[Event]) -> list[str]:
    return open_and_stray("clears", "unconfirmed", CLEARS, events)


# ---- oneway transactions


def sizes(events: list[Event]) -> str:
    """The number of these events, and the sum of their data sizes."""
    return f"{len(events)} {sum(map(data_size, events))}"


def oneway(processes: list[Process], events: list[Event], found: Calls) -> list[str]:
    sent = [event for event in events if is_oneway_send(event)]
    received = [event for event in of_kind(events, *GOT_TRANSACTIONS) if is_oneway(event)]
    refused = [send for _, send in found.refused if is_oneway_send(send)]
    rows = []
    for (process, sends), (_, got) in zip(
            of_each_process(processes, sent), of_each_process(processes, received)):
        for handle, same in of_rising_keys(sends, target_handle):
            rows.append(f"  {process} sent {handle} {sizes(same)}")
        if got:
            rows.append(f"  {process} received {sizes(got)}")
    return [f"oneway sent {len(sent)} received {len(received)} refused {len(refused)}", *rows]


# ---- objects and flags


def cause_of(body: bytes, end: int, offset: int) -> str | None:
    """What makes the object at this offset bad; None for a good one. The object before it ends at `end`."""
    if offset % 4 != 0:
        return "Misaligned"
    if offset < end:
        return "Overlap"
    if offset + 4 > len(body):
        return "Short"
    if number(body, offset, 4) not in SORTS:
        return "UnknownSort"
    if offset + SORTS[number(body, offset, 4)][1] > len(body):
        return "Short"
    return None


def objects_of(entry: Entry) -> tuple[list[tuple[str, int]], tuple[int, int, str] | None]:
    """The names and offsets of the good objects before the first bad one; and the index, the offset
    and the cause of that one, or None."""
    if len(entry.listed) % 8 != 0:
        return [], (0, 0, "ListLength")
    good: list[tuple[str, int]] = []
    end = 0
    for index in range(len(entry.listed) // 8):
        offset = number(entry.listed, 8 * index, 8)
        cause = cause_of(entry.body, end, offset)
        if cause is not None:
            return good, (index, offset, cause)
        name, length = SORTS[number(entry.body, offset, 4)]
        good.append((name, offset))
        end = offset + length
    return good, None


def objects(events: list[Event]) -> list[str]:
    names, rows = [], []
    for event in events:
        if event.entry is not None:
            good, bad = objects_of(event.entry)
            names += [name for name, _ in good]
            if bad is not None:
                index, offset, cause = bad
                rows.append(f"  {event.place} {event.process} {index} {offset} {cause}")
    found = Counter(names)
    counts = " ".join(f"{name} {found[name]}" for name, _ in SORTS.values())
    return [f"objects {counts} bad {len(rows)}", *rows]


def unknown_flags(events: list[Event]) -> list[str]:
    rows = [f"  {event.place} {event.process} 0x{flags(event) & ~KNOWN_FLAGS:08x}"
            for event in of_kind(events, *TRANSACTIONS_AND_REPLIES)
            if flags(event) & ~KNOWN_FLAGS != 0]
    return [f"flags {len(rows)}", *rows]


# ---- the texts, and the command line


def report_of(frames: list[Frame], events: list[Event]) -> list[str]:
    """The lines of the report."""
    processes = different(frame.process for frame in frames)
    found = calls_of(events)
    return [
        "BINDER AUDIT 2",
        *totals(frames, events),
        *codes(events),
        *calls(found),
        *served(found),
        *strays(found),
        *refused(found),
        *handles(processes, events),
        *nodes(processes, events),
        *buffers(events),
        *frees(events),
        *requests(events),
        *deaths(events),
        *clears(events),
        *oneway(processes, events, found),
        *objects(events),
        *unknown_flags(events),
    ]


def reading_of_parts(parts: list[bytes], first_fault: bool = False) -> tuple[int, list[str]]:
    """The auditor's answer to a capture of these parts: its status and its lines."""
    try:
        frames, events = read_parts(parts)
    except PartFault as fault:
        part, kind, place = fault.args
        where = f" in part {part}" if len(parts) > 1 else ""
        return 2, [f"malformed {kind} at {place}{where}"]
    return 0, ["no malformed record"] if first_fault else report_of(frames, events)


def reading(capture: bytes, first_fault: bool = False) -> tuple[int, list[str]]:
    """The same for a capture of one part."""
    return reading_of_parts([capture], first_fault)


def cases(folder: pathlib.Path) -> Iterator[tuple[str, list[str]]]:
    """The cases of the folder, each with its line and the stored answer."""
    for case in (folder / "stdout").read_text("utf-8").removeprefix(">").split("\n>"):
        line, _, answer = case.partition("\n")
        yield line.removeprefix(" "), answer.rstrip("\n").split("\n")


def differences(folder: pathlib.Path) -> Iterator[str]:
    """The lines of the cases whose stored answer about a capture differs from the one here."""
    for line, answer in cases(folder):
        words = line.split("\t")
        if answer[0] in ("status 0", "status 2"):
            names = [word for word in words if word.endswith(".cap")]
            parts = [(folder / "data" / name).read_bytes() for name in names]
            status, lines = reading_of_parts(parts, words[0] == "first-fault")
            if answer != [f"status {status}", *lines]:
                yield line


def print_reading(files: list[str], first_fault: bool) -> int:
    status, lines = reading_of_parts([pathlib.Path(file).read_bytes() for file in files], first_fault)
    print("\n".join(lines))
    return status


def main(words: list[str]) -> int:
    match words:
        case []:
            lines = list(differences(pathlib.Path(__file__).resolve().parents[2] / "crates/audit_cases"))
            for line in lines:
                print(f"crates/audit_cases/stdout: {line}: not the answer of the second reading")
            return 1 if lines else 0
        case ["--help"] | ["-h"]:
            print(__doc__.rstrip())
            return 0
        case ["--first-fault", _, *_]:
            return print_reading(words[1:], first_fault=True)
        case [file, *_] if not file.startswith("-"):
            return print_reading(words, first_fault=False)
    print(__doc__, file=sys.stderr)
    return 64


if __name__ == "__main__":
    sys.exit(main(sys.argv[1:]))
