"""Reads a timeline in Perfetto's own format, by a decoder of its own."""

import gzip
import pathlib
import re
import sqlite3
import zlib
from collections import defaultdict
from typing import Iterator

from checks.kit.checking import Fail, compare
from checks.viewer.timeline.read import Instant, Queue, Read

Message = dict[int, list]

# The names of counters, by how the page on timelines calls them.
COUNTERS = {"binder buffers held": "buffers", "binder buffer bytes": "bytes", "binder async bytes": "async bytes",
            "binder strong references": "references", "binder calls open": "calls", "binder threads busy": "threads"}
OPENING = re.compile(r"(.*?)(?: of (.*?))?(?:, process (\d+) of the capture)?")


# ---- the wire


def varint(data: bytes, at: int) -> tuple[int, int]:
    made = shift = 0
    while True:
        made |= (data[at] & 127) << shift
        at, shift = at + 1, shift + 7
        if data[at - 1] < 128:
            return made, at


def fields(data: bytes) -> Iterator[tuple[int, int | bytes]]:
    at = 0
    while at < len(data):
        head, at = varint(data, at)
        if head & 7 == 0:
            value, at = varint(data, at)
        else:
            length, at = {1: lambda: (8, at), 2: lambda: varint(data, at)}[head & 7]()
            value, at = data[at:at + length], at + length
            if at > len(data):
                raise ValueError("a field is longer than its message")
            value = int.from_bytes(value, "little") if head & 7 == 1 else value
        yield head >> 3, value


def message(data: bytes) -> Message:
    """A message: the values of each field."""
    made: Message = defaultdict(list)
    for field, value in fields(data):
        made[field].append(value)
    return made


COMPRESSED, MOST_COMPRESSED = 50, 512 << 10


def packets_of(path: pathlib.Path) -> Iterator[bytes]:
    """The packets of a file: those in a file of gzip, or those in packets that have nothing but compressed ones."""
    data = path.read_bytes()
    if data[:2] == b"\x1f\x8b":
        yield from (packet for _, packet in fields(gzip.decompress(data)))
        return
    for _, outer in fields(data):
        (field, inner), = fields(outer)
        if field != COMPRESSED or len(inner) >= MOST_COMPRESSED:
            raise ValueError(f"field {field} of {len(inner)} bytes around packets")
        yield from (packet for _, packet in fields(zlib.decompress(inner)))


# ---- packets


class ReadPackets(Read):
    """A timeline of packets. The track of a thread is its process's number and its own, those of the system."""

    def __init__(self, path: pathlib.Path, database: sqlite3.Connection, fail: Fail, whole_: bool = True):
        super().__init__(database, fail, whole_)
        self.interned: dict[int, dict[int, Message]] = defaultdict(dict)
        self.tracks: dict[int, Message] = {}
        self.open_queues: dict[int, Queue] = {}
        self.clocks: list[dict[int, int]] = []
        self.pids: dict[int, list[int]] = defaultdict(list)
        self.tids: dict[tuple[int, int], str | None] = {}
        self.findings: dict[str, list[Instant]] = defaultdict(list)
        self.stacks_of: dict[int, list[tuple[str | None, str, int]]] = {}
        self.correlated: dict[int, list] = defaultdict(list)
        self.system = {upid: pid if pid is not None else process for upid, process, pid in
                       database.execute("SELECT upid, process, pid FROM process")}
        # When a thread may first be seen, and a process: a number may be given again.
        self.seen: dict[tuple[int, int] | int, set[int]] = defaultdict(set)
        for upid, thread, tid, ts in database.execute("SELECT t.upid, t.thread, t.tid, x.ts FROM thread t"
                                                      " JOIN side_time x ON x.seq = t.first_seq"):
            of = self.thread_of(upid, thread, tid)
            self.seen[of].add(ts)
            self.seen[of[0]].add(ts)
        for packet in packets_of(path):
            self.take(message(packet))
        self.end_of_file()

    def thread_of(self, upid: int, thread: int, tid: int | None) -> tuple[int, int]:
        return self.system[upid], thread if tid is None else tid

    def take(self, packet: Message) -> None:
        # Processes and threads are told on a sequence of their own, for which the clock is not told once for all.
        describes = any(told[3] or told[4] for told in map(message, packet[60]))
        compare("the sequence of a packet, and the clock", (packet[10], packet[58]),
                ([0x42494E45], [3] * len(packet[8])) if describes else ([0x42494E44], []), self.fail)
        for data in packet[12]:
            for kind, value in fields(data):
                one = message(value)
                if one[1][0] in self.interned[kind]:
                    self.fail(f"a number twice in list {kind}: {one}")
                self.interned[kind][one[1][0]] = one
        for data in packet[6]:
            self.clocks.append({clock[1][0]: clock[2][0] for clock in map(message, message(data)[1])})
        for data in packet[60]:
            self.take_track(message(data), packet[8])
        for data in packet[126]:
            for one in map(message, message(data)[1]):
                self.told[one[1][0].decode()] = one[2][0] if one[2] else one[3][0].decode()
        for data in packet[11]:
            compare("the flags of an event", packet[13], [2], self.fail)
            self.take_event(packet[8][0], message(data))

    def take_track(self, told: Message, times: list[int]) -> None:
        uuid, = told[1]
        if told[3] or told[4]:
            seen = self.seen[self.track_of(told)]  # type: ignore[index]
            compare(f"the time of {self.track_of(told)}, one of {seen}", (len(times), set(times) <= seen),
                    (bool(seen), True), self.fail)
        if uuid in self.tracks or any(parent not in self.tracks for parent in told[5]):
            self.fail(f"a track twice, or before the one around it: {told}")
        self.tracks[uuid] = told
        for process in map(message, told[3]):
            self.pids[process[1][0]].append(uuid)
        for thread in map(message, told[4]):
            compare("a thread that has a track of its own", told[9], [1], self.fail)
            self.tids[thread[1][0], thread[2][0]] = thread[5][0].decode() if thread[5] else None

    def text(self, kind: int, event: Message, by_number: int, whole_: int) -> str:
        data = self.interned[kind][event[by_number][0]][2][0] if event[by_number] else event[whole_][0]
        return data.decode()

    def arguments(self, event: Message) -> dict[str, object]:
        found: dict[str, object] = {}
        for one in map(message, event[4]):
            name = self.interned[3][one[1][0]][2][0].decode()
            if name in found:
                self.fail(f"an argument twice: {name}")
            signed = [value - 2**64 if value >= 2**63 else value for value in one[4]]
            found[name] = hex(one[7][0]) if one[7] else next(
                iter(one[3] + signed), None) if one[3] or one[4] else self.text(29, one, 17, 6)
        return found

    def track_of(self, told: Message) -> tuple[int, int] | str:
        """A thread by its numbers, a process by its number, and another one by its name."""
        if told[4]:
            thread = message(told[4][0])
            return thread[1][0], thread[2][0]
        return message(told[3][0])[1][0] if told[3] else told[2][0].decode()

    def take_event(self, ns: int, event: Message) -> None:
        """An event, and then its counters, which are as many as there are slices after it."""
        if event[9] != [4]:
            self.take_on_track(ns, event)
        self.take_counters(event)

    def take_on_track(self, ns: int, event: Message) -> None:
        kind, uuid = event[9][0], event[11][0]
        told = self.tracks[uuid]
        track, args = self.track_of(told), self.arguments(event)
        if track == "binder queue":
            if kind == 1:
                self.open_queues[uuid] = self.queue(track, ns, args)
            else:
                self.open_queues.pop(uuid).end = ns
            return None
        if kind == 2:
            self.finish(track, ns, args)
            return None
        cat, name = self.text(1, event, 3, 22), self.text(2, event, 10, 23)
        if kind == 1:
            one = self.begin(track, ns, cat, name, args)
            for flow in event[47]:
                self.flows[flow].append(one)
            for number in event[52]:
                self.correlated[number].append(one)
        else:
            instant = Instant(track, cat, name, args)
            (self.findings[track] if str(track) in ("binder_audit: real", "binder_audit: maybe") else
             self.instants).append(instant)
            for flow in event[47]:
                self.links[flow].append(instant)
        for stack in event[56]:
            self.stacks_of[args["place"] if kind == 1 else -1] = self.stack(stack)

    def stack(self, number: int) -> list[tuple[str | None, str, int]]:
        """The functions of a stack, the innermost first: name, file, place in it."""
        found = []
        for frame in self.interned[7][number][2][::-1]:
            told = self.interned[6][frame]
            function = self.interned[5][told[2][0]][2][0].decode() if told[2] else None
            parts = [self.interned[17][part][2][0].decode() for part in self.interned[19][told[3][0]][7]]
            found.append((function, "/".join(parts), told[4][0]))
        return found

    def take_counters(self, event: Message) -> None:
        """The counters of an event: its own one, and extra ones, which are all of one process."""
        compare("extra counters of 0 come last", sorted(event[12], key=lambda value: value == 0), event[12], self.fail)
        compare("an extra counter twice", sorted(set(event[31])), sorted(event[31]), self.fail)
        of = {parent for uuid in event[31] for parent in self.tracks[uuid][5]}
        compare("extra counters of one process", len(of) <= 1, True, self.fail)
        for uuid, value in zip([*event[11][:len(event[30])], *event[31]], [*event[30], *event[12]], strict=True):
            told = self.tracks[uuid]
            pid = message(self.tracks[told[5][0]][3][0])[1][0]
            name, device, process = OPENING.fullmatch(told[2][0].decode()).groups()
            upids = [upid for upid, of, number in self.database.execute(
                "SELECT p.upid, coalesce(d.name, 'device ' || device), process FROM process p JOIN device d"
                " USING (device) ORDER BY p.upid") if self.system[upid] == pid and of == (device or of)
                and number == int(process or number)]
            # A number that was given again has two tracks, one after the other.
            which = self.pids[pid].index(told[5][0]) if len(upids) > 1 else 0
            self.count(upids[which], COUNTERS[name], value)
