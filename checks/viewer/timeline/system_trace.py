"""A system trace of the phone of a capture, made by hand: packets as `traced` writes them, with the processes and
threads of the capture, and what happened to them. It says what a real one would, and is none."""

import sqlite3
from collections.abc import Iterator
from typing import NamedTuple

# Fields of TracePacket.
FTRACE, PROCESS_TREE, CLOCK_SNAPSHOT, TIMESTAMP, PROCESS_STATS, SEQUENCE, SERVICE = 1, 2, 6, 8, 9, 10, 69
# Fields of TracingServiceEvent: a flush of all that is recorded, and that what was recorded till then was read.
FLUSHED, READ = 3, 4
# Fields of FtraceEvent, and the flag of a new thread that is no new process.
SWITCH, TRANSACTION, RECEIVED, NEWTASK = 4, 50, 51, 235
CLONE_THREAD = 0x10000
REALTIME, REALTIME_COARSE, MONOTONIC, MONOTONIC_COARSE, MONOTONIC_RAW, BOOTTIME = range(1, 7)

# How far CLOCK_BOOTTIME is ahead when the recording begins, and how long the system sleeps in the middle.
AHEAD, SLEPT = 7_000_000_000, 50_000_000_000


def varint(number: int) -> bytes:
    made, number = bytearray(), number % 2**64
    while number > 127:
        made.append(number & 127 | 128)
        number >>= 7
    return bytes([*made, number])


def field(number: int, value: int | str | bytes) -> bytes:
    if isinstance(value, int):
        return varint(number << 3) + varint(value)
    data = value.encode() if isinstance(value, str) else value
    return varint(number << 3 | 2) + varint(len(data)) + data


def fields(**values: int | str | bytes | None) -> bytes:
    """Fields by their numbers: `_3=`."""
    return b"".join(field(int(name[1:]), value) for name, value in values.items() if value is not None)


def packet(number: int, body: bytes, time: int | None = None) -> bytes:
    return field(1, (field(TIMESTAMP, time) if time is not None else b"") + field(number, body) + field(SEQUENCE, 7))


# Events of the kernel by their processors: the time, the thread in which each is, and its fields.
Events = dict[int, list[tuple[int, int, bytes]]]


class Call(NamedTuple):
    """A call of which both ends are certain, on CLOCK_BOOTTIME."""
    begin: int
    came: int
    replied: int
    end: int
    client: int
    server: int
    code: int


class SystemTrace:
    """The trace, and what it must say. With `sleeps` the system sleeps in the middle of the capture."""

    def __init__(self, database: sqlite3.Connection, sleeps: bool = False):
        times = [ts for ts, in database.execute("SELECT ts FROM side_time ORDER BY ts")]
        self.begin, self.middle = times[0] - 10**9, times[len(times) // 2] if sleeps else None
        self.threads = database.execute("SELECT DISTINCT p.pid, p.name, t.tid, t.name FROM thread t JOIN process p"
                                        " USING (upid)").fetchall()
        self.calls = [Call(*map(self.boottime, row[:4]), *row[4:]) for row in database.execute(
            "SELECT c.ts, v.ts, v.ts + v.dur, c.ts + c.dur, a.tid, b.tid, c.code FROM send s JOIN call c USING (place)"
            " JOIN call v ON v.place = s.delivery JOIN thread a ON a.utid = c.utid JOIN thread b ON b.utid = v.utid"
            " WHERE s.certain AND c.dur NOTNULL AND v.dur NOTNULL ORDER BY c.ts")]
        self.memory = 2 * len({pid for pid, *_ in self.threads})

    def boottime(self, ns: int) -> int:
        return ns + AHEAD + (SLEPT if self.middle is not None and ns >= self.middle else 0)

    def snapshot(self, ns: int) -> bytes:
        boot, wall = self.boottime(ns), 10**18 + self.boottime(ns)
        clocks = ((BOOTTIME, boot), (REALTIME_COARSE, wall), (MONOTONIC_COARSE, ns), (REALTIME, wall), (MONOTONIC, ns),
                  (MONOTONIC_RAW, ns))
        return packet(CLOCK_SNAPSHOT, b"".join(field(1, fields(_1=clock, _2=time)) for clock, time in clocks) +
                      field(2, BOOTTIME))

    def tree(self) -> bytes:
        processes = b"".join(field(1, fields(_1=pid, _2=1, _3=f"/system/bin/{name}"))
                             for pid, name in dict.fromkeys((pid, name) for pid, name, *_ in self.threads))
        return packet(PROCESS_TREE, processes + b"".join(
            field(2, fields(_1=tid, _2=name, _3=pid)) for pid, _, tid, name in self.threads if tid != pid),
            self.boottime(self.begin + 2 * 10**8))

    def stats(self, ns: int) -> bytes:
        """How much memory each process has."""
        pids = dict.fromkeys(pid for pid, *_ in self.threads)
        return packet(PROCESS_STATS, b"".join(field(1, fields(_1=pid, _3=1000 + pid)) for pid in pids),
                      self.boottime(ns))

    def tasks(self) -> Events:
        """How processes and threads begin while the system is traced, as those of an app that is started, a while
        before they are seen; pid 1 makes the processes."""
        made = []
        for at, (pid, name, tid, thread) in enumerate(sorted(self.threads, key=lambda it: (it[0], it[2]))):
            first = tid == pid
            made.append((self.boottime(self.begin + 10**8) + 1000 * at, 1 if first else pid, field(NEWTASK, fields(
                _1=tid, _2=name if first else thread, _3=0 if first else CLONE_THREAD, _4=0))))
        return {0: made}

    def switches(self) -> Events:
        """Each thread has a processor of its own, and sleeps in its calls and while it has none to serve."""
        changes: dict[int, list[tuple[int, bool]]] = {}
        for call in self.calls:
            changes.setdefault(call.client, []).extend([(call.begin + 1000, False), (call.end - 500, True)])
            changes.setdefault(call.server, []).extend([(call.came - 500, True), (call.replied + 1000, False)])
        made: Events = {}
        for cpu, (tid, times) in enumerate(sorted(changes.items())):
            runs = None
            for time, now in sorted(times):
                if now != runs:
                    before, after = (0, tid) if now else (tid, 0)
                    made.setdefault(cpu, []).append((time, before, field(SWITCH, fields(
                        _1=str(before), _2=before, _3=120, _4=0 if now else 1, _5=str(after), _6=after, _7=120))))
                runs = now
        return made

    def binder(self) -> Events:
        """The events of the driver."""
        pids = {tid: pid for pid, _, tid, _ in self.threads}
        made = []
        for number, call in enumerate(self.calls):
            for ident, reply, sent, got, sender, getter in (
                    (2 * number + 1, 0, call.begin, call.came, call.client, call.server),
                    (2 * number + 2, 1, call.replied, call.end, call.server, call.client)):
                told = fields(_1=ident, _2=1, _3=pids[getter], _4=getter if reply else 0, _5=reply, _6=call.code, _7=0)
                made += [(sent, sender, field(TRANSACTION, told)), (got, getter, field(RECEIVED, field(1, ident)))]
        return {2: made}

    def pieces(self, some: list[Events], count: int) -> Iterator[bytes]:
        """Events as they are read: of each stretch of time those of one processor after those of another. Of several
        pieces, as `write_into_file` writes them, each ends with a flush and what says that it was read."""
        times = sorted(time for events in some for one in events.values() for time, *_ in one)
        edges = [times[len(times) * at // count] for at in range(count)] + [times[-1] + 1] if times else []
        for begin, end in zip(edges, edges[1:]):
            for events in some:
                for cpu, one in events.items():
                    if now := sorted(it for it in one if begin <= it[0] < end):
                        yield packet(FTRACE, field(1, cpu) + b"".join(
                            field(2, fields(_1=time, _2=tid) + event) for time, tid, event in now))
            if count > 1:
                yield packet(SERVICE, field(FLUSHED, 1), end)
                yield packet(SERVICE, field(READ, 1), end)

    def made(self, has_binder: bool, has_switches: bool = False, has_tasks: bool = False, pieces: int = 1) -> bytes:
        """The trace. With tasks, processes and threads begin in it, and without they were there before."""
        more = self.snapshot(self.middle) if self.middle is not None else b""
        end = self.snapshot(self.begin + 10**10)
        some = [self.binder()] * has_binder + [self.switches()] * has_switches
        return b"".join((self.snapshot(self.begin), more, end, *self.pieces([self.tasks()] * has_tasks, 1), self.tree(),
                         self.stats(self.begin + 2 * 10**8), self.stats(self.begin + 10**9),
                         *self.pieces(some, pieces)))
