"""A made-up minute of a phone, of which it is known where the time went.

    10 s     the main thread of com.example.app calls IPackageManager code 5, of system_server, and waits for 379.49
             ms: 60.08 in the queue of system_server, 20 of its work, 299.31 in ISensors code 3 of sensors-hal, of which
             250.13 are IPower code 2 of powerd
    20-22 s  com.spam.logger sends 400 oneway INotes code 9 to com.example.ime, one in 5 ms; it takes 10 ms for each
    30 s     system_server calls IListener code 1 of 30 listeners, one after another: each works for 1 or 2 ms, and that
             of com.slow.clock for 120
    35-45 s  com.chatty.mail asks IPackageManager code 7 for the same, 200 times, once in 50 ms
    40.217 s com.tools.root calls IPower code 77 once
    50 s     com.example.app calls IPackageManager code 9 once
    all of it: apps call IPackageManager codes 5, 7, 12 and 13, at random, for a millisecond or two

Times are nanoseconds since the first frame, which is at BASE. A call takes 0.08 ms to a free thread of the server, and
0.05 ms back."""

import heapq
import random
from typing import Callable, Iterable, NamedTuple, Sequence

from checks.kit.captures import (BC_ACQUIRE, BC_ENTER_LOOPER, BC_FREE_BUFFER, BC_REGISTER_LOOPER, BC_REPLY,
                                 BC_TRANSACTION, BR_NOOP, BR_REPLY, BR_TRANSACTION, BR_TRANSACTION_COMPLETE, HEADER_2,
                                 SORTS, changed, entry, frame, of_handle, offsets, places_of, record, transaction, u32,
                                 u64)
from checks.kit.tokens import MANAGER, marked, string16

MICROSECOND, MILLISECOND, SECOND = 1_000, 1_000_000, 1_000_000_000
BASE = SECOND
DONE = record(BR_TRANSACTION_COMPLETE)
THERE, BACK = 80 * MICROSECOND, 50 * MICROSECOND
# What the wall clock showed at BASE, in seconds since 1970: 2026-11-28 14:03:17 in the zone UTC.
WALL = 1795874597


class Process:
    """A process with threads that take calls. `handles` are those of services, by their names."""

    def __init__(self, pid: int, name: str, uid: int, loopers: int) -> None:
        self.pid, self.name, self.uid = pid, name, uid
        self.threads = [pid + 1 + number for number in range(loopers)]
        self.free_at = dict.fromkeys(self.threads, 0)
        self.next_address = 0x7000_0000
        self.handles: dict[str, int] = {}

    def address(self) -> int:
        self.next_address += 0x1000
        return self.next_address

    def thread_at(self, time: int) -> int:
        """The thread that is free first."""
        return min(self.threads, key=lambda thread: (max(self.free_at[thread] - time, 0), thread))


class Node(NamedTuple):
    """An object: of a process, and what calls to it name."""
    owner: Process
    ptr: int
    interface: str


# What a server does within a call: from when on, in which process and thread; returns until when.
Within = Callable[[int, Process, int], int]
# Data and the list of offsets, as the sender has them, and the data as the receiver has them.
Data = tuple[bytes, bytes, bytes]


def plain(data: bytes) -> Data:
    return data, b"", data


def own_object(ptr: int) -> bytes:
    """An object of the sender."""
    return changed(SORTS[0], (8, u64(ptr)))


class Minute:
    """What is recorded: what threads read and write, at which times. A frame may have one attachment: the number of the
    record, the data and the list."""

    def __init__(self) -> None:
        self.frames: list[tuple[int, int, Process, int, int, list[bytes], tuple[int, bytes, bytes] | None]] = []

    def frame(self, time: int, process: Process, thread: int, direction: int, records: list[bytes],
              attached: tuple[int, bytes, bytes] | None = None) -> None:
        heapq.heappush(self.frames, (time, len(self.frames), process, thread, direction, records, attached))

    def call(self, time: int, client: Process, thread: int, node: Node, handle: int, code: int, data: Data, *,
             work: int = MILLISECOND, queue: int = 0, within: Sequence[Within] = (), by: int | None = None,
             reply: Data = plain(b"\0\0\0\0")) -> int:
        """A call, from `time` on, that the server's thread `by` takes, or the one that is free first, after another
        `queue`. The server works, and then makes calls. Returns when the caller goes on."""
        server = node.owner
        by = server.thread_at(time + THERE) if by is None else by
        begins = max(time + THERE, server.free_at[by]) + queue
        sizes, there, here = (len(data[0]), len(data[1])), server.address(), client.address()
        self.frame(time, client, thread, 1, [transaction(BC_TRANSACTION, handle, code, 0x10, 0, sizes)],
                   (0, data[0], data[1]))
        self.frame(begins, server, by, 2, [record(BR_NOOP), transaction(
            BR_TRANSACTION, node.ptr, code, 0x10, client.pid, sizes, there)], (1, data[2], data[1]))
        now = begins + work
        for one in within:
            now = one(now, server, by)
        server.free_at[by] = now + 60 * MICROSECOND
        sizes = len(reply[0]), len(reply[1])
        self.frame(now, server, by, 1, [record(BC_FREE_BUFFER, u64(there)), transaction(BC_REPLY, sizes=sizes)],
                   (1, reply[0], reply[1]))
        self.frame(now + 30 * MICROSECOND, server, by, 2, [DONE])
        self.frame(now + BACK, client, thread, 2, [DONE, transaction(BR_REPLY, sizes=sizes, buffer=here)],
                   (1, reply[2], reply[1]))
        taken = [record(BC_ACQUIRE, reply[2][8:12])] if reply[1] else []
        self.frame(now + BACK + 20 * MICROSECOND, client, thread, 1, [*taken, record(BC_FREE_BUFFER, u64(here))])
        return now + 2 * BACK

    def oneway(self, time: int, client: Process, node: Node, handle: int, code: int, data: bytes, begins: int,
               work: int, by: int) -> None:
        """A oneway send of a main thread, which a thread of the receiver takes when it is told."""
        sizes, there = (len(data), 0), node.owner.address()
        self.frame(time, client, client.pid, 1, [transaction(BC_TRANSACTION, handle, code, 0x11, 0, sizes)],
                   (0, data, b""))
        self.frame(time + 40 * MICROSECOND, client, client.pid, 2, [DONE])
        self.frame(begins, node.owner, by, 2, [transaction(BR_TRANSACTION, node.ptr, code, 0x11, 0, sizes, there)],
                   (0, data, b""))
        self.frame(begins + work, node.owner, by, 1, [record(BC_FREE_BUFFER, u64(there))])

    def recorded(self) -> tuple[bytes, str]:
        """The capture, and its side list."""
        capture = [HEADER_2]
        lines = ["binder side list 2", f"{BASE} begin realtime={WALL * SECOND} boottime={BASE} kernel=6.1"
                 " machine=aarch64 payloads=whole drivers=10:1:C", f"{BASE} device 0 major=10 minor=1 name=binder"]
        known: set[tuple[int, int]] = set()
        frames = [heapq.heappop(self.frames) for _ in range(len(self.frames))]
        for number, (time, _, process, thread, direction, records, attached) in enumerate(frames, 1):
            lines += introduced(time, number, process, thread, known)
            lines.append(f"{time} frame {number}")
            entries = [entry(places_of(records)[attached[0]], *attached[1:])] if attached and any(attached[1:]) else []
            capture.append(frame(direction, number, process.pid, thread, records, entries))
        lines.append(f"{frames[-1][0] + SECOND // 2} end recording after={len(frames)} frames={len(frames)} lost=0")
        return b"".join(capture), "".join(f"{line}\n" for line in lines)


def introduced(time: int, number: int, process: Process, thread: int, known: set[tuple[int, int]]) -> Iterable[str]:
    """The lines of a process and of a thread before their first frame."""
    pid, short = process.pid, process.name[-15:]
    if (pid, 0) not in known:
        known.add((pid, 0))
        yield f"{time} process 0 {pid} pid={pid} start=1 opening={pid} met=from-start name={short}"
        yield f"{time} command 0 {pid} after={number - 1} uid={process.uid} name={process.name}"
    if (pid, thread) not in known:
        known.add((pid, thread))
        name = short if thread == pid else f"binder:{pid}_{thread - pid}"
        yield f"{time} thread 0 {pid} {thread} pid={pid} tid={thread} start=1 name={name}"


# ---- the phone


class Phone(Minute):
    """The processes of the minute, and their services. `busy`: how many plain calls apps make; `slower`: how many times
    as long IPackageManager code 5 works."""

    def __init__(self, busy: int = 3000, slower: int = 1) -> None:
        super().__init__()
        self.chance, self.busy, self.slower = random.Random(7), busy, slower
        self.manager = Process(100, "servicemanager", 1000, 1)
        self.system = Process(1000, "system_server", 1000, 8)
        self.hal, self.power = Process(600, "sensors-hal", 1047, 2), Process(500, "powerd", 1000, 2)
        self.ime, self.app = Process(2500, "com.example.ime", 10050, 2), Process(2000, "com.example.app", 10123, 2)
        self.spam, self.mail = Process(2100, "com.spam.logger", 10131, 1), Process(2200, "com.chatty.mail", 10140, 1)
        self.clock, self.root = Process(2300, "com.slow.clock", 10150, 1), Process(2400, "com.tools.root", 10160, 1)
        self.apps = [Process(3000 + 10 * number, f"com.app{number:02}.{'abcdefgh'[number % 8]}", 10200 + number, 2)
                     for number in range(28)]
        self.services = {"package": Node(self.system, 0x7100, "android.content.pm.IPackageManager"),
                         "sensors": Node(self.hal, 0x7200, "vendor.acme.ISensors"),
                         "power": Node(self.power, 0x7300, "android.os.IPower"),
                         "ime": Node(self.ime, 0x7400, "com.example.INotes")}
        self.listeners: list[tuple[Node, int]] = []
        self.begin()

    def asks(self, name: str, code: int, text: str = "", **how: object) -> Within:
        """A call to a service, with a text as its data."""
        node = self.services[name]
        data = plain(marked(node.interface) + (string16(text) if text else b""))
        return lambda time, process, thread: self.call(time, process, thread, node, process.handles[name], code, data,
                                                       **how)  # type: ignore[arg-type]

    def begin(self) -> None:
        """The first second: processes begin, services are registered and asked for, and listeners too."""
        time = BASE
        every = [self.manager, self.system, self.hal, self.power, self.ime, self.app, self.spam, self.mail, self.clock,
                 self.root, *self.apps]
        for process in every:
            for number, thread in enumerate(process.threads):
                self.frame(time, process, thread, 1, [record(BC_REGISTER_LOOPER if number else BC_ENTER_LOOPER)])
                time += 100 * MICROSECOND
        for handle, name in enumerate(self.services, 1):
            time = self.registers(time, name, handle)
        wanted = [(process, name) for process in (self.app, self.mail, self.clock, self.root, self.spam, *self.apps)
                  for name in ("package", "power")]
        for process, name in (*wanted, (self.spam, "ime"), (self.system, "sensors"), (self.hal, "power")):
            time = self.gets(time, process, name)
        for handle, process in enumerate((self.clock, self.app, *self.apps), 40):
            time = self.listens(time, process, handle)

    def to_manager(self, time: int, process: Process, code: int, data: Data, reply: Data = plain(b"\0\0\0\0")) -> int:
        return self.call(time, process, process.pid, Node(self.manager, 0, MANAGER), 0, code, data,
                         work=150 * MICROSECOND, reply=reply)

    def registers(self, time: int, name: str, handle: int) -> int:
        node, head, tail = self.services[name], marked(MANAGER) + string16(name), u32(0) + u32(8)
        time = self.to_manager(time, node.owner, 3, (head + own_object(node.ptr) + tail, offsets(len(head)),
                                                     head + of_handle(2, handle) + tail))
        self.frame(time, self.manager, self.manager.threads[0], 1, [record(BC_ACQUIRE, u32(handle))])
        self.manager.handles[name] = handle
        return time + 300 * MICROSECOND

    def gets(self, time: int, process: Process, name: str) -> int:
        handle = process.handles[name] = len(process.handles) + 1
        reply = of_handle(2, self.manager.handles[name]), offsets(0), of_handle(2, handle)
        return self.to_manager(time, process, 1, plain(marked(MANAGER) + string16(name)), reply)

    def listens(self, time: int, process: Process, handle: int) -> int:
        """A process hands its listener over to system_server, which has this handle of it."""
        head = marked("android.app.IActivityManager")
        data = head + own_object(0x9000), offsets(len(head)), head + of_handle(2, handle)
        time = self.call(time, process, process.pid, self.services["package"], process.handles["package"], 20, data)
        self.frame(time, self.system, self.system.threads[0], 1, [record(BC_ACQUIRE, u32(handle))])
        self.listeners.append((Node(process, 0x9000, "android.app.IListener"), handle))
        return time + 200 * MICROSECOND

    # -- what the minute has

    def is_slow_for_an_app(self) -> None:
        power = self.asks("power", 2, work=250 * MILLISECOND)
        sensors = self.asks("sensors", 3, work=49 * MILLISECOND, within=[power])
        asked = self.asks("package", 5, "com.whatsapp", by=self.system.threads[6], queue=60 * MILLISECOND,
                          work=20 * MILLISECOND, within=[sensors])
        asked(BASE + 10 * SECOND, self.app, self.app.pid)

    def has_a_burst(self) -> None:
        data, free = marked("com.example.INotes") + bytes(600), 0
        for number in range(400):
            sent = BASE + 20 * SECOND + number * 5 * MILLISECOND
            begins = max(sent + THERE, free)
            self.oneway(sent, self.spam, self.services["ime"], self.spam.handles["ime"], 9, data, begins,
                        10 * MILLISECOND, self.ime.threads[number % 2])
            free = begins + 10 * MILLISECOND + 30 * MICROSECOND

    def tells_listeners(self) -> None:
        time = BASE + 30 * SECOND
        for node, handle in self.listeners:
            work = 120 if node.owner is self.clock else self.chance.randrange(1, 3)
            time = self.call(time, self.system, self.system.threads[7], node, handle, 1, plain(marked(node.interface)),
                             work=work * MILLISECOND)

    def is_asked_again(self) -> None:
        for number in range(200):
            self.asks("package", 7, "com.google.android.gms", by=self.system.threads[6], work=400 * MICROSECOND)(
                BASE + 35 * SECOND + number * 50 * MILLISECOND, self.mail, self.mail.pid)

    def is_called_once(self) -> None:
        self.asks("power", 77, "recovery", work=3 * MILLISECOND)(BASE + 40_217 * MILLISECOND, self.root,
                                                                 self.root.threads[0])
        self.asks("package", 9, "cb#1", by=self.system.threads[6])(BASE + 50 * SECOND, self.app, self.app.pid)

    def is_busy(self) -> None:
        """Calls of apps, each app one at a time."""
        times = sorted(BASE + 9 * SECOND + self.chance.randrange(50_000_000) * MICROSECOND for _ in range(self.busy))
        free_at: dict[int, int] = {}
        for time in times:
            app, code = self.chance.choice(self.apps), self.chance.choice((5, 5, 7, 12, 13))
            if time >= free_at.get(app.pid, 0):
                work = int(self.chance.lognormvariate(0.3, 0.5) * MILLISECOND) * (self.slower if code == 5 else 1)
                free_at[app.pid] = self.asks("package", code, f"p{self.chance.randrange(50)}", work=work,
                                             by=self.chance.choice(self.system.threads[:6]))(time, app, app.pid)


def minute(busy: int = 3000, slower: int = 1) -> tuple[bytes, str]:
    """The capture of the minute, and its side list."""
    phone = Phone(busy, slower)
    phone.is_slow_for_an_app()
    phone.has_a_burst()
    phone.tells_listeners()
    phone.is_asked_again()
    phone.is_called_once()
    phone.is_busy()
    return phone.recorded()
