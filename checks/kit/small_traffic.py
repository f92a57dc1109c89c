"""Small captures of made-up traffic in which most is alike, for `checks/run tables_again`.

A few threads of two or three processes, on one device or on two, share few handles, nodes, addresses, codes and texts.
So a delivery may have come from several sends, a handle soon means another object, and what the driver says of an
address or of a node comes again. Conversations go on at the same time: calls, served within others too, and oneway
transactions. The driver refuses some of them, in each of the ways that it has. Some objects come as others than they
were sent, some threads and handles are older than the capture, some frames are missing, and some replies come after the
answers. The same seed gives the same capture.
"""

import itertools
import random
from typing import Callable, Iterator, NamedTuple

from checks.kit.captures import (BC_ACQUIRE, BC_DECREFS, BC_FREE_BUFFER, BC_INCREFS, BC_REGISTER_LOOPER, BC_RELEASE,
                                 BC_REPLY, BC_REPLY_SG, BC_TRANSACTION, BC_TRANSACTION_SG, BR_ACQUIRE, BR_DEAD_REPLY,
                                 BR_DECREFS, BR_FAILED_REPLY, BR_FROZEN_REPLY, BR_INCREFS, BR_NOOP,
                                 BR_ONEWAY_SPAM_SUSPECT, BR_RELEASE, BR_REPLY, BR_TRANSACTION, BR_TRANSACTION_COMPLETE,
                                 BR_TRANSACTION_PENDING_FROZEN, BR_TRANSACTION_SEC_CTX, ENTER, FD, HEADER_2, SORTS,
                                 changed, each, each_long, entry, frame, node, of_handle, offsets, record, transaction,
                                 u64)

HANDLES = 4
ADDRESSES = 0x7000, 0x8000, 0x9000
TEXTS, COUNTS = (b"", b"tick"), (0, 0, 1, 2, 2, 3)
ONE_WAY, STATUS, UPDATE = 0x01, 0x08, 0x40
REFERENCES = (BC_ACQUIRE, BC_RELEASE) * 3 + (BC_INCREFS, BC_DECREFS)
TOLD = (BR_INCREFS, BR_ACQUIRE), (BR_ACQUIRE,), (BR_RELEASE, BR_DECREFS)
REFUSALS = BR_DEAD_REPLY, BR_FAILED_REPLY, BR_FROZEN_REPLY
CONFIRMATIONS = (BR_TRANSACTION_COMPLETE,) * 6 + (BR_ONEWAY_SPAM_SUSPECT, BR_TRANSACTION_PENDING_FROZEN)

# A process: its device and its number. A node: its process and its ptr. Its cookie is 1 more.
Process = tuple[int, int]
Node = tuple[Process, int]


class Thread(NamedTuple):
    process: Process
    number: int


class Object(NamedTuple):
    """What a message hands over: a node, or a file if there is none."""
    node: Node | None
    weak: bool


class Data(NamedTuple):
    """What a message carries. Its entry may be missing on one side or on both."""
    code: int
    flags: int
    text: bytes
    objects: list[Object]

    @property
    def sizes(self) -> tuple[int, int]:
        return len(self.text) + 24 * len(self.objects), 8 * len(self.objects)


class Step(NamedTuple):
    """A frame that is not written yet: its direction, thread and records, and the entry of the last of them: a body
    and a list."""
    direction: int
    thread: Thread
    records: list[bytes]
    body: bytes | None = None
    listed: bytes = b""


# The steps of a conversation. In place of a frame that is missing in the capture there is None.
Talk = Iterator[Step | None]


class World:
    """The processes, with their threads and nodes, and the node that each handle means now."""

    def __init__(self, chance: random.Random) -> None:
        self.chance = chance
        numbers = chance.choice(((100, 200), (100, 200, 300), (100, 4194304, 4194305)))
        self.processes = [(device, number) for device in range(chance.choice((1, 1, 2))) for number in numbers]
        self.threads = [Thread(process, process[1] + at) for process in self.processes
                        for at in range(1, chance.randint(3, 5))]
        self.nodes = [(process, ptr) for process in self.processes for ptr in (0x10, 0x20)[:chance.randint(1, 2)]]
        self.bound: dict[tuple[Process, int], Node] = {}
        # The threads that said that they take calls, some of them before the capture, or that never say so.
        older = chance.choice((0, 0, 0.2))
        self.ready = {thread for thread in self.threads if chance.random() < older}
        # The threads that have a conversation. If all of a process have one, another one begins all the same.
        self.busy: set[Thread] = set()
        # How many conversations go on at most, how much is alike in hundredths, and how many replies come too late.
        self.most, self.alike = chance.choice((3, 4, 6)), chance.choice((0, 0, 50, 90))
        self.late = chance.choice((0, 0, 50))

    def often(self, hundredths: float) -> bool:
        return self.chance.random() * 100 < hundredths

    def thread_of(self, process: Process, chain: list[Thread]) -> Thread | None:
        """A thread that takes a transaction: one that waits for the sender, or else an idle one; now and then none."""
        waiting = [it for it in chain if it.process == process]
        own = [it for it in self.threads if it.process == process]
        found = waiting or [it for it in own if it not in self.busy] or own
        return self.chance.choice(found) if self.often(95) else None

    def target(self, process: Process) -> tuple[int, Node]:
        """A handle of a process, and the node that it means."""
        handle = 1 if self.often(self.alike) else self.chance.randrange(HANDLES)
        others = [it for it in self.nodes if it[0][0] == process[0] and it[0] != process]
        return handle, self.bound.setdefault((process, handle), self.chance.choice(others))

    def handle_of(self, process: Process, meant: Node) -> int:
        """The handle of a process that means a node: the lowest free one, if none does yet."""
        for handle in range(2 * HANDLES):
            if self.bound.setdefault((process, handle), meant) == meant:
                return handle
        return 0

    def data(self, flags: int) -> Data:
        draw = self.chance
        if self.often(self.alike):
            return Data(1, flags, TEXTS[1], [])
        if self.often(5):
            flags |= UPDATE
        if self.often(5):
            return Data(draw.randint(1, 2), flags | STATUS, u64(draw.randrange(9))[:4], [])
        objects = [Object(draw.choice((*self.nodes, None)), self.often(20)) for _ in range(draw.choice(COUNTS))]
        return Data(draw.choice((1, 1, 1, 2)), flags, draw.choice(TEXTS), objects)

    def shown(self, process: Process, data: Data) -> dict[str, bytes]:
        """The entry of a message as a process sends or gets it. A message without data has none."""
        if not (data.text or data.objects) or self.often(3):
            return {}
        body = b"".join((data.text, *(self.shape(process, it) for it in data.objects)))
        return {"body": body, "listed": offsets(*range(len(data.text), len(body), 24))}

    def shape(self, process: Process, it: Object) -> bytes:
        """An object as a process has it. Some come as another one than they were sent."""
        meant = self.chance.choice(self.nodes) if self.often(4) else it.node
        if meant is None or self.often(8):
            return FD
        if meant[0] == process:
            return changed(SORTS[int(it.weak)], (8, u64(meant[1])), (16, u64(meant[1] + 1)))
        return of_handle(2 + int(it.weak), self.handle_of(process, meant))

    # ---- what the records of a frame say beside

    def references(self, process: Process) -> list[bytes]:
        """Now and then a process takes a reference to a handle, or lets one go. Then it may mean another node."""
        if not self.often(25):
            return []
        handle, kind = self.chance.randrange(HANDLES), self.chance.choice(REFERENCES)
        if kind in (BC_RELEASE, BC_DECREFS) and self.often(70):
            self.bound.pop((process, handle), None)
        return each(kind, handle)

    def told(self, process: Process) -> list[bytes]:
        """Now and then the driver tells of references to a node of the process."""
        own = [ptr for owner, ptr in self.nodes if owner == process]
        if not own or not self.often(20):
            return []
        ptr = self.chance.choice(own)
        return [node(kind, ptr, ptr + 1) for kind in self.chance.choice(TOLD)]

    def freed(self) -> list[bytes]:
        return each_long(BC_FREE_BUFFER, self.chance.choice(ADDRESSES)) if self.often(80) else []

    # ---- conversations

    def began(self) -> Talk | None:
        """A conversation of an idle thread, if there is one."""
        idle = [it for it in self.threads if it not in self.busy]
        if not idle:
            return None
        thread = self.chance.choice(idle)
        self.busy.add(thread)
        kinds: tuple[Callable[[Thread, list[Thread]], Talk], ...] = self.call, self.oneway, self.rest
        return self.ended(thread, self.chance.choices(kinds, (5, 4, 2))[0](thread, []))

    def ended(self, thread: Thread, talk: Talk) -> Talk:
        yield from talk
        self.busy.discard(thread)

    def rest(self, thread: Thread, _: list[Thread]) -> Talk:
        """References alone."""
        if self.often(50):
            yield from self.enter(thread, 95)
            yield Step(2, thread, [record(BR_NOOP), *self.told(thread.process)])
        else:
            yield Step(1, thread, self.references(thread.process) + self.freed())

    def enter(self, thread: Thread, often: int) -> Talk:
        """Before its first call comes, a thread says that it takes calls; so often, in hundredths, or else never."""
        if thread in self.ready:
            return
        self.ready.add(thread)
        if self.often(often):
            yield Step(1, thread, [ENTER if self.often(50) else record(BC_REGISTER_LOOPER)])

    def sent(self, thread: Thread, handle: int, data: Data) -> Step:
        kind = BC_TRANSACTION_SG if self.often(10) else BC_TRANSACTION
        made = transaction(kind, handle, data.code, data.flags, 0, data.sizes)
        return Step(1, thread, [*self.references(thread.process), made], **self.shown(thread.process, data))

    def came(self, thread: Thread, sender: Thread, meant: Node, data: Data) -> Step:
        kind = BR_TRANSACTION_SEC_CTX if self.often(15) else BR_TRANSACTION
        number = self.chance.choice((0, sender.process[1], sender.process[1], 100))
        made = transaction(kind, meant[1], data.code, data.flags, number, data.sizes, self.chance.choice(ADDRESSES))
        made = changed(made, (12, u64(meant[1] + 1)))
        return Step(2, thread, [record(BR_NOOP), *self.told(thread.process), made], **self.shown(thread.process, data))

    def oneway(self, client: Thread, _: list[Thread]) -> Talk:
        """The same oneway transaction one or more times, each time to one handle or to several."""
        data, comes = self.data(ONE_WAY), []
        for handle, meant in [self.target(client.process) for _ in range(self.chance.choice((1, 1, 2, 3)))]:
            yield self.sent(client, handle, data)
            if self.often(90):
                refused = self.often(8)
                yield Step(2, client, [record(self.chance.choice(REFUSALS if refused else CONFIRMATIONS))])
                if refused:
                    continue
            comes.append(meant)
        for meant in comes:
            server = self.thread_of(meant[0], [])
            if server is not None:
                yield from self.enter(server, 95)
                yield self.came(server, client, meant, data)
                yield Step(1, server, self.references(server.process) + self.freed())

    def call(self, client: Thread, chain: list[Thread]) -> Talk:
        """A call and its reply. Within it the server may call others, and also the threads that wait for it."""
        data, (handle, meant) = self.data(0), self.target(client.process)
        yield self.sent(client, handle, data)
        server = self.thread_of(meant[0], chain)
        if server is None or self.often(6):
            yield Step(2, client, [record(self.chance.choice(REFUSALS))])
            return
        confirmed = [record(BR_NOOP), record(BR_TRANSACTION_COMPLETE)]
        if self.often(50):
            yield Step(2, client, confirmed)
            confirmed = []
        was_idle = server not in self.busy
        self.busy.add(server)
        yield from self.enter(server, 50 if server in chain else 95)
        yield self.came(server, client, meant, data)
        while len(chain) < 3 and self.often(25):
            yield from self.call(server, [*chain, client])
        if self.often(95):
            yield from self.answered(client, server, confirmed)
        elif self.often(50):
            yield Step(2, client, [*confirmed, record(self.chance.choice(REFUSALS))])
        if was_idle:
            self.busy.discard(server)

    def answered(self, client: Thread, server: Thread, confirmed: list[bytes]) -> Talk:
        """The reply to a call, and what comes of it."""
        data, freed = self.data(0), self.freed()
        kind = BC_REPLY_SG if self.often(10) else BC_REPLY
        reply = transaction(kind, 0, 0, data.flags, 0, data.sizes)
        replied = Step(1, server, [*freed, *self.references(server.process), reply], **self.shown(server.process, data))
        fails = self.often(4)
        told = Step(2, server, [record(BR_FAILED_REPLY if fails else BR_TRANSACTION_COMPLETE)])
        answer = record(BR_FAILED_REPLY) if fails else transaction(
            BR_REPLY, 0, 0, data.flags, 0, data.sizes, self.chance.choice(ADDRESSES))
        answered = Step(2, client, [*confirmed, *self.told(client.process), answer],
                        **{} if fails else self.shown(client.process, data))
        if not self.often(self.late):
            yield from (replied, told, answered)
            yield Step(1, client, self.references(client.process) + self.freed())
            return
        # If a frame is missing, what closes the served call may be the reply to another one, after the answer.
        yield answered
        yield from self.oneway(client, [])
        yield from (None, replied, told)


def steps_of(chance: random.Random) -> Talk:
    """Steps without end, of conversations that go on at the same time."""
    world, talks = World(chance), list[Talk]()
    while True:
        if len(talks) < world.most and (new := world.began()) is not None:
            talks.append(new)
        at = chance.randrange(len(talks))
        try:
            yield next(talks[at])
        except StopIteration:
            del talks[at]


def small_capture(chance: random.Random) -> bytes:
    """A capture, which may begin in mid-life, and in which frames may be missing."""
    begin, missing = chance.choice((0, 0, 0, 20)), chance.choice((0, 0, 0.01, 0.03))
    made = [HEADER_2]
    for sequence, it in enumerate(itertools.islice(steps_of(chance), begin, begin + chance.randint(40, 160)), 1):
        if it is None or chance.random() < missing:
            continue
        at = sum(map(len, it.records[:-1]))
        entries = [] if it.body is None else [entry(at, it.body, it.listed)]
        device, number = it.thread.process
        made.append(frame(it.direction, sequence, number, it.thread.number, it.records, entries, device))
    return b"".join(made)
