"""A large capture of made-up traffic, for the checks `limits`, `load` and others.

    checks/run traffic -- BYTES FILE [DEVICES]    writes a capture of at most this many bytes into the file

If more than one device is asked for, the capture has version 2, and each conversation is on one device. Forty processes
of eight threads each talk to one another: calls, some of them served within others, oneway transactions, attachments,
buffers that are freed or forgotten, references to handles and nodes, requests for death notifications with their clears
and deaths, a few error replies, bad objects, unknown flags and gaps in the sequences. The same numbers give the same
capture. `captures.py` has the frames and records.
"""

import pathlib
import random
import sys
from typing import Callable, Iterator, Sequence

from checks.kit.captures import (BC_ACQUIRE, BC_ACQUIRE_DONE, BC_CLEAR_DEATH_NOTIFICATION, BC_DEAD_BINDER_DONE,
                                 BC_DECREFS, BC_FREE_BUFFER, BC_INCREFS, BC_INCREFS_DONE, BC_RELEASE, BC_REPLY,
                                 BC_REQUEST_DEATH_NOTIFICATION, BC_TRANSACTION, BC_TRANSACTION_SG, BINDER, BR_ACQUIRE,
                                 BR_CLEAR_DEATH_NOTIFICATION_DONE, BR_DEAD_BINDER, BR_DEAD_REPLY, BR_DECREFS,
                                 BR_FAILED_REPLY, BR_INCREFS, BR_NOOP, BR_RELEASE, BR_REPLY, BR_TRANSACTION,
                                 BR_TRANSACTION_COMPLETE, BR_TRANSACTION_SEC_CTX, FD, FDA, HANDLE, HEADER, HEADER_2,
                                 PTR, WEAK_BINDER, WEAK_HANDLE, each, each_long, entry, frame, node, record,
                                 transaction, u64, watch)

PROCESSES, THREADS, AT_ONCE = 40, 8, 60

REFERENCES = ((BC_INCREFS, BC_DECREFS), (BC_ACQUIRE, BC_RELEASE))
NODES = ((BR_INCREFS, BR_DECREFS, BC_INCREFS_DONE), (BR_ACQUIRE, BR_RELEASE, BC_ACQUIRE_DONE))
OBJECTS = (BINDER, WEAK_BINDER, HANDLE, HANDLE, HANDLE, HANDLE, WEAK_HANDLE, FD, FDA, PTR)

# A thread, by the numbers of its process and its own; and a frame that is not written yet: its direction, the thread,
# records and attachments.
Who = tuple[int, int]
Drawn = tuple[int, Who, list[bytes], Sequence[bytes]]


class Resources:
    """The idle threads, and the buffers of each device that are free for deliveries."""

    def __init__(self, devices: int) -> None:
        self.random = random.Random(1)
        self.devices = devices
        self.idle = [(process, thread) for process in range(PROCESSES) for thread in range(THREADS)]
        # By device and process. The addresses are the same on all devices.
        self.buffers: list[list[list[int]]] = [[[] for _ in range(PROCESSES)] for _ in range(devices)]
        self.next_buffer = [[0x7000_0000_0000] * PROCESSES for _ in range(devices)]

    def device(self) -> int:
        """The device of a new conversation. For one device nothing is drawn, so that its traffic does not change."""
        return self.random.randrange(self.devices) if self.devices > 1 else 0

    def often(self, thousandths: int) -> bool:
        return self.random.random() * 1000 < thousandths

    def thread(self, but: int | None = None) -> Who | None:
        """An idle thread of another process than `but`; None if none is found quickly."""
        for _ in range(8):
            if self.idle:
                at = self.random.randrange(len(self.idle))
                if self.idle[at][0] != but:
                    self.idle[at], self.idle[-1] = self.idle[-1], self.idle[at]
                    return self.idle.pop()
        return None

    def buffer(self, device: int, process: int) -> int:
        if self.buffers[device][process]:
            return self.buffers[device][process].pop()
        self.next_buffer[device][process] += 0x1000
        return self.next_buffer[device][process]

    def data(self) -> tuple[bytes, bytes]:
        """The body of a transaction and its list of offsets: numbers, and here and there an object."""
        body, listed = b"", b""
        for _ in range(self.random.randint(1, 4)):
            body += self.random.randbytes(8)
            if self.often(300):
                listed += u64(len(body) + (2 if self.often(1) else 0))
                body += self.random.choice(OBJECTS)
        return body, listed

    def flags(self, known: int) -> int:
        return known | 0x100 if self.often(1) else known

    def freed(self, device: int, process: int, buffer: int) -> list[bytes]:
        """The record that frees a buffer; for two in a thousand there is none."""
        if self.often(2):
            return []
        self.buffers[device][process].append(buffer)
        return each_long(BC_FREE_BUFFER, buffer)

    def references(self) -> list[bytes]:
        """The records by which a write now and then takes a reference to a handle or lets one go."""
        if not self.often(300):
            return []
        return each(self.random.choice(self.random.choice(REFERENCES)), self.random.randrange(120))


def shown(free: Resources, records: list[bytes], kind: int, data: tuple[bytes, bytes],
          **fields: int) -> tuple[list[bytes], list[bytes]]:
    """The records and after them a transaction of this data; and mostly its attachment entry."""
    body, listed = data
    at = sum(map(len, records))
    records = records + [transaction(kind, sizes=(len(body), len(listed)), **fields)]
    return records, [entry(at, body, listed)] if free.often(600) else []


def call(free: Resources, device: int, client: Who, depth: int = 0) -> Iterator[Drawn]:
    """The frames of a call and its reply. Each has the direction, the thread, the records and the entries."""
    target, code = free.random.randrange(40), free.random.randint(1, 60)
    data = free.data()
    kind = BC_TRANSACTION_SG if free.often(50) else BC_TRANSACTION
    yield 1, client, *shown(free, free.references(), kind, data, target=target, code=code, flags=free.flags(0x10))
    server = None if free.often(5) else free.thread(client[0])
    if server is None:
        yield 2, client, [record(BR_NOOP), record(BR_DEAD_REPLY)], []
        return
    yield 2, client, [record(BR_NOOP), record(BR_TRANSACTION_COMPLETE)], []
    buffer, answered = free.buffer(device, server[0]), free.buffer(device, client[0])
    nodes, thanks = [], []
    if free.often(100):
        take, let_go, done = free.random.choice(NODES)
        which = 0x5000 + 0x40 * free.random.randrange(500), server[0]
        nodes = [node(free.random.choice((take, let_go)), *which)]
        thanks = [node(done, *which)]
    yield 2, server, *shown(free, [record(BR_NOOP), *nodes], BR_TRANSACTION, data, target=target, code=code,
                            flags=0x10, sender=1000 + 7 * client[0], buffer=buffer)
    if thanks:
        yield 1, server, thanks, []
    if depth < 3 and free.often(120):
        yield from call(free, device, server, depth + 1)
    if not free.often(1):
        data = free.data()
        records = free.freed(device, server[0], buffer) + free.references()
        yield 1, server, *shown(free, records, BC_REPLY, data, flags=free.flags(0))
        yield 2, server, [record(BR_NOOP), record(BR_TRANSACTION_COMPLETE)], []
        yield 2, client, *shown(free, [record(BR_NOOP)], BR_REPLY, data, buffer=answered)
        yield 1, client, free.freed(device, client[0], answered), []
    free.idle.append(server)


def oneway_call(free: Resources, device: int, client: Who) -> Iterator[Drawn]:
    """The frames of a oneway transaction."""
    data = free.data()
    yield 1, client, *shown(free, [], BC_TRANSACTION, data, target=free.random.randrange(40), code=9, flags=0x11)
    if free.often(5):
        yield 2, client, [record(BR_NOOP), record(BR_FAILED_REPLY)], []
        return
    yield 2, client, [record(BR_NOOP), record(BR_TRANSACTION_COMPLETE)], []
    server = free.thread(client[0])
    if server is not None:
        buffer = free.buffer(device, server[0])
        kind = BR_TRANSACTION_SEC_CTX if free.often(200) else BR_TRANSACTION
        yield 2, server, *shown(free, [record(BR_NOOP)], kind, data, code=9, flags=0x11, buffer=buffer)
        yield 1, server, free.freed(device, server[0], buffer), []
        free.idle.append(server)


def death(free: Resources, _: int, client: Who) -> Iterator[Drawn]:
    """The frames of a request for a death notification. The death comes, or the request is taken back or stays."""
    handle, cookie = free.random.randrange(120), 0x9000 + 8 * free.random.randrange(4000)
    yield 1, client, [watch(BC_REQUEST_DEATH_NOTIFICATION, handle, cookie)], []
    if free.often(300):
        yield 2, client, [record(BR_NOOP), *each_long(BR_DEAD_BINDER, cookie)], []
        yield 1, client, each_long(BC_DEAD_BINDER_DONE, cookie), []
    elif free.often(900):
        yield 1, client, [watch(BC_CLEAR_DEATH_NOTIFICATION, handle, cookie)], []
        yield 2, client, [record(BR_NOOP), *each_long(BR_CLEAR_DEATH_NOTIFICATION_DONE, cookie)], []


def begun(free: Resources) -> tuple[Iterator[Drawn], int, Who] | None:
    """What a thread does next, the device, and the thread; None if no thread is idle."""
    client = free.thread()
    if client is None:
        return None
    device = free.device()
    kinds: tuple[Callable[[Resources, int, Who], Iterator[Drawn]], ...] = call, oneway_call, death
    return free.random.choices(kinds, (75, 20, 5))[0](free, device, client), device, client


def frames(devices: int) -> Iterator[bytes]:
    """Frames without end, of many conversations at the same time."""
    free, sequence = Resources(devices), 0
    open_now: list[tuple[Iterator[Drawn], int, Who]] = []
    while True:
        while len(open_now) < AT_ONCE and (new := begun(free)) is not None:
            open_now.append(new)
        at = free.random.randrange(len(open_now))
        conversation, device, client = open_now[at]
        drawn = next(conversation, None)
        if drawn is None:
            open_now[at] = open_now[-1]
            open_now.pop()
            free.idle.append(client)
            continue
        direction, (process, thread), records, entries = drawn
        sequence += 2 if free.often(1) else 1
        number = 1000 + 7 * process
        yield frame(direction, sequence, number, number + thread, records, entries, device)


def frames_within(most: int, devices: int = 1) -> Iterator[bytes]:
    """The first frames, as many as a capture of this many bytes has."""
    length = len(HEADER)
    for one in frames(devices):
        length += len(one)
        if length > most:
            return
        yield one


def write_traffic(path: pathlib.Path | str, most: int, devices: int = 1) -> int:
    """Writes a capture of at most this many bytes, and returns the number of frames."""
    count = 0
    with open(path, "wb") as out:
        out.write(HEADER if devices == 1 else HEADER_2)
        for count, one in enumerate(frames_within(most, devices), 1):
            out.write(one)
    return count


if __name__ == "__main__":
    if sys.argv[1:] in (["--help"], ["-h"]):
        print(__doc__.rstrip())
    elif len(sys.argv) in (3, 4):
        print(write_traffic(sys.argv[2], int(sys.argv[1]), *map(int, sys.argv[3:])))
    else:
        sys.exit("usage: checks/run traffic -- BYTES FILE [DEVICES]")
