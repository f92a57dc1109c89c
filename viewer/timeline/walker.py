"""The program in C that walks through a capture for a timeline, and what is said to it. orders.c has the other side."""

import os
import sqlite3
import struct
from typing import Callable, Sequence

from viewer.started import Started, other

# The orders, and what the program asks and tells, each by its number.
(TEXT, ANSWER, PACKET, EVENT, LINE, INSTANT, GIVEN, THREAD, SHOWN, ENDED, ARGUMENT, EVENT_BEGIN, CLOCK, NAME,
 STATEMENTS, SYNC, GO_TO, GO_TO_FINDING, GO_TO_MARK, FLUSH, END) = range(21)
(CALLED, QUEUE_NAME, AIDL, TO, FROM, VERDICT, COUNTERS, QUEUE_TRACK, STACK, WHY, NEW, RECORD, END_FRAME, WRITTEN,
 DONE) = range(15)

# The bits of an answer: the next event needs what is told anew, and what is called has an interface.
HAS_NEW, HAS_INTERFACE = 1, 2

# How it says that an order is done.
GOES_ON, IS_PAST, NOT_SHOWN, NO_MEMORY, NO_ROWS = range(5)

HEAD = struct.Struct("=iIQ")

# So much is ordered at most before the program says that it has read all: a pipe has room for it. Otherwise it might
# wait until what it tells is read, and nobody reads it, because it does not read on.
AT_ONCE = 2**15

# A number has 64 bits, with or without a sign.
MOST = 2**63


def signed(number: int) -> int:
    return (number + MOST) % 2**64 - MOST


class Walker:
    """The program at work. It ends with the block. `write` takes what it writes, and `answer` answers what it asks, by
    orders."""

    def __init__(self, program: os.PathLike[str], form: str, database: str, write: Callable[[bytes], None],
                 answer: Callable[[int, Sequence[int], bytes], int]):
        self.write, self.answer = write, answer
        self.counts: list[int] = []
        self.has_written = False
        self.waiting = bytearray()
        reads, self.into = map(other, os.pipe())
        self.out, writes = map(other, os.pipe())
        try:
            self.program = Started([program, form, f"{database}?immutable=1"], {0: reads, 1: writes})
        except BaseException:
            self.close()
            raise
        finally:
            os.close(reads)
            os.close(writes)
        self.told = open(self.out, "rb", closefd=False)

    def close(self) -> None:
        os.close(self.into)
        os.close(self.out)

    def __enter__(self) -> "Walker":
        return self

    def __exit__(self, *_: object) -> None:
        self.program.end()
        self.close()

    # -- orders

    def order(self, what: int, *numbers: int, data: bytes = b"") -> None:
        if len(self.waiting) + len(data) > AT_ONCE:
            self.done(SYNC)
        self.waiting += HEAD.pack(what, len(numbers), len(data)) + struct.pack(f"={len(numbers)}q", *numbers) + data

    def packet(self, data: bytes) -> None:
        self.order(PACKET, data=data)

    def event(self, data: bytes) -> None:
        self.order(EVENT, data=data)

    def line(self, data: bytes) -> None:
        self.order(LINE, data=data)

    def flush(self) -> None:
        self.done(FLUSH)

    def send(self) -> None:
        sent = memoryview(bytes(self.waiting))
        self.waiting.clear()
        try:
            while sent:
                sent = sent[os.write(self.into, sent):]
        except BrokenPipeError as error:
            raise sqlite3.OperationalError("its rows can't be read") from error

    def done(self, what: int, *numbers: int) -> tuple[int, str]:
        """Orders something, and waits until it is done. Returns how, and the time of instants."""
        if self.waiting and 8 * len(numbers) > AT_ONCE:
            self.done(SYNC)
        self.waiting += HEAD.pack(what, len(numbers), 0) + struct.pack(f"={len(numbers)}q", *numbers)
        self.send()
        while True:
            told, found, data = self.receive()
            if told == WRITTEN:
                self.has_written = True
                self.write(data)
            elif told == DONE:
                status, *self.counts = found
                if status == NO_MEMORY:
                    raise MemoryError
                if status == NO_ROWS:
                    raise sqlite3.OperationalError("its rows can't be read")
                return status, data.decode()
            else:
                bits = self.answer(told, found, data)
                self.order(ANSWER, bits)
                self.send()

    def receive(self) -> tuple[int, tuple[int, ...], bytes]:
        what, numbers, length = HEAD.unpack(self.read(HEAD.size))
        return what, struct.unpack(f"={numbers}q", self.read(8 * numbers)), self.read(length)

    def read(self, length: int) -> bytes:
        """So many bytes. If they do not come, the program met an error, or was killed."""
        data = self.told.read(length)
        if len(data) < length:
            raise sqlite3.OperationalError("its rows can't be read")
        return data
