"""Compares the built program with the second reading, on captures that are large in each way.

    checks/run large [-- [--table] [PROGRAM..]]

The captures are made here, the same ones in each run. Each is large in one way or several: more than 65,536 of one
thing in a process, a thread or a frame, more than 65,536 rows in a section, a report of more than 16 MiB, two million
frames. Each has more than 131,072 frames. Most records that belong together are in different halves of a capture, so
that several workers have ledgers of them, which are joined. The program is run with 1, 3, 33 and 64 workers, and with
pieces of 1, 256 and 65,536 frames. It must write, byte for byte, what kit/second_reading.py says. It must end within 8
seconds of processor time; a body that looks for each place frame by frame would not. Each further program is run on
each capture four times, with each of these numbers of workers and each of these pieces.

It takes some 45 seconds on four cores, 2 GB of memory and 200 MB of disk. With --table it prints a line for each
capture: its bytes, and the bytes and lines of the report that is due.
"""

import gc
import os
import pathlib
import random
import signal
import subprocess
from concurrent.futures import Future, ProcessPoolExecutor, ThreadPoolExecutor, as_completed
from itertools import chain
from typing import Callable, Iterator, NamedTuple

from checks.kit.captures import (BC_ACQUIRE, BC_ACQUIRE_DONE, BC_CLEAR_DEATH_NOTIFICATION, BC_DEAD_BINDER_DONE,
                                 BC_DECREFS, BC_ENTER_LOOPER, BC_FREE_BUFFER, BC_INCREFS, BC_INCREFS_DONE, BC_RELEASE,
                                 BC_REPLY, BC_REPLY_SG, BC_REQUEST_DEATH_NOTIFICATION, BC_TRANSACTION, BR_ACQUIRE,
                                 BR_CLEAR_DEATH_NOTIFICATION_DONE, BR_DEAD_BINDER, BR_DEAD_REPLY, BR_DECREFS,
                                 BR_FAILED_REPLY, BR_FROZEN_REPLY, BR_INCREFS, BR_NOOP, BR_REPLY, BR_TRANSACTION,
                                 BR_TRANSACTION_SEC_CTX, HANDLE, HEADER, HEADER_2, MAX_32, MAX_64, PTR, each, each_long,
                                 entry, frame, node, offsets, record, transaction, u32, u64, watch)
from checks.kit.checking import FLAG, check, row
from checks.kit.runs import answer, due, report_by, shown, under
from checks.kit.traffic import write_traffic
from checks.kit.written import write_frames

# The workers and the pieces, in frames, with which the first program is run, and each further one.
ALL = [(workers, piece) for workers in (1, 3, 33, 64) for piece in (1, 256, 65_536)]
FEW = [(1, 1), (3, 256), (33, 65_536), (64, 1)]
SECONDS = 300

# How much processor time a run may take, all its threads together. After it the system ends the run by SIGXCPU.
PROCESSOR_SECONDS = 8

# What is large has more than LIMIT; the captures have at least MANY of each thing.
LIMIT = 65_536
MANY = 66_000
LONG_REPORT = 2**24
EMPTY_FRAMES = 2_000_000

# In how many files one capture is given besides: as many as the program takes.
PARTS = 256

ERRORS = BR_DEAD_REPLY, BR_FAILED_REPLY, BR_FROZEN_REPLY

Answer = tuple[int, bytes, bytes]

# A frame: the direction, the process, the thread, the records, the attachment entries and the device.
Told = tuple[int, int, int, list[bytes], list[bytes], int]


# ---- frames


def written(process: int, thread: int, *records: bytes, device: int = 0) -> Told:
    return 1, process, thread, list(records), [], device


def got(process: int, thread: int, *records: bytes, device: int = 0) -> Told:
    return 2, process, thread, list(records), [], device


def put(path: pathlib.Path, *halves: Iterator[Told], header: bytes = HEADER) -> None:
    """Writes the capture of the frames of these halves, one after the other."""
    write_frames(path, (frame(direction, sequence, *rest)
                        for sequence, (direction, *rest) in enumerate(chain(*halves), 1)), header=header)


def shuffled(seed: int) -> list[int]:
    """The numbers from 0 to MANY - 1 in an order that looks random, and is the same in each run."""
    numbers = list(range(MANY))
    random.Random(seed).shuffle(numbers)
    return numbers


def by_turns(*lists: Iterator[Told]) -> Iterator[Told]:
    """The first frame of each list, then the second of each, and so on."""
    return chain.from_iterable(zip(*lists, strict=True))


# ---- the captures


def open_calls(path: pathlib.Path) -> None:
    """Calls of two threads, sent and served by turns, each within the one before it. Those of the first thread stay
    open. Those of the second are opened in the first half and closed in the second, in each of the ways."""
    def openers(thread: int) -> Iterator[Told]:
        for at in range(MANY // 4):
            yield written(1, thread, *(transaction(BC_TRANSACTION, target=at, code=which) for which in (1, 2)))
            yield got(1, thread, *(transaction(BR_TRANSACTION, code=at, sender=which) for which in (1, MAX_32)))

    def closers(thread: int) -> Iterator[Told]:
        for at in range(MANY // 4):
            both = (written(1, thread, record(BC_REPLY), record(BC_REPLY_SG)),
                    got(1, thread, record(BR_REPLY), record(ERRORS[at % 3])))
            yield from both if at % 5 else reversed(both)

    put(path, by_turns(openers(1), openers(2)), by_turns(openers(1), closers(2)))


def refused_sends(path: pathlib.Path) -> None:
    """Oneway transactions of a thread, two to each of many handles, and every second one refused. A last frame has many
    error replies that close nothing."""
    def frames() -> Iterator[Told]:
        for at, both in enumerate(zip(shuffled(1), shuffled(2))):
            yield written(7, 8, *(transaction(BC_TRANSACTION, target=handle, flags=1, sizes=(MAX_64 - at, 0))
                                  for handle in both))
            yield got(7, 8, record(ERRORS[at % 3]))
        yield got(7, 8, *MANY * [record(BR_DEAD_REPLY)])

    put(path, frames())


def references(path: pathlib.Path) -> None:
    """References of a process to handles and nodes. Each handle and each node is named in both halves."""
    def half(seed: int, of_handles: tuple[int, int], of_nodes: tuple[int, int], done: int) -> Iterator[Told]:
        handles, nodes = shuffled(seed), shuffled(seed + 1)
        for at in range(0, MANY, 2):
            yield written(1, 1, *(record(of_handles[handle % 2], u32(handle)) for handle in handles[at:at + 2]),
                          node(done, *key(nodes[-at])))
            yield got(1, 2, *(node(of_nodes[number % 2], *key(number)) for number in nodes[at:at + 2]))

    def key(number: int) -> tuple[int, int]:
        return 2**40 + number // 2, MAX_64 - number % 2

    put(path, half(1, (BC_ACQUIRE, BC_INCREFS), (BR_ACQUIRE, BR_INCREFS), BC_INCREFS_DONE),
        half(3, (BC_RELEASE, BC_ACQUIRE), (BR_INCREFS, BR_DECREFS), BC_ACQUIRE_DONE))


def buffers(path: pathlib.Path) -> None:
    """Buffers of a process. Many are delivered in the first half, and some of them freed in the second. Many are freed
    in the first half and delivered in the second."""
    def address(number: int) -> int:
        return 0x7000_0000_0000 + 16 * number

    def delivery(number: int) -> bytes:
        return transaction(BR_REPLY, sizes=(number, 0), buffer=address(number))

    def first() -> Iterator[Told]:
        delivered, freed = shuffled(1), shuffled(2)
        for at in range(0, MANY, 2):
            yield got(1, 1 + at % 8, *map(delivery, delivered[at:at + 2]))
            yield written(1, 1 + at % 8, *each_long(BC_FREE_BUFFER, *(address(MANY + it) for it in freed[at:at + 2])))

    def second() -> Iterator[Told]:
        delivered, freed = shuffled(3), shuffled(4)
        for at in range(0, MANY, 2):
            yield got(1, 1 + at % 8, *(delivery(MANY + number) for number in delivered[at:at + 2]))
            yield written(1, 1 + at % 8, *each_long(BC_FREE_BUFFER, address(freed[at])))

    put(path, first(), second())


def deaths(path: pathlib.Path) -> None:
    """Requests, deaths and clears of a process in the first half. In the second half some of the requests are ended by
    a death or a clear, new requests are made, some of the deaths and clears are answered, and other answers are to
    nothing."""
    def first() -> Iterator[Told]:
        asked, died, cleared = shuffled(1), shuffled(2), shuffled(3)
        for at in range(0, MANY, 2):
            both = slice(at, at + 2)
            yield written(1, 1, *(watch(BC_REQUEST_DEATH_NOTIFICATION, it % 9, it) for it in asked[both]),
                          *(watch(BC_CLEAR_DEATH_NOTIFICATION, 3, MANY + it) for it in cleared[both]))
            yield got(1, 2, *each_long(BR_DEAD_BINDER, *(MANY + it for it in died[both])))

    def second() -> Iterator[Told]:
        ended, answered, confirmed = shuffled(4), shuffled(5), shuffled(6)
        for at in range(0, MANY, 2):
            cleared = [watch(BC_CLEAR_DEATH_NOTIFICATION, ended[at] % 9, ended[at])] if at % 3 == 0 else []
            dead = each_long(BR_DEAD_BINDER, ended[at + 1]) if at % 3 == 1 else []
            new = watch(BC_REQUEST_DEATH_NOTIFICATION, 1, 3 * MANY + at)
            yield written(1, 1, *each_long(BC_DEAD_BINDER_DONE, 2 * answered[at]), new, *cleared)
            yield got(1, 2, *each_long(BR_CLEAR_DEATH_NOTIFICATION_DONE, 2 * confirmed[at]), *dead)

    put(path, first(), second())


def objects(path: pathlib.Path) -> None:
    """Deliveries with unknown flags, each with an attachment of two good objects and a bad one, to which nobody
    replies. After each a call with unknown flags that nobody answers. A last delivery has as many objects as all others
    together. The numbers are long, so that the rows are."""
    body, listed = HANDLE + PTR + bytes(8), offsets(0, 24, 64)
    most = HANDLE * (2 * MANY), b"".join(u64(24 * at) for at in range(2 * MANY))

    def delivered(at: int, body: bytes, listed: bytes) -> Told:
        kind = BR_TRANSACTION_SEC_CTX if at % 2 else BR_TRANSACTION
        sizes = len(body), len(listed)
        one = transaction(kind, code=MAX_32 - at, flags=0x80000002, sender=2**31, sizes=sizes, buffer=MAX_64 - 8 * at)
        return 2, MAX_32, at % 1000, [one], [entry(0, body, listed)], 0

    def frames() -> Iterator[Told]:
        for at in range(MANY):
            yield delivered(at, body, listed)
            yield written(MAX_32, at % 1000, transaction(BC_TRANSACTION, target=MAX_32, code=MAX_32 - at, flags=0x80))
        yield delivered(MANY, *most)

    put(path, frames())


def codes(path: pathlib.Path) -> None:
    """Records of many codes that are not in the tables, each code once in either half."""
    words = [bits << 30 | size << 16 | ord(letter) << 8 | number for size in range(1, 150)
             for letter, bits in (("c", 1), ("r", 2)) for number in range(30, 256)]

    def half(seed: int) -> Iterator[Told]:
        for number in shuffled(seed):
            word = words[number]
            yield (got if word >> 31 else written)(1, 1 + number % 40, record(word))

    put(path, half(1), half(2))


def processes(path: pathlib.Path) -> None:
    """Processes of one thread each: a reference and a call in the first half, a reply or none in the second."""
    def first() -> Iterator[Told]:
        for number in shuffled(1):
            yield written(number, MAX_32 - number, *each(BC_ACQUIRE, 7), transaction(BC_TRANSACTION, target=7))

    def second() -> Iterator[Told]:
        for number in shuffled(2):
            yield got(number, MAX_32 - number, *[transaction(BR_REPLY, buffer=number)][number % 3:])
        yield from (written(MANY + number, 1, *each(BC_DECREFS, 7)) for number in range(3))

    put(path, first(), second())


def devices(path: pathlib.Path) -> None:
    """Processes on three devices, each number on all of them, with the same handles, addresses and threads. In the
    first half each has a reference, a call and a delivery; in the second a reply, or a release and a free."""
    def first() -> Iterator[Told]:
        for number in shuffled(1):
            process, device = number // 3, number % 3
            yield written(process, 1, *each(BC_ACQUIRE, 7), transaction(BC_TRANSACTION, target=7, code=device),
                          device=device)
            yield got(process, 2, transaction(BR_TRANSACTION, flags=1, buffer=0x1000), device=device)

    def second() -> Iterator[Told]:
        for number in shuffled(2):
            process, device = number // 3, number % 3
            if number % 2:
                yield got(process, 1, transaction(BR_REPLY, buffer=0x2000), device=device)
            else:
                yield written(process, 3, *each_long(BC_FREE_BUFFER, 0x1000), *each(BC_RELEASE, 7), device=device)

    put(path, first(), second(), header=HEADER_2)


def usual_traffic(path: pathlib.Path) -> None:
    """What `traffic.py` makes, on three devices."""
    write_traffic(path, 13 * 2**20, 3)


def faults(path: pathlib.Path) -> None:
    """Frames of a process. Two of them have a fault, both in the second half."""
    wrong = 100_000, 120_000
    put(path, (written(1, 1, record(BR_NOOP if at in wrong else BC_ENTER_LOOPER)) for at in range(2 * MANY)))


def empty_frames(path: pathlib.Path) -> None:
    """Frames without a record, of a few processes."""
    put(path, (written(1 + at % 7, 1) for at in range(EMPTY_FRAMES)))


class Large(NamedTuple):
    """A capture, and what must be large in its report: the sections with many rows, and its bytes."""
    make: Callable[[pathlib.Path], None]
    sections: tuple[str, ...] = ()
    least_bytes: int = 0


LARGE = (
    Large(objects, ("calls", "served", "buffers", "objects", "flags"), LONG_REPORT),
    Large(deaths, ("requests", "deaths", "clears")),
    Large(open_calls, ("calls", "served")),
    Large(references, ("handles", "nodes")),
    Large(refused_sends, ("strays", "refused", "oneway")),
    Large(buffers, ("buffers", "frees")),
    Large(usual_traffic),
    Large(processes, ("handles",)),
    Large(devices, ("handles",)),
    Large(codes, ("codes",)),
    Large(faults),
    Large(empty_frames),
)


# ---- what is due


class Prepared(NamedTuple):
    """A capture in a file, the answer that is due to `report`, and what is not large enough."""
    name: str
    path: pathlib.Path
    answer: Answer
    small: list[str]


def rows_of(lines: list[str]) -> dict[str, int]:
    """How many rows each section of a report has."""
    rows, section = {}, ""
    for line in lines:
        if line.startswith("  "):
            rows[section] += 1
        else:
            section = line.split()[0]
            rows[section] = 0
    return rows


def too_small(large: Large, text: bytes) -> list[str]:
    """What is not large in a report, but must be."""
    lines = text.decode().splitlines()
    rows = rows_of(lines)
    small = [f"{rows.get(name, 0)} rows of {name}" for name in large.sections if rows.get(name, 0) <= LIMIT]
    if int(lines[1].split()[1]) <= 2 * LIMIT:
        small.append(lines[1])
    if len(text) <= large.least_bytes:
        small.append(f"{len(text)} bytes")
    return small


def prepared(room: pathlib.Path, large: Large) -> Prepared:
    """Makes a capture, and the answer that the second reading gives to it."""
    gc.disable()
    name = large.make.__name__
    path = room / f"{name}.cap"
    large.make(path)
    status, text, _ = wanted = due(path.read_bytes())
    return Prepared(name, path, wanted, too_small(large, text) if status == 0 else [])


# ---- runs


def first_difference(came: bytes, wanted: bytes) -> str:
    """The first line in which two texts differ."""
    pairs = zip((*came.split(b"\n"), b""), (*wanted.split(b"\n"), b""))
    for number, (one, other) in enumerate(pairs, 1):
        if one != other:
            return f"line {number} is {one.decode(errors='replace')!r} and not {other.decode()!r}"
    return f"{len(came)} bytes and not {len(wanted)}"


def wrong(command: list[object], wanted: Answer) -> str | None:
    """What is wrong with a run; None if its answer is the one that is due."""
    try:
        status, out, err = answer(under(command, processor=PROCESSOR_SECONDS), timeout=SECONDS)
    except subprocess.TimeoutExpired:
        return f"expected an end within {SECONDS} seconds"
    if status == -signal.SIGXCPU:
        return f"expected an end within {PROCESSOR_SECONDS} seconds of processor time"
    if (status, err) != (wanted[0], b""):
        return f"expected status {wanted[0]} and no error; came {shown((status, out, err))}"
    return None if out == wanted[1] else first_difference(out, wanted[1])


def judged(program: pathlib.Path, words: list[str], files: list[pathlib.Path], name: str, wanted: Answer) -> list[str]:
    what = wrong([program, *words, *files], wanted)
    return [f"{program}: {name}, {' '.join(words)}: {what}"] if what else []


def parts_of(path: pathlib.Path) -> list[pathlib.Path]:
    """A capture of empty frames, cut into as many files as the program takes."""
    frames = path.read_bytes()[len(HEADER):]
    length = len(frame(1, 1, 1, 1))
    each = -(-len(frames) // length // PARTS) * length
    files = [path.with_suffix(f".{at}") for at in range(PARTS)]
    for at, part in enumerate(files):
        part.write_bytes(HEADER + frames[at * each:(at + 1) * each])
    return files


def start_runs(pool: ThreadPoolExecutor, program: pathlib.Path, capture: Prepared,
               ways: list[tuple[int, int]]) -> list[Future]:
    """Starts the runs of a program on a capture. The result of each is what is wrong with it."""
    whole, wanted = [capture.path], capture.answer
    asked = [(["first-fault"], whole, wanted if wanted[0] else (0, b"no malformed record\n", b"")),
             *((report_by(*way), whole, wanted) for way in ways)]
    if capture.name == empty_frames.__name__:
        asked.append((report_by(4), parts_of(capture.path), wanted))
    return [pool.submit(judged, program, words, files, capture.name, wanted) for words, files, wanted in asked]


def judge(given, room, fail) -> list[str]:
    runs = []
    with ProcessPoolExecutor(os.cpu_count()) as makers, ThreadPoolExecutor(os.cpu_count()) as runners:
        for made in as_completed([makers.submit(prepared, room, large) for large in LARGE]):
            capture = made.result()
            for what in capture.small:
                fail(f"{capture.name}: not large: {what}")
            if given.table:
                text = capture.answer[1]
                row(capture.name, capture.path.stat().st_size, len(text), len(text.splitlines()))
            for number, program in enumerate(given.programs):
                runs += start_runs(runners, program, capture, FEW if number else ALL)
        return sorted(what for run in runs for what in run.result())


if __name__ == "__main__":
    check(judge, table=FLAG)
