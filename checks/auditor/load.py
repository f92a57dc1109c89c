"""Runs the built program on large captures, on captures that are costly, and very often, and checks its answers.

    checks/run load [-- [--part dear|large|often] [PROGRAM..]]

It makes its captures itself, one after another. It needs 1 GiB of disk, up to 10 GiB of memory, `cc`, and some three
minutes. It is run by hand, and not by `.ci/run`. It prints its tables.

Everything runs under `ulimit -s 256`: 256 KiB of stack, for the first thread and for each further thread. A function
that called itself once for each record, frame, process, object or call could not end there: a call takes at least 16
bytes, so there can be at most 16,384 of them. `deep.c` shows that the limit is felt, and `stacks.c` that threads have
it.

dear    Captures with a million of one thing, and some whose process or thread numbers are chosen for the hasher, with
        1 and with 4 workers: processor time, time by the clock and peak memory, the least of two to six runs each.
        Each is also run at half its size. The ratio of the processor times shows how time grows: 2 if it grows with
        the size, a little more with a logarithm besides, 4 with the square. Where no square is stated, a ratio above
        2.6 is wrong.
large   1 GiB in frames of 64 KiB, with 64 workers and pieces of one frame, and the same answer with one worker; and
        1 GiB of empty frames, 33,554,431 of them, where `fault Memory` is a good answer. The address space is limited
        to 10 GiB.
often   A capture of some hundred frames, with 64 workers and pieces of one frame: 1,000 runs one after another, and
        1,000 runs with 16 under way at once. All answer as one worker does.
"""

import collections
import hashlib
import pathlib
import re
import resource
import time
from itertools import chain
from typing import Callable, NamedTuple

from checks.kit.captures import (BC_ACQUIRE, BC_CLEAR_DEATH_NOTIFICATION, BC_FREE_BUFFER, BC_RELEASE, BC_REPLY,
                                 BC_REQUEST_DEATH_NOTIFICATION, BC_TRANSACTION, BR_NOOP, BR_REPLY, BR_TRANSACTION,
                                 BR_TRANSACTION_COMPLETE, HANDLE, HEADER, ONE_HANDLE, each, each_long, entry, frame,
                                 frame_header, record, transaction, u32, u64, watch, write)
from checks.kit.checking import check, row
from checks.kit.programs import compiled, preloadable
from checks.kit.runs import answer, at_once, measured_run, report_by, shown, under, with_library
from checks.kit.traffic import write_traffic
from checks.kit.written import error_replies, one_frame, with_buffer, write_frames

STACK = 256  # KiB
MILLION = 1_000_000
MEMORY = 3, hashlib.sha256(b"").hexdigest(), b"fault Memory\n"


# ---- runs


class Run(NamedTuple):
    """The answer of a run, and what it took: processor seconds, seconds by the clock, KiB of memory at its peak."""
    answer: tuple[int, str, bytes]
    heads: list[str]
    processor: float
    clock: float
    peak: int


def heads_and_digest(path):
    """The lines of a report that begin in the first column, and the digest of the whole report."""
    with open(path, "rb") as text:
        digest = hashlib.file_digest(text, "sha256")
    return answer(["grep", "-a", "-v", "^  ", path])[1].decode().splitlines(), digest.hexdigest()


def run(program, room, capture, workers, piece=None, address=None, env=None):
    """Runs the program for a report, perhaps in another environment; the system measures the run."""
    words, out, err = [program, *report_by(workers, piece), capture], room / "run.out", room / "run.err"
    with open(out, "wb") as to_out, open(err, "wb") as to_err:
        status, used = measured_run(under(words, STACK, address), stdout=to_out, stderr=to_err, env=env)
    heads, digest = heads_and_digest(out)
    return Run((status, digest, err.read_bytes()[:1000]), heads, *used)


def mebibytes(one):
    """The peak of a run in MiB. A peak below what this script takes itself cannot be seen."""
    own = resource.getrusage(resource.RUSAGE_SELF).ru_maxrss
    return f"{one.peak // 1024}" if one.peak > own else f"below {own // 1024 + 1}"


def least(runs):
    """The least of each number over runs with the same answer."""
    return runs[0]._replace(processor=min(it.processor for it in runs), clock=min(it.clock for it in runs),
                            peak=min(it.peak for it in runs))


# ---- the limit on stacks


def check_stacks(program, room, fail):
    """Checks that the limit is felt, and that the threads of the program have it."""
    deep, shim = compiled(room, "auditor/deep.c"), preloadable(room, "auditor/stacks.c")
    for further in [], ["thread"]:
        for depth, dies in (1000, False), (MILLION, True):
            status, *_ = answer(under([deep, str(depth), *further], STACK))
            if (status < 0) != dies:
                fail(f"{depth} calls within one another on {STACK} KiB of stack: status {status}")
    capture, log = room / "threads.cap", room / "stacks.log"
    write_traffic(capture, 2**22)
    log.touch()
    answered = run(program, room, capture, 64, 1, env=with_library(shim, STACKS_LOG=log))
    sizes = collections.Counter(map(int, log.read_text("utf-8").splitlines()))
    if answered.answer[0] != 0 or not sizes or max(sizes) > STACK * 1024:
        fail(f"stacks of threads: status {answered.answer[0]}, {dict(sizes)}")
    print(f"threads of a run by 64 workers: {sum(sizes.values())}, the largest stack {max(sizes, default=0)} bytes\n")


# ---- captures that are costly


def deliveries(path, count):
    """One frame of oneway transactions with unknown flags. None is freed."""
    delivery = transaction(BR_TRANSACTION, flags=0x101)
    one_frame(path, 2, 68 * count, (with_buffer(delivery, 8 * at) for at in range(count)))


def processes(path, count):
    """Frames of one reference each, each of another process."""
    reference = [record(BC_ACQUIRE, u32(1))]
    write_frames(path, (frame(1, number, number, number, reference) for number in range(1, count + 1)))


def requests(path, count):
    """Requests with one cookie, each for another handle, 1,000 in a frame."""
    write_frames(path, (
        frame(1, start + 1, 1, 1, [watch(BC_REQUEST_DEATH_NOTIFICATION, handle, 1)
                                   for handle in range(start, start + 1000)])
        for start in range(0, count, 1000)))


def one_attachment(path, count):
    """A oneway transaction whose data is this many handles."""
    delivery = transaction(BR_TRANSACTION, flags=1, sizes=(24 * count, 8 * count))
    body = (HANDLE for _ in range(count))
    listed = (u64(24 * at) for at in range(count))
    head = u32(0) + u32(24 * count) + u32(8 * count)
    one_frame(path, 2, 68, [delivery], (12 + 32 * count, chain([head], body, listed)))


def openers(count):
    """Nested calls of a thread: it calls, serves a call while it waits, calls again within that, and so on."""
    sent, served = [transaction(BC_TRANSACTION)], [transaction(BR_TRANSACTION)]
    return (frame(1 + at % 2, at + 1, 1, 1, served if at % 2 else sent) for at in range(count))


def closers(count):
    """The replies to all of these, the innermost first."""
    sent, got = [transaction(BC_REPLY)], [transaction(BR_REPLY)]
    return (frame(1 if at % 2 else 2, 2 * count - at, 1, 1, sent if at % 2 else got)
            for at in reversed(range(count)))


def open_calls(path, count):
    write_frames(path, openers(count))


def closed_calls(path, count):
    write_frames(path, openers(count), closers(count))


def in_processes(path, numbers, records):
    """A frame without records for each of these processes, and then this many records of the last one."""
    write_frames(path, (frame(2, at, number, 1) for at, number in enumerate(numbers, 1)),
                 [frame_header(2, len(numbers) + 1, numbers[-1], 1, 4 * records, 0) + record(BR_NOOP) * records])


def falling_together(path, count):
    """`in_processes` with a hundredth as many processes. Their numbers are chosen for the hasher of the map of
    processes."""
    in_processes(path, FALLING[:count // 100], count)


def not_chosen(path, count):
    """The same with the numbers from 1 on."""
    in_processes(path, range(1, count // 100 + 1), count)


def in_turn(path, keys, frames):
    """A frame of each of these processes and threads, and then this many frames of the last two in turn. Each has a
    record for which its process and its thread are looked up."""
    complete = [record(BR_TRANSACTION_COMPLETE)]
    write_frames(path, (frame(2, at, *key, complete) for at, key in enumerate(keys, 1)),
                 (frame(2, len(keys) + at, *keys[-1 - at % 2], complete) for at in range(1, frames + 1)))


def processes_in_turn(path, count):
    """`in_turn` with a hundredth as many processes, whose numbers are chosen, and a tenth as many frames."""
    in_turn(path, [(number, 1) for number in FALLING[:count // 100]], count // 10)


def threads_in_turn(path, count):
    """The same with threads of one process."""
    in_turn(path, [(PROCESS, number) for number in FALLING_THREADS[:count // 100]], count // 10)


# The process numbers of device 0 that `fall_together.c` prints, and the thread numbers of one process there.
FALLING: list[int] = []
FALLING_THREADS: list[int] = []
PROCESS = 100


class Dear(NamedTuple):
    """A costly capture, and what is expected of it."""
    name: str
    write: Callable[[pathlib.Path, int], None]
    count: int
    order: str
    # Lines of the report. N is the count, H its half, F a hundredth of it and one more, and T a tenth and a hundredth
    # of it together.
    heads: tuple[str, ...]
    ratio: float = 2.6


DEAR = (
    Dear("one frame of N deliveries, each listed twice", deliveries, MILLION, "N log N",
         ("frames 1 records N opaque 0 missing 0", "buffers N leaked N", "flags N")),
    Dear("one frame of N error replies, each listed", error_replies, 4 * MILLION, "N log N",
         ("frames 1 records N opaque 0 missing 0", "strays N")),
    Dear("N processes of one frame", processes, MILLION, "N log N",
         ("frames N records N opaque 0 missing 0", "handles N unbalanced N")),
    Dear("N requests of one cookie", requests, MILLION, "N log N", ("requests N standing N",)),
    Dear("an attachment of N objects", one_attachment, MILLION, "N",
         ("objects binder 0 weak_binder 0 handle N weak_handle 0 fd 0 fda 0 ptr 0 bad 0",)),
    Dear("N calls of a thread within one another, none closed", open_calls, MILLION, "N log N",
         ("calls H answered 0 failed 0 unanswered H", "served H replied 0 crossed 0 open H")),
    Dear("N calls of a thread within one another, all closed", closed_calls, MILLION, "N log N",
         ("calls H answered H failed 0 unanswered 0", "served H replied H crossed 0 open 0")),
    Dear("N records, of the last of N / 100 processes, numbers not chosen", not_chosen, MILLION, "N log N",
         ("frames F records N opaque 0 missing 0", "codes 1")),
    Dear("N records, of the last of N / 100 processes, numbers chosen for the hasher", falling_together, MILLION,
         "N × N / 20,000", ("frames F records N opaque 0 missing 0", "codes 1"), 5.0),
    Dear("N / 10 frames of the last two of N / 100 processes in turn, numbers chosen for the hasher", processes_in_turn,
         MILLION, "N × N / 1,000", ("frames T records T opaque 0 missing 0", "codes 1"), 5.0),
    Dear("N / 10 frames of the last two of N / 100 threads in turn, numbers chosen for the hasher", threads_in_turn,
         MILLION, "N × N / 1,000", ("frames T records T opaque 0 missing 0", "codes 1"), 5.0),
)


def heads_due(dear, count):
    """The lines that the report on the capture of this size must have."""
    letters = {"N": count, "H": count // 2, "F": count // 100 + 1, "T": count // 10 + count // 100}
    return {re.sub(r"\b[NHFT]\b", lambda letter: str(letters[letter[0]]), head) for head in dear.heads}


def judge_dear(dear, count, one, due, fail):
    """Reports what is wrong with a run on the capture of this size, if the first run answered `due`."""
    if one.answer[0] != 0 or one.answer[2] or not heads_due(dear, count) <= set(one.heads):
        fail(f"{dear.name}, {count}: {one.answer}, {one.heads[:24]}")
    if one.answer != due:
        fail(f"{dear.name}, {count}: the runs do not all answer alike")


def measured(program, room, dear, workers, captures, fail):
    """The least of the runs on the whole capture and on its half: two of each, and up to six if the ratio is too great.
    What else the machine does only adds to a time."""
    runs = {count: [] for count in captures}
    while True:
        for count, capture in captures.items():
            one = run(program, room, capture, workers)
            runs[count].append(one)
            judge_dear(dear, count, one, runs[count][0].answer, fail)
        whole, half = map(least, runs.values())
        ratio = whole.processor / half.processor
        tries = len(runs[dear.count])
        if tries == 6 or tries >= 2 and ratio <= dear.ratio:
            return whole, half, ratio


def check_one(program, room, dear, fail):
    """Prints a row for each number of workers on a costly capture."""
    captures = {count: room / f"{count}.cap" for count in (dear.count, dear.count // 2)}
    for count, capture in captures.items():
        dear.write(capture, count)
    alone = None
    for workers in 1, 4:
        whole, half, ratio = measured(program, room, dear, workers, captures, fail)
        alone = alone or whole
        if whole.answer != alone.answer:
            fail(f"{dear.name}: {workers} workers do not answer as one does")
        if ratio > dear.ratio:
            fail(f"{dear.name} by {workers}: {ratio:.2f} times the time at twice the size")
        row(dear.name, dear.count, workers, f"{whole.processor:.2f}", f"{whole.clock:.2f}", mebibytes(whole),
            f"{half.processor:.2f}", f"{ratio:.2f}", dear.order)
    for capture in captures.values():
        capture.unlink()


def check_dear(program, room, fail):
    """Prints a row for each costly capture and each number of workers."""
    chooser = compiled(room, "auditor/fall_together.c")
    for numbers, of_process in (FALLING, []), (FALLING_THREADS, [str(PROCESS)]):
        numbers[:] = map(int, answer([chooser, "10000", "0", *of_process])[1].split())
    row("capture", "N", "workers", "processor s", "clock s", "peak MiB", "half: processor s", "ratio", "grows with")
    for dear in DEAR:
        check_one(program, room, dear, fail)
    print()


# ---- large captures

ADDRESS = 10 * 2**30


def packed(per_frame, *records):
    """The records again and again, as often as they fit into this many bytes."""
    unit = b"".join(records)
    return unit * (per_frame // len(unit))


def large_bodies():
    """The directions, command bytes and attachment bytes of four frames of a thread, each some 64 KiB."""
    most = 2**16 - 32
    call = packed(most, transaction(BC_TRANSACTION, target=3, code=4), *each(BC_ACQUIRE, 7), *each(BC_RELEASE, 7))
    answer = packed(most, record(BR_TRANSACTION_COMPLETE), transaction(BR_REPLY, buffer=0x7000))
    both = transaction(BR_TRANSACTION, flags=1, sizes=(24, 8), buffer=0x9000)
    shows = most // (len(both) + 44)
    entries = b"".join(entry(68 * at, *ONE_HANDLE) for at in range(shows))
    frees = packed(most, *each_long(BC_FREE_BUFFER, 0x7000, 0x9000), watch(BC_REQUEST_DEATH_NOTIFICATION, 5, 6),
                   watch(BC_CLEAR_DEATH_NOTIFICATION, 5, 6))
    return (1, call, b""), (2, answer, b""), (2, both * shows, entries), (1, frees, b"")


def frames_of_64_kib(path, size):
    """Frames of 64 KiB, in turn from forty processes with eight threads each."""
    bodies = large_bodies()
    with open(path, "wb") as out:
        length, at = out.write(HEADER), 0
        while length + 2**16 <= size:
            direction, commands, attachments = bodies[at % 4]
            seat = at // 4
            numbers = at + 1, 1000 + seat % 40, 1 + seat // 40 % 8
            length += out.write(frame_header(direction, *numbers, len(commands), len(attachments)))
            length += out.write(commands) + out.write(attachments)
            at += 1
    return at


def empty_frames(path, size):
    """Frames without a record, 65,536 written at once."""
    block = bytearray(write(0, 1, 1) * 65536)
    block[0::32] = bytes(range(256)) * 256
    block[1::32] = bytes(at // 256 for at in range(65536))
    left = count = (size - 16) // 32
    with open(path, "wb") as out:
        # Sequences begin with 0.
        out.write(HEADER)
        for high in range(0, count // 65536 + 1):
            for byte in range(3):
                block[2 + byte::32] = bytes([high >> 8 * byte & 255]) * 65536
            out.write(block[:32 * min(left, 65536)])
            left -= min(left, 65536)
    return count


def check_large(program, room, fail):
    """Prints a row for one worker and one for 64 workers on each capture. All reports on a capture must be the same."""
    row("1 GiB", "workers", "processor s", "clock s", "peak MiB", "answer")
    capture = room / "large.cap"
    for name, make, pieces, totals, good_too in (
            ("frames of 64 KiB", frames_of_64_kib, (256, 1), "", ()),
            ("empty frames", empty_frames, (65536, 1), "records 0 opaque 0 missing 0", (MEMORY,))):
        frames, due = make(capture, 2**30), None
        for workers, piece in zip((1, 64), pieces):
            one = run(program, room, capture, workers, piece, address=ADDRESS)
            said = "the report" if one.answer[0] == 0 else one.answer[2].decode("utf-8", "replace").strip()
            row(f"{frames} {name}, piece {piece}", workers, f"{one.processor:.2f}", f"{one.clock:.2f}", mebibytes(one),
                said)
            if one.answer not in good_too:
                due = due or one.answer
                if due[0] != 0 or one.answer != due or not one.heads[1].startswith(f"frames {frames} {totals}"):
                    fail(f"1 GiB in {name} by {workers}: {one.answer}, {one.heads[:2]}")
        capture.unlink()
    print()


# ---- very often


def check_often(program, room, fail):
    """1,000 runs with 64 workers one after another, and 1,000 with 16 at once."""
    capture = room / "small.cap"
    write_traffic(capture, 2**16)

    def answered(workers):
        return answer(under([program, *report_by(workers, 1), capture], STACK))

    due = answered(1)
    if due[0] != 0 or not due[1].startswith(b"BINDER AUDIT 2\n") or due[2]:
        fail(f"a small capture by one worker: status {due[0]}, {due[2]!r}")
    for many in 1, 16:
        begun = time.monotonic()
        answers = at_once(many, answered, 1000 * [64])
        alike = answers.count(due)
        clock = time.monotonic() - begun
        print(f"1,000 runs by 64 workers, {many} at a time: {alike} alike, {clock:.1f} s", flush=True)
        if alike != 1000:
            wrong = next(one for one in answers if one != due)
            fail(f"{1000 - alike} of 1,000 runs, {many} at a time, answer otherwise: {shown(wrong)}")


PARTS = {"dear": check_dear, "large": check_large, "often": check_often}


def judge(given, room, fail):
    for program in given.programs:
        check_stacks(program, room, fail)
        for part in given.part or PARTS:
            PARTS[part](program, room, fail)


if __name__ == "__main__":
    check(judge, part={"choices": PARTS, "action": "append"})
