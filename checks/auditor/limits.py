"""Runs the built program on a capture of 64 MiB under limits on its address space, and checks its answers. It also
compares the most memory that the program takes with a ceiling, and how many instructions it takes.

    checks/run limits -- [--runs N] [--bytes N] [PROGRAM..]
    checks/run limits -- [--peaks] [--instructions] [PROGRAM..]

Each limit is tried with 1, 4 and 64 workers, 20 times each, or N times; four runs are under way at once. This takes 3
GB of memory and some three minutes; it is run by hand. It prints a table: for each limit and each number of workers,
how many runs answered with the report. With --peaks or --instructions, as `.ci/run` calls it, it looks only at these
ceilings, which takes some seconds, and prints no table.

A limit is what the program needs for itself, plus some times the size of the capture: ten limits from 1 to 4 times, and
seven greater ones. What the program needs for itself is the least limit, to a page, under which one worker reports on a
capture without frames. Each thread asks for more address space than it uses: 8 MiB of stack, and 64 MiB for the C
library to take memory from, at most 8 of these for each processor.

A run under a limit answers Memory: nothing on standard output, `fault Memory`, status 3. Or it gives its normal answer:
the whole report, byte for byte that of one worker without a limit, and status 0. With one worker, all runs under the
least limit answer Memory, and all from 4 times on give the report. Under the greatest limit all runs give the report,
with any number of workers. With several workers both answers may come under one limit: which thread gets what is left
differs from run to run, and a thread that cannot be started leaves its work to the thread that would have started it.

A ceiling is some 15 percent above the most that one worker was measured to take, in pieces of 256 frames. One capture
has very many frames, of which only the place is kept. The other has very many rows, which are not rendered all at once.
A body that kept a view of each frame took 93 MiB for the first, and one that rendered all rows at once took 781 MiB for
the second. If the program needs another amount for a good reason, measure the ceiling again.

valgrind counts the instructions of one worker on 4 MiB of traffic, and their ceiling is 3 percent above what was
counted. So a function on the way of each event that is no longer inlined is seen, which the clock of a busy machine
does not show. Only the first PROGRAM is counted, the auditor that the toolchain's clang built.
"""

import functools
import pathlib
import re
import resource
import subprocess
from typing import Callable, NamedTuple

from checks.kit.captures import write
from checks.kit.checking import FLAG, check, row
from checks.kit.runs import MEMORY, answer, at_once, measured_run, output_of, report_by, shown, under
from checks.kit.traffic import write_traffic
from checks.kit.written import error_replies, write_frames

WORKERS = 1, 4, 64
AT_ONCE = 4
PAGE = resource.getpagesize()

# How many thirds of the capture's size a limit has on top of what the program needs for itself.
THIRDS = *range(3, 13), 18, 24, 48, 72, 96, 144, 192
ENOUGH_FOR_ONE = 12


def report(program, capture, workers, limit=None):
    """The answer of a run under a limit in bytes. Every stack, also of threads, has 8 MiB."""
    return answer(under([program, *report_by(workers), capture], 8192, limit))


def own_need(program, room):
    """The least limit under which one worker reports on a capture without frames, in bytes."""
    capture = room / "empty.cap"
    write_frames(capture)
    due = report(program, capture, 1)
    too_little, enough = 0, 2**30 // PAGE
    while enough - too_little > 1:
        pages = (too_little + enough) // 2
        if report(program, capture, 1, pages * PAGE) == due:
            enough = pages
        else:
            too_little = pages
    return enough * PAGE


def reports(program, capture, workers, limit, due, runs, fail):
    """How many of the runs under a limit answered with the report that is due. Reports what is wrong with the
    others."""
    answers = at_once(AT_ONCE, lambda _: report(program, capture, workers, limit), range(runs))
    for wrong in (one for one in answers if one not in (MEMORY, due)):
        fail(f"{workers} workers under {limit} bytes: {shown(wrong)}")
    return answers.count(due)


def table(program, capture, room, runs, fail):
    """Prints a row for each limit, and reports what is wrong."""
    due = report(program, capture, 1)
    size, own = capture.stat().st_size, own_need(program, room)
    if due[0] != 0 or due[2]:
        return fail(f"without a limit: {shown(due)}")
    print(f"capture {size} bytes, report {len(due[1])} bytes, own need {own} bytes; of {runs} runs each")
    row("times the capture", "limit in bytes", *(f"by {it}" for it in WORKERS))
    for thirds in THIRDS:
        limit = own + size * thirds // 3
        well = [reports(program, capture, workers, limit, due, runs, fail) for workers in WORKERS]
        row(f"{thirds / 3:.2f}", limit, *well)
        if thirds == THIRDS[0] and well[0] != 0:
            fail(f"one worker answers {well[0]} times with the report under the least limit")
        if thirds >= ENOUGH_FOR_ONE and well[0] != runs:
            fail(f"one worker answers {well[0]} of {runs} times with the report under {limit} bytes")
        if thirds == THIRDS[-1] and well != [runs] * len(WORKERS):
            fail(f"some of the runs do not answer with the report under the greatest limit: {well}")


# ---- ceilings


MILLION = 1_000_000


def empty_frames(path: pathlib.Path) -> None:
    write_frames(path, (write(sequence, 1, 1) for sequence in range(1, MILLION + 1)))


class Peak(NamedTuple):
    """A capture, and the most MiB that a run on it may take."""
    name: str
    make: Callable[[pathlib.Path], None]
    ceiling: int


PEAKS = (
    Peak("1,000,000 empty frames", empty_frames, 46),
    Peak("2,000,000 rows of one frame", functools.partial(error_replies, count=2 * MILLION), 101),
)


def peak_of(program, capture):
    """How many MiB of memory a run with one worker took at its peak, and its status."""
    words = [program, *report_by(1, 256), capture]
    status, used = measured_run(words, stdout=subprocess.DEVNULL, stderr=subprocess.DEVNULL)
    return used.peak / 1024, status


def check_peaks(program, room, printed, fail):
    """Reports each capture that takes more than its ceiling, by the least of three runs; prints a row for each if
    asked."""
    if printed:
        row("capture", "MiB at the peak", "ceiling")
    for peak in PEAKS:
        capture = room / "peak.cap"
        peak.make(capture)
        runs = [peak_of(program, capture) for _ in range(3)]
        least = min(mebibytes for mebibytes, _ in runs)
        if printed:
            row(peak.name, f"{least:.0f}", peak.ceiling)
        if least > peak.ceiling:
            fail(f"{peak.name}: expected {peak.ceiling} MiB at the peak of a run or less, came {least:.0f}")
        if any(status for _, status in runs):
            fail(f"{peak.name}: expected status 0, came {[status for _, status in runs]}")


# ---- instructions


TRAFFIC = 2**22
MILLIONS = 49.1


def check_instructions(program, room, printed, fail):
    """Reports a run that takes more instructions than the ceiling; prints a row if asked."""
    capture, counts = room / "counted.cap", room / "counts"
    write_traffic(capture, TRAFFIC)
    output_of(["valgrind", "--tool=callgrind", f"--callgrind-out-file={counts}", program, *report_by(1, 256), capture])
    millions = int(re.search(r"^totals: (\d+)$", counts.read_text("utf-8"), re.MULTILINE)[1]) / 1e6
    if printed:
        row("traffic in bytes", "million instructions", "ceiling")
        row(TRAFFIC, f"{millions:.1f}", MILLIONS)
    if millions > MILLIONS:
        fail(f"expected {MILLIONS} million instructions on {TRAFFIC} bytes of traffic or less, came {millions:.1f}")


def judge(given, room, fail):
    whole = not given.peaks and not given.instructions
    if whole or given.instructions:
        check_instructions(given.programs[0], room, whole, fail)
    for program in given.programs:
        if whole or given.peaks:
            check_peaks(program, room, whole, fail)
        if whole:
            capture = room / "traffic.cap"
            write_traffic(capture, given.bytes)
            table(program, capture, room, given.runs, fail)


if __name__ == "__main__":
    check(judge, runs={"type": int, "default": 20}, bytes={"type": int, "default": 2**26}, peaks=FLAG,
          instructions=FLAG)
