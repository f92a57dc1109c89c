"""Checks that no capture is costly to judge: what the rules take grows as a capture does, whatever it has much of.

    checks/run costs                          judges each capture of costly.py, and each with a costly book, in two
                                              sizes, of plain tables and of packed ones
    checks/run costs   -- --bytes N [NAME]    runs `./view --groups` on captures of N bytes, all or those with this text
                                              in the name, and prints what each takes. 8 MiB must end in a minute of the
                                              processor, below 1 GB: half an hour

SQLite counts the instructions of its own machine, which are the same in each run. Twice the capture may take a little
more than twice as many, by a logarithm. What a statement takes beside these, for example in a function of Python, is
not counted.
"""

import argparse
import itertools
import os
import pathlib
import sqlite3
import tempfile
from concurrent.futures import ProcessPoolExecutor
from typing import Iterator
from unittest import mock

from checks.kit.checking import Fail, check, row
from checks.kit.programs import ROOT
from checks.kit.runs import measured_run
from checks.viewer.costly import COSTLY, LINES, write_costly, write_costly_book
from viewer.database import finders, loading, raw_tables
from viewer.database.programs import build_programs
from viewer.rules import judging

# The two sizes, how much more the greater one may take, and how many instructions are not looked at.
SMALL, GREAT = 1 << 15, 1 << 16
GROWTH, FEW = 2.4, 1_000_000
# Of the machine, SQLite tells every so many instructions.
AT_ONCE = 1000

# What a capture of 8 MiB may take: seconds of the processor, and KiB of memory.
SECONDS, KIBIBYTES = 60, 1_000_000_000 // 1024


class Counted:
    """How many instructions of SQLite's machine the statements of a database take."""

    def __init__(self, database: sqlite3.Connection):
        self.instructions = 0
        database.set_progress_handler(self.count, AT_ONCE)

    def count(self) -> int:
        self.instructions += AT_ONCE
        return 0


def instructions(name: str, size: int, packed: bool, room: pathlib.Path) -> int:
    """How many it takes to judge a costly capture of this size, or with a book of this size, in one process."""
    taken: list[Counted] = []

    def judge(database: sqlite3.Connection, **_: object) -> None:
        taken.append(Counted(database))
        judging.judge(database)

    with tempfile.TemporaryDirectory(dir=room) as folder:
        capture = pathlib.Path(folder, "it.cap")
        side = str(write_costly_book(name, size, capture)) if name in LINES else None
        if not side:
            write_costly(name, size, capture)
        with mock.patch.multiple(loading, judge=judge, LEAST_PACKED=0), \
                mock.patch.object(finders, "LEAST_RECORDS", 2**63):
            loading.database_of(ROOT, [str(capture)], side, capture.with_suffix(".db"), lambda _: None, kept=not packed
                                )[0].close()
    return taken[0].instructions


def growth_of(name: str, packed: bool, room: pathlib.Path) -> str | None:
    """What is wrong with how the instructions for a costly capture grow."""
    small, great = (instructions(name, size, packed, room) for size in (SMALL, GREAT))
    if great <= max(FEW, GROWTH * small):
        return None
    return (f"{name}, {'packed' if packed else 'plain'} tables: {GREAT} bytes take {great} instructions of SQLite, "
            f"{SMALL} bytes {small}")


def run_each(names: list[str], size: int, room: pathlib.Path) -> Iterator[str]:
    """Prints what `./view` takes for each of these captures, and says which take too much."""
    row("capture", "bytes", "processor", "memory")
    row("---", "---:", "---:", "---:")
    for name in names:
        capture = room / f"{name}.cap"
        write_costly(name, size, capture)
        with open(os.devnull, "wb") as nothing:
            status, used = measured_run([ROOT / "view", capture, "--groups"], stdout=nothing)
        capture.unlink()
        row(name, size, f"{used.processor:.1f} s", f"{used.peak // 1024} MiB")
        if status or used.processor > SECONDS or used.peak > KIBIBYTES:
            yield f"{name}: status {status}, {used.processor:.1f} s of the processor, {used.peak} KiB"


def judge(given: argparse.Namespace, room: pathlib.Path, fail: Fail) -> None:
    build_programs(ROOT)
    raw_tables.loader()
    if given.bytes:
        size, *text = given.bytes
        for fault in run_each([name for name in COSTLY if not text or text[0] in name], int(size), room):
            fail(fault)
        return
    with ProcessPoolExecutor(os.cpu_count()) as pool:
        for fault in pool.map(growth_of, *zip(*itertools.product((*COSTLY, *LINES), (False, True), [room]))):
            if fault:
                fail(fault)


if __name__ == "__main__":
    check(judge, bytes={"nargs": "+"})
