"""Compares what programs on AOSP's libbinder print of their transactions with what `./view --arguments` says of them.
The program speech/ prints each value that it sends and gets, as viewer/arguments writes it. It is built with libbinder
of Android 10 and of 14, and recorded in a guest. This is run by hand.

    checks/run speech [-- OPTION..]         builds, boots, compares; prints a line for each release
    checks/run speech -- --recorded FOLDER  compares what is in this folder, an earlier one of --room

Each line that the program printed must be a transaction or a reply of the capture, and each of these must be printed;
numbers of objects and descriptors do not count. So many must be there: LEAST of each release.
"""

import argparse
import pathlib
import re
import sqlite3
import sys
from collections import Counter
from contextlib import closing
from typing import Iterator

from checks.kit.programs import ROOT
from checks.kit.runs import answer
from checks.recorder.aosp import play
from checks.recorder.guest.kernels import check_tools, kernel_of
from checks.recorder.guest.machines import X86_64
from checks.recorder.guest.plans import ACCEL, NAMES, command, plan_text

SPEECH = play.AOSP / "speech"
LEAST = 200

# What the program prints, by the record that has it: who says what to which method.
Line = tuple[str, str, str]

SENT = """SELECT iif(kind GLOB 'BC_*', 'calls', 'gets'), r.interface, m.method, r.arguments
FROM record r LEFT JOIN method m USING (interface, code)
WHERE kind GLOB 'B?_TRANSACTION*' AND r.interface GLOB 'speech.*'"""
ANSWERED = """SELECT iif(side = 'made', 'is-answered', 'answers'), c.interface, m.method, r.arguments
FROM call c JOIN record r ON r.place = c.closer LEFT JOIN method m ON (m.interface, m.code) = (c.interface, c.code)
WHERE c.interface GLOB 'speech.*'"""


def plain(text: str) -> str:
    """What is said without what a program does not print: numbers of objects, and names of exceptions."""
    text = re.sub(r"\b(BINDER|HANDLE|FD) (?:0x)?[0-9a-f]+", r"\1", text)
    text = re.sub(r"exception=EX_\w+ \((-\d+)\)", r"exception=\1", text)
    return re.sub(r"(status=-?\d+) \w+", r"\1", text)


def printed(path: pathlib.Path) -> Counter[Line]:
    """The lines of the program."""
    lines = [line for line in path.read_text("utf-8", "replace").splitlines() if line.startswith("speech ")]
    found: Counter[Line] = Counter()
    for line in lines:
        head, _, told = line.partition("\t")
        _, how, method = head.split(" ")
        found[how, method, told] += 1
    return found


def said(folder: pathlib.Path, sources: list[pathlib.Path]) -> Counter[Line]:
    """What the database says of the transactions and replies."""
    kept = folder / "arguments.db"
    kept.unlink(missing_ok=True)
    status, out, err = answer([ROOT / "view", folder / "capture-1.cap", "--arguments", "--database", kept, "--groups",
                               *(f"--aidl={source}" for source in sources)], encoding="utf-8", timeout=600)
    if status:
        raise SystemExit(f"checks/speech: ./view ended with {status}: {out}{err}")
    with closing(sqlite3.connect(kept)) as database:
        return Counter((how, f"{interface.removeprefix('speech.')}.{method}", plain(told or ""))
                       for query in (SENT, ANSWERED) for how, interface, method, told in database.execute(query))


def compared(folder: pathlib.Path, android: str) -> Iterator[str]:
    """What differs between the two. Prints how many are the same."""
    names = ("both",) if android == "10" else ("both", "newer")
    here, there = printed(folder / "output"), said(folder, [SPEECH / name for name in names])
    for line, count in (here - there).items():
        yield f"{folder.name}: printed and not in the capture, {count} times: {' '.join(line)}"
    for line, count in (there - here).items():
        yield f"{folder.name}: in the capture and not printed, {count} times: {' '.join(line)}"
    same = (here & there).total()
    by = Counter(how for how, *_ in (here & there).elements())
    print(f"{folder.name}: {same} transactions and replies agree with what was printed:",
          ", ".join(f"{n} {how}" for how, n in sorted(by.items())), f"of {here.total()}")
    if by["calls"] + by["gets"] < LEAST:
        yield f"{folder.name}: only {by['calls'] + by['gets']} transactions agree"


def recorded(given: argparse.Namespace) -> list[pathlib.Path]:
    """Builds the programs, and records them in a guest of each kernel. The folders of what came."""
    check_tools(X86_64)
    lines = [[f"speech-{android}", "test", android, "recorded", "speech"] for android in given.android or play.RELEASES]
    files = {**play.files_for(given), "plan": plan_text(lines)}
    for _, _, android, *_ in lines:
        folder = play.built(android, ["speech"], given.room / f"build-{android}.log", room=SPEECH.name)
        files |= play.files_of(android, folder, given.room)
    found = []
    for series in given.kernel or ["6.1"]:
        if wrong := play.play(given, series, kernel_of(series, X86_64), files, len(lines)):
            raise SystemExit(f"checks/speech: {'; '.join(wrong)}")
        found += [play.folder_of(given, series) / line[0] for line in lines]
    return found


def check(given: argparse.Namespace) -> list[str]:
    folders = sorted(given.recorded.glob("**/speech-*")) if given.recorded else recorded(given)
    if not folders:
        return [f"{given.recorded} has no recordings"]
    return [what for folder in folders for what in compared(folder, folder.name.removeprefix("speech-"))]


if __name__ == "__main__":
    command("speech", sys.modules["__main__"].__doc__, check, 400,
            recorder={"type": pathlib.Path, "metavar": "FILE", "help": "a recorder that is already built"},
            kernel={**NAMES, "metavar": "SERIES", "help": "5.10, 6.1, 6.12 or newest; by default 6.1"},
            android={**NAMES, "choices": play.RELEASES, "help": "only this release"}, accel=ACCEL,
            recorded={"type": pathlib.Path, "metavar": "FOLDER", "help": "compares what was recorded before"})
