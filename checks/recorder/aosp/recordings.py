"""Checks the page's groups on stored recordings of AOSP's code.

    checks/run recordings

Each file in samples/aosp is a recording of `checks/run aosp`, packed by store.py, and named after its line of plan.txt;
one of the driver in Rust ends in `-rust`. The groups of the page must be those that groups.txt expects, no frame may be
lost but for those that the line makes the recorder lose, and the report may not differ from the driver's books.
"""

import argparse
import pathlib
import tarfile

from checks.kit.checking import Fail, check
from checks.kit.programs import ROOT
from checks.kit.runs import at_once
from checks.recorder.aosp.judge import faults_of

STORED = ROOT / "samples/aosp"


def judged(path: pathlib.Path, room: pathlib.Path) -> list[str]:
    with tarfile.open(path, encoding="utf-8") as packed:
        packed.extractall(room)
    folder = room / path.name.removesuffix(".tar.xz")
    return [f"{folder.name}: {fault}" for fault in faults_of(folder, [])]


def judge(_: argparse.Namespace, room: pathlib.Path, fail: Fail) -> None:
    stored = sorted(STORED.glob("*.tar.xz"))
    if not stored:
        fail(f"{STORED} has no recordings")
    for faults in at_once(2, lambda path: judged(path, room), stored):
        for fault in faults:
            fail(fault)


if __name__ == "__main__":
    check(judge)
