"""Run this after a change of one crate, long before the check of the whole repository: it runs the crate's check, the
tests that call it, and whole captures. docs/ARCHITECTURE.md says how long that takes.

    checks/run quick -- CRATE
    checks/run quick -- --list     prints what runs for each crate

The tests are those of the `.._tests` that name the crate in crates.txt or, if none does, of all that stand on it. The
captures are the cases of crates/audit_cases, or for a crate below the listing
alone those of `checks/run listing`. Nothing tests some crates, such as a program: after the check of such a crate a
line says so, and the status is 1.

Crates above see only clauses and definitions: if those stay as they are, no proof above can break. Otherwise run
`rt all check` first. Each step prints how long it took. If a step fails, its output is printed, no further step runs,
and the status is 1.
"""

import os
import pathlib
import subprocess
import sys
import time
from typing import NamedTuple

from checks.kit.programs import CHECKS, ROOT

CRATES = ROOT / "crates"
AUDIT, LISTING = "audit_cases", "binder_tables"


class Step(NamedTuple):
    """What it does, and a command, which runs in a folder."""
    what: str
    folder: pathlib.Path
    command: tuple[str | pathlib.Path, ...]


def libraries() -> dict[str, list[str]]:
    """The crates of crates.txt, with those that each of them names."""
    lines = (ROOT / "crates.txt").read_text("utf-8").splitlines()
    named = (line.partition(":") for line in lines if line and not line.startswith("#"))
    return {crate: below.split() for crate, _, below in named}


def stands_on(top: str, crate: str, below: dict[str, list[str]]) -> bool:
    return top == crate or any(stands_on(one, crate, below) for one in below.get(top, ()))


def tests_of(crate: str, below: dict[str, list[str]]) -> list[str]:
    """The crates of tests that name a crate, or those that stand on it; of one of tests, that crate."""
    tests = [one for one in below if one.endswith("_tests")]
    named = [one for one in tests if crate == one or crate in below[one]]
    return named or [one for one in tests if stands_on(one, crate, below)]


def captures_of(crate: str, below: dict[str, list[str]]) -> list[Step]:
    """The steps that run whole captures through a crate; none if no such program stands on it."""
    if stands_on(AUDIT, crate, below):
        # `rt run` also runs what it built, here on no case.
        return [Step(f"the build of {AUDIT}", CRATES / AUDIT, ("rt", "run")),
                Step(f"the cases of {AUDIT}", CRATES / AUDIT / "data",
                     ("bash", "-c", "set -o pipefail; ../out/audit_cases <../stdin | cmp - ../stdout"))]
    if stands_on(LISTING, crate, below):
        return [Step(f"the build of {LISTING}", ROOT, (CRATES / "build", "--as", "quick", LISTING)),
                Step("the cases of the listing", ROOT, (CHECKS / "run", "listing"))]
    return []


def tests_and_captures(crate: str, below: dict[str, list[str]]) -> list[Step]:
    return [*(Step(f"the tests of {one}", CRATES / one, ("rt", "test")) for one in tests_of(crate, below)),
            *captures_of(crate, below)]


def run(step: Step) -> bool:
    """Runs a step, and says how long it took, or all that it said if it failed."""
    began = time.monotonic()
    ended = subprocess.run(step.command, cwd=step.folder, stdin=subprocess.DEVNULL, stdout=subprocess.PIPE,
                           stderr=subprocess.STDOUT)
    if ended.returncode:
        sys.stdout.buffer.write(ended.stdout)
        print(f"checks/quick: {step.what}: failed", file=sys.stderr)
        return False
    print(f"{step.what}: {time.monotonic() - began:.0f} s", flush=True)
    return True


def main(words: list[str]) -> int:
    below = libraries()
    match words:
        case ["--help"] | ["-h"]:
            print((__doc__ or "").rstrip())
            return 0
        case ["--list"]:
            for crate in below:
                print(f"{crate}: {', '.join(step.what for step in tests_and_captures(crate, below)) or 'nothing'}")
            return 0
        case [crate] if crate in below:
            after = tests_and_captures(crate, below)
            if not all(run(step) for step in (Step(f"the check of {crate}", CRATES / crate, ("rt", "check")), *after)):
                return 1
            if not after:
                print(f"checks/quick: no test and no case calls {crate}: nothing but its check ran", file=sys.stderr)
            return 0 if after else 1
    print("usage: checks/run quick -- CRATE, where CRATE is one of crates.txt", file=sys.stderr)
    return os.EX_USAGE


if __name__ == "__main__":
    sys.exit(main(sys.argv[1:]))
