"""Checks that the recorder's loader stands whatever comes through the ring, and that what it writes is a good capture.

    checks/run ring [-- --messages N] [-- --seconds N] [-- --seed N]

It builds the parts of the recorder that need no kernel, with the address and undefined-behaviour sanitizers, and gives
them messages as from the ring:

- frames of which another thread of the caller changed the commands before the driver took them, one of each kind
  (raced.c);
- messages of every kind, in every order, with every length and lie, from a generator (ring.c): of what a caller can
  have a hand in, and then of anything, also to a flight recorder;
- the same as clang's libFuzzer chooses them.

A /proc that is made up (made_proc.c) has names of any bytes, maps that lie, and files that change while they are read.
What must hold: no sanitizer has anything to say; the loader's memory has a bound; each number is in one line of the
side list; each honest frame is in the capture with its bytes, or, if somebody lied of it, is told as lost; and
`./audit first-fault` finds no malformed record in what was written.
"""

import argparse
import os
import pathlib
import subprocess

from checks.kit.checking import Fail, check
from checks.kit.programs import CHECKS

MESSAGES = 60_000       # of a run of the generator
SECONDS = 5             # of libFuzzer
LONGEST = 400           # bytes of its inputs
RUNS = {"lies": ["lies"], "any": ["any"],
        "lies to a flight recorder": ["lies", "2"], "any to a flight recorder": ["any", "2"]}
WRAPPED = "-Wl," + ",".join(f"--wrap={name}" for name in ("fopen", "open", "fstat", "pread", "clock_gettime"))


def build(how: str, program: str, room: pathlib.Path, *options: str) -> pathlib.Path:
    folder = room / how.strip("-")
    folder.mkdir(exist_ok=True)
    subprocess.run([CHECKS / "recorder/build.sh", how, program, folder, *options], check=True)
    return folder / program


def run(what: str, words: list[object], fail: Fail, **names: str) -> str:
    """Runs a program, which says what did not hold, and ends with another status then. Returns what it said."""
    ran = subprocess.run(list(map(str, words)), env={**os.environ, **names}, capture_output=True, check=False)
    said = (ran.stdout + ran.stderr).decode(errors="replace")
    if ran.returncode:
        fail(f"{what}: status {ran.returncode}: {said[-3000:]}")
    return said


def judge_capture(what: str, out: pathlib.Path, auditor: pathlib.Path, fail: Fail) -> None:
    """What the auditor says of the files, which it takes as one capture. Then they are removed."""
    files = sorted(out.parent.glob(f"{out.name}-*.cap"), key=lambda path: int(path.stem.rpartition("-")[2]))
    ran = subprocess.run([auditor, "first-fault", *files], capture_output=True, encoding="utf-8", check=False)
    said = ran.stdout.strip()
    if said != "no malformed record":
        fail(f"{what}: ./audit first-fault says: {said}")
    for path in (*files, *out.parent.glob(f"{out.name}*.side")):
        path.unlink()


def judge(given: argparse.Namespace, room: pathlib.Path, fail: Fail) -> None:
    auditor = given.programs[0]
    raced, ring = build("--sanitize", "raced", room), build("--sanitize", "ring", room, WRAPPED)
    run("raced", [raced, room / "raced"], fail)
    judge_capture("raced", room / "raced", auditor, fail)
    for number, (what, words) in enumerate(RUNS.items()):
        said = run(what, [ring, room / "ring", given.messages, given.seed + number, *words], fail)
        judge_capture(f"{what}, seed {given.seed + number}", room / "ring", auditor, fail)
        if given.messages != MESSAGES:
            print(f"{what}, seed {given.seed + number}: {said.strip()}", flush=True)
    fuzzed = build("--fuzz", "ring", room, WRAPPED)
    words = [fuzzed, f"-max_total_time={given.seconds}", f"-max_len={LONGEST}", "-len_control=0",
             f"-seed={given.seed}", "-verbosity=0", f"-artifact_prefix={room}/"]
    run("libFuzzer", words, fail, OUT=str(room / "fuzzed"))
    judge_capture("libFuzzer", room / "fuzzed", auditor, fail)


if __name__ == "__main__":
    check(judge, messages={"type": int, "default": MESSAGES, "help": "so many in each of the generator's four runs"},
          seconds={"type": int, "default": SECONDS, "help": "so long libFuzzer tries inputs"},
          seed={"type": int, "default": 1, "help": "of the first run, and of libFuzzer"})
