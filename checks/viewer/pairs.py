#!/usr/bin/env python3
"""Checks the pairs of sends and deliveries that `./listing` finds, on sessions of a made-up driver.

    checks/run pairs                    16 sessions of each kind, and 48 of those with lost frames or begun in mid-life
    checks/run pairs -- --sessions N    N sessions of each kind, and prints a table of what came of their deliveries
    checks/run pairs -- --only KIND     sessions of this kind alone, such as `ticks cut`

kit/simulated.py has the driver. In some sessions frames are lost, and some begin in mid-life. No pair that raw_send
marks as certain may have another process or another generation than the send that was delivered, and where fits is 1 it
is that very send. Of the pairs of whole sessions most must be certain, and of the guesses of each way most must be
right. If all is well it prints nothing without --sessions. Otherwise it prints what is wrong, and ends with status 1.
"""

import argparse
import os
import pathlib
import random
import subprocess
from collections import Counter
from concurrent.futures import ProcessPoolExecutor
from itertools import repeat
from typing import NamedTuple

from checks.kit.checking import Fail, check, row
from checks.kit.programs import ROOT, TABLES
from checks.kit.rows import rows_of
from checks.kit.simulated import Driver, Habits, Truth, began, capture_of
from viewer.database.programs import build_programs

FRAMES = 900

# Of the deliveries of whole sessions so many hundredths must be in a pair that is certain. Of those in no such pair
# whose send is in the capture, so many must have their send by a guess.
CERTAIN, GUESSED = 90, 80

# The weights are those of simulated.ACTS.
SCENES = {
    "calls": Habits((3, 12, 2, 4, 1, 1, 1, 0, 0), rests=(20, 200)),
    "ticks": Habits((3, 2, 5, 1, 2, 0, 1, 12, 0), rests=(20, 200)),
    "mixed": Habits((3, 3, 2, 2, 3, 4, 3, 2, 0), rests=(20, 200)),
    "rushed": Habits((2, 4, 3, 2, 4, 2, 2, 5, 0), rests=(2, 20), works=(0, 30), nests=30),
}
MANAGER = Habits((1, 0, 0, 0, 0, 0, 0, 0, 0), nests=0, registers=False, listens=False)
# How a session comes into the capture, and how many sessions of each scene come so.
WAYS = {"whole": 16, "cut": 48, "lost": 48}
OUTCOMES = "certain", "right", "wrong", "none", "unsent", "false"


class Kind(NamedTuple):
    scene: str
    way: str

    def __str__(self) -> str:
        return f"{self.scene} {self.way}"


def played(kind: Kind, seed: int) -> Truth:
    """The capture of a session: whole, begun in mid-life, or with frames lost."""
    driver = Driver(f"{kind.scene} {seed}")
    driver.manager = began(driver, 1, 0, MANAGER).new_node()

    def begin() -> None:
        began(driver, driver.random.randint(1, 3), driver.random.randint(1, 3), SCENES[kind.scene])

    def restart() -> None:
        """One process ends, and another one begins."""
        driver.end(driver.random.choice([it for it in driver.processes[1:] if not it.dead]))
        begin()
    for _ in range(driver.random.randint(3, 6)):
        begin()
    driver.play(FRAMES, restart)
    draw = random.Random(f"{kind} {seed}")
    first = draw.randint(100, len(driver.frames) // 2) if kind.way == "cut" else 0
    lost = set()
    for _ in range(draw.randint(1, 4) if kind.way == "lost" else 0):
        at = draw.randint(20, len(driver.frames) - 20)
        lost.update(range(at, at + draw.choice((1, 1, 2, 10))))
    return capture_of(driver.frames, lost, first)


class Pair(NamedTuple):
    """A row of raw_send."""
    send: int
    process: int
    generation: int | None
    certain: int | None
    fits: int | None


def listed(room: pathlib.Path, capture: bytes) -> tuple[dict[int, Pair], dict[int, int | None]]:
    """The rows of raw_send by their place, and the send of each delivery."""
    file, rows = room / "capture.cap", room / "rows"
    room.mkdir()
    rows.mkdir()
    file.write_bytes(capture)
    subprocess.run([TABLES, "--tables", rows, file], check=True, stdout=subprocess.DEVNULL)
    process = {it["utid"]: it["upid"] for it in rows_of(rows / "thread.rows")}
    sends = {it["place"]: Pair(it["place"], process[it["utid"]], *map(it.get, ("generation", "certain", "fits")))
             for it in rows_of(rows / "send.rows")}
    return sends, {it["place"]: it.get("send") for it in rows_of(rows / "delivery.rows")}


def outcome(sends: dict[int, Pair], found: int | None, true: int | None) -> str:
    """What came of a delivery: its pair is certain and right, right or wrong by guess, not there, or certain and
    wrong."""
    if found is None:
        return "none" if true is not None else "unsent"
    pair, sent = sends[found], sends.get(true)
    if not pair.certain:
        return "right" if found == true else "wrong"
    same = sent is not None and (pair.process, pair.generation) == (sent.process, sent.generation)
    return "certain" if same and (pair.fits != 1 or found == true) else "false"


def judged(room: pathlib.Path, kind: Kind, seed: int) -> tuple[Counter, list[str]]:
    truth = played(kind, seed)
    sends, deliveries = listed(room / f"{kind.scene}-{kind.way}-{seed}", truth.capture)
    if deliveries.keys() != truth.sent_at.keys():
        return Counter(), ["the deliveries are not those of the session"]
    counts, faults = Counter(), []
    for place, found in deliveries.items():
        what = outcome(sends, found, truth.sent_at[place])
        counts[what] += 1
        if what == "false":
            faults.append(f"the delivery at {place} is certainly of {found}, but came from {truth.sent_at[place]}")
    return counts, faults


def judge(given: argparse.Namespace, room: pathlib.Path, fail: Fail) -> None:
    build_programs(ROOT)
    kinds = [kind for kind in (Kind(scene, way) for way in WAYS for scene in SCENES) if given.only in str(kind)]
    if given.sessions:
        row("sessions", *OUTCOMES)
    of_way: dict[str, Counter] = {}
    with ProcessPoolExecutor(os.cpu_count()) as pool:
        for kind in kinds:
            total: Counter = Counter()
            seeds = range(given.sessions or WAYS[kind.way])
            for seed, (counts, faults) in enumerate(pool.map(judged, repeat(room), repeat(kind), seeds)):
                total += counts
                for what in faults[:3]:
                    fail(f"{kind} {seed}: {what}")
            if given.sessions:
                row(kind, *(total[what] for what in OUTCOMES))
            if kind.way == "whole" and total["certain"] * 100 < CERTAIN * total.total():
                fail(f"{kind}: only {total['certain']} of {total.total()} are certain")
            of_way[kind.way] = of_way.get(kind.way, Counter()) + total
    for way, total in of_way.items():
        guesses = sum(total[what] for what in ("right", "wrong", "none"))
        if total["right"] * 100 < GUESSED * guesses:
            fail(f"{way}: only {total['right']} of {guesses} guesses are right")


if __name__ == "__main__":
    check(judge, sessions={"type": int, "default": 0}, only={"default": ""})
