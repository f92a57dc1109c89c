"""Checks the findings of freeze notifications, on sessions of a made-up driver.

    checks/run freezes                    a few sessions of each kind
    checks/run freezes -- --sessions N    N sessions of each kind

kit/simulated.py has the driver. Some sessions begin in mid-life, and in some frames are lost. What is open of freeze
notifications, and what answers nothing, must be what a slow second reading of the records says. In whole sessions it
must also be what the driver says: the notifications that were not acknowledged, and no answer to nothing. If all is
well it prints nothing. Otherwise it prints what is wrong, and ends with status 1.
"""

import argparse
import os
import pathlib
import random
import sqlite3
import subprocess
from collections import Counter
from concurrent.futures import ProcessPoolExecutor
from itertools import product, repeat

from checks.kit.checking import Fail, check
from checks.kit.programs import ROOT, TABLES
from checks.kit.second_reading import (DELIVERIES, NEWER, Event, address_of, cookie_behind_handle, cookie_of, grouped,
                                       handle_of, objects_of, number, read_parts, reading)
from checks.kit.simulated import Driver, Habits, Truth, began, capture_of
from viewer.database import loading, raw_tables
from viewer.database.programs import build_programs
from viewer.database.sqlite import open_database
from viewer.rules import judging

FRAMES, SESSIONS = 700, 4
WAYS = "whole", "cut", "lost"

# The weights are those of simulated.ACTS.
MANAGER = Habits((1, 0, 0, 0, 0, 0, 0, 0, 0), nests=0, registers=False, listens=False)
SCENES = {
    "watchers": Habits((3, 2, 1, 2, 1, 1, 1, 0, 5), rests=(10, 60), ignores=5),
    "droppers": Habits((3, 1, 1, 2, 1, 1, 6, 0, 6), rests=(5, 40), ignores=40),
}


def played(scene: str, way: str, seed: int) -> Truth:
    """The capture of a session in which processes are frozen and thawed: whole, begun in mid-life, or with frames
    lost."""
    driver = Driver(f"freezes {scene} {seed}")
    driver.manager = began(driver, 1, 0, MANAGER).new_node()
    for _ in range(driver.random.randint(3, 5)):
        began(driver, driver.random.randint(1, 3), driver.random.randint(1, 2), SCENES[scene])

    def freeze_or_thaw() -> None:
        one = driver.random.choice(driver.processes)
        driver.freeze(one, not one.frozen)
    driver.play(FRAMES, freeze_or_thaw, share=3)
    draw = random.Random(f"{scene} {way} {seed}")
    first = draw.randint(50, len(driver.frames) // 2) if way == "cut" else 0
    lost = draw.sample(range(1, len(driver.frames)), 12) if way == "lost" else ()
    return capture_of(driver.frames, frozenset(lost), first)


# ---- the second reading


class Request:
    """A request for freeze notifications. It `goes` with the last reference of its handle, unless it was cleared, or
    the process had none by its records: then it has one from before. `gone`: it went so."""

    def __init__(self, handle: int, goes: bool):
        self.handle, self.goes, self.gone = handle, goes, False


class Watches:
    """What the driver has of one process, as its records tell: its references, and what it waits for."""

    def __init__(self) -> None:
        self.references: Counter = Counter()
        self.kept: list[Event] = []
        self.over: set[int] = set()
        self.latest: dict[int, Request] = {}
        self.told: dict[int, list[tuple[int, Request | None]]] = {}
        self.cleared: dict[int, list[int]] = {}
        self.done: dict[int, int] = {}
        self.found: list[tuple[int, str]] = []

    def take(self, event: Event) -> None:
        kind = NEWER.get(event.code, event.kind)
        if event.kind in DELIVERIES:
            self.kept.append(event)
            self.over.difference_update(objects_in(event))
        elif kind in ("BC_ACQUIRE", "BC_INCREFS"):
            self.references[kind, handle_of(event)] += 1
            self.over.discard(handle_of(event))
        elif kind in ("BC_RELEASE", "BC_DECREFS"):
            took = ("BC_ACQUIRE" if kind == "BC_RELEASE" else "BC_INCREFS"), handle_of(event)
            self.references[took] = max(0, self.references[took] - 1)
            self.drop(handle_of(event))
        elif kind == "BC_FREE_BUFFER":
            freed = [it for it in self.kept if address_of(it) == address_of(event)]
            self.kept = [it for it in self.kept if address_of(it) != address_of(event)]
            for handle in {handle for it in freed for handle in objects_in(it)}:
                self.drop(handle)
        elif kind in NEWER.values():
            self.watch(kind, event)

    def watch(self, kind: str, event: Event) -> None:
        """Takes a record of freeze notifications."""
        if kind == "BC_REQUEST_FREEZE_NOTIFICATION":
            handle = handle_of(event)
            self.latest[cookie_behind_handle(event)] = Request(handle, handle not in self.over)
        elif kind == "BC_CLEAR_FREEZE_NOTIFICATION":
            cookie = cookie_behind_handle(event)
            self.cleared.setdefault(cookie, []).append(event.place)
            self.latest.pop(cookie, None)
            for _, request in self.told.get(cookie, ()):
                if request is not None:
                    request.goes = False
        elif kind == "BR_FROZEN_BINDER":
            request = self.latest.get(cookie_of(event))
            if request is not None and request.gone:
                self.found.append((event.place, "unacknowledged"))
            else:
                self.told.setdefault(cookie_of(event), []).append((event.place, request))
        else:
            if kind == "BC_FREEZE_NOTIFICATION_DONE":
                self.done[cookie_of(event)] = event.place
            waiting = (self.told if kind.startswith("BC") else self.cleared).get(cookie_of(event))
            if waiting:
                waiting.pop(0)
            else:
                self.found.append((event.place, "stray"))

    def drop(self, handle: int) -> None:
        """If nothing of a handle is left, its number is free, and the driver drops what it told by it since the latest
        acknowledgement."""
        if handle == 0 or handle in self.over or any(handle in objects_in(it) for it in self.kept) or any(
                self.references[kind, handle] for kind in ("BC_ACQUIRE", "BC_INCREFS")):
            return
        self.over.add(handle)
        requests = [it for waiting in self.told.values() for _, it in waiting if it is not None]
        for request in requests + list(self.latest.values()):
            request.gone |= request.goes and request.handle == handle
        for cookie, waiting in self.told.items():
            dropped = [(place, it) for place, it in waiting
                       if it is not None and it.gone and place > self.done.get(cookie, -1)]
            self.found += [(place, "unacknowledged") for place, _ in dropped]
            self.told[cookie] = [both for both in waiting if both not in dropped]

    def end(self) -> list[tuple[int, str]]:
        return (self.found + [(place, "unacknowledged") for waiting in self.told.values() for place, _ in waiting]
                + [(place, "unconfirmed") for waiting in self.cleared.values() for place in waiting])


def objects_in(event: Event) -> list[int]:
    """The handles of the objects that a delivery has."""
    if event.entry is None:
        return []
    return [number(event.entry.body, offset + 8, 4) for name, offset in objects_of(event.entry)[0]
            if name in ("handle", "weak_handle")]


def read_again(capture: bytes) -> list[tuple[int, str]]:
    """What the second reading finds: places, and what is there."""
    _, events = read_parts([capture])
    found = []
    for own in grouped(events, lambda event: event.process).values():
        watches = Watches()
        for event in own:
            watches.take(event)
        found += watches.end()
    return sorted(found)


# ---- what the page finds


def database_of(room: pathlib.Path, capture: bytes) -> sqlite3.Connection:
    room.mkdir()
    file, rows, report, made = (room / name for name in ("capture.cap", "rows", "report", "made.db"))
    file.write_bytes(capture)
    rows.mkdir()
    subprocess.run([TABLES, "--tables", rows, file], check=True, stdout=subprocess.DEVNULL)
    report.write_text("".join(f"{line}\n" for line in reading(capture)[1]), "utf-8")
    raw_tables.load_rows(made, rows, None)
    database = open_database(made)
    loading.fill(database, [str(file)], None, report, None)
    judging.judge(database)
    return database


def judged(room: pathlib.Path, scene: str, way: str, seed: int) -> tuple[Counter, list[str]]:
    """How many of each there are, and what is wrong."""
    truth = played(scene, way, seed)
    database = database_of(room / f"{scene}-{way}-{seed}", truth.capture)
    found = database.execute("SELECT place, what FROM finding WHERE section GLOB 'freeze*' ORDER BY 1, 2").fetchall()
    due, faults = read_again(truth.capture), []
    if found != due:
        faults.append(f"found {sorted({*found} - {*due})[:3]}, and not {sorted({*due} - {*found})[:3]}")
    if way == "whole":
        told = [place for place, what in found if what == "unacknowledged"]
        if told != sorted(truth.ignored):
            faults.append(f"the driver waits for {sorted({*truth.ignored} - {*told})[:3]}, and not for"
                          f" {sorted({*told} - {*truth.ignored})[:3]}")
        faults += [f"{place} is stray" for place, what in found if what == "stray"]
    unjudged, = database.execute("SELECT count(*) FROM finding WHERE rule IS NULL").fetchone()
    database.close()
    return Counter(what for _, what in found), faults + [f"{unjudged} without a rule"] * (unjudged > 0)


def judge(given: argparse.Namespace, room: pathlib.Path, fail: Fail) -> None:
    build_programs(ROOT)
    raw_tables.loader()
    of = list(product(SCENES, WAYS, range(given.sessions or SESSIONS)))
    counts: Counter = Counter()
    with ProcessPoolExecutor(os.cpu_count()) as pool:
        for which, (found, faults) in zip(of, pool.map(judged, repeat(room), *zip(*of))):
            counts += found
            for what in faults:
                fail(f"{' '.join(map(str, which))}: {what}")
    if given.sessions:
        print(*(f"{what} {count}" for what, count in sorted(counts.items())))
    for what in ("unacknowledged", "unconfirmed", "stray"):
        if not counts[what]:
            fail(f"no session has anything {what}")


if __name__ == "__main__":
    check(judge, sessions={"type": int, "default": 0})
