"""Results that a process makes one after another: each is that of the capture alone, whatever came before it; and what
a process leaves, or what ends it, is made alone."""

import json
import pathlib
import random
import shutil
import sqlite3
from contextlib import closing
from typing import Iterator
from unittest import mock

from checks.kit.checking import Fail, compare
from checks.kit.programs import AUDITOR, DRIVER, ROOT, built_programs
from checks.lab.names import write_script
from lab import crew, many
from lab.one import Inputs
from lab.worker import Maker

# Of these `.ci/run` takes the results; of the first ones also without a side list, and with other names and methods.
CHANGED, SOME = ("people", "leaks", "hello-11"), ("hello-stuck", "deaths", "freeze", "spaces", "two-drivers-rust")
# Small ones, some of which have a fault.
SMALL = ("empty", "short", "wrong-attachment", "two-devices", "references")

# The programs are asked for a capture in a way that ends the process that asks, or keeps it waiting; but once.
VICTIM, SOON = "deaths", 5
ENDS = {"it is killed": "kill -9 $PPID", "it takes too long": "sleep 600"}
ONCE = """#!/bin/sh
if cmp -s "$2" {victim} && rm {mark}; then {ends}; fi 2>/dev/null
exec {auditor} "$@"
"""

METHODS = "org.example.IHello\t1\tsayHello\tsource\norg.example.IHello\t6\twait\tsource\n"


# ---- captures


def write(path: pathlib.Path, data: bytes) -> str:
    path.write_bytes(data)
    return str(path)


def without_names(side: bytes) -> bytes:
    """A side list in which no process or thread gets a later name, which has others at first."""
    lines = [line for line in side.splitlines(True) if line.split(b" ", 2)[1:2] != [b"name"]]
    return b"".join(lines).replace(b" name=", b" name=n").replace(b" name=nbinder", b" name=binder")


def stored(names: tuple[str, ...], changed: tuple[str, ...], room: pathlib.Path) -> Iterator[tuple[str, Inputs]]:
    """Stored captures; and some without a side list, and with other names and methods."""
    table = write(room / "some.methods", METHODS.encode())
    for name in (*names, *changed):
        files, side = [str(DRIVER / name / "capture-1.cap")], DRIVER / name / "capture.side"
        yield name, Inputs(files, [str(side)], [])
        if name not in changed:
            continue
        yield f"{name}-alone", Inputs(files, [], [])
        other = write(room / f"{name}.side", without_names(side.read_bytes()))
        yield f"{name}-renamed", Inputs(files, [other], [table])


def hostile(room: pathlib.Path) -> Iterator[tuple[str, Inputs]]:
    """Captures that are cut, or none; and some whose side lists are wrong, or long, of which a process leaves all."""
    for name in SMALL:
        yield name, Inputs([str(ROOT / f"samples/{name}.cap")], [], [])
    yield "parts", Inputs([str(ROOT / f"samples/rotated-{part}.cap") for part in (1, 2)], [], [])
    capture, side = DRIVER / "leaks/capture-1.cap", DRIVER / "leaks/capture.side"
    yield "cut", Inputs([write(room / "cut.cap", capture.read_bytes()[:3001])], [str(side)], [])
    yield "zeros", Inputs([write(room / "zeros.cap", capture.read_bytes()[:3001] + bytes(4096))], [str(side)], [])
    for name, data in (("other", (DRIVER / "hung/capture.side").read_bytes()), ("none", b""),
                       ("wrong", side.read_bytes() + b"5 process 1\n"),
                       ("long", side.read_bytes() + b"99999999999999 pad\n" * 2**16)):
        yield f"left-{name}", Inputs([str(capture)], [write(room / f"{name}.side", data)], [])


def is_left(name: str) -> bool:
    return name.startswith("left-")


# ---- one process


def tables_of(database: sqlite3.Connection) -> dict[str, list]:
    """The rows of all tables, in order."""
    return {f"{of}.{name}": database.execute(f"SELECT * FROM {of}.{name}").fetchall() for of in ("main", "temp")
            for name, in database.execute(f"SELECT name FROM {of}.sqlite_schema WHERE type = 'table'").fetchall()}


def made_by(maker: Maker, inputs: Inputs) -> tuple[dict, dict[str, list]]:
    result, database = maker.result_of(inputs), maker.reusable.database
    assert database
    return result, tables_of(database)


def new_maker(room: pathlib.Path, name: str) -> Maker:
    (room / name).mkdir()
    return Maker(ROOT, room / name)


def check_one_process(captures: dict[str, Inputs], room: pathlib.Path, fail: Fail) -> None:
    """Whatever came before, a capture has the result and the tables that it has in a new process. No row of a temporary
    table is compared that a capture does not ask for."""
    alone = {}
    for name, inputs in captures.items():
        with closing(new_maker(room, f"alone {name}")) as maker:
            alone[name] = made_by(maker, inputs)
    with closing(new_maker(room, "one after another")) as maker:
        for name in [*captures, *reversed(captures), *random.Random(1).sample([*captures], len(captures))]:
            result, tables = made_by(maker, captures[name])
            compare(f"{name}, one after another: the result", result, alone[name][0], fail)
            for table, rows in alone[name][1].items():
                compare(f"{name}, one after another: {table}", tables[table], rows, fail)


# ---- processes


def put(lab: pathlib.Path, captures: dict[str, Inputs]) -> list[str]:
    """Makes a lab of captures, each in a build of its own. The sessions."""
    for name, inputs in captures.items():
        at = lab / name / "d"
        at.mkdir(parents=True)
        for number, file in enumerate(inputs.files, 1):
            shutil.copy(file, at / f"s-{number}.cap")
        for number, side in enumerate(inputs.sides, 1):
            shutil.copy(side, at / "s.side")
        for table in inputs.methods:
            shutil.copy(table, lab / name)
    return [f"{name}/d/s" for name in captures]


def results_in(lab: pathlib.Path) -> dict[str, dict]:
    """The results of a lab, without what differs each time."""
    found = {}
    for path in (lab / "results").glob("*/*/*.json"):
        found[path.parts[-3]] = made = json.loads(path.read_text("utf-8"))
        del made["capture"]["made"]
    shutil.rmtree(lab / "results")
    return found


class Played:
    """A lab whose results are made by some processes, and which of them were made alone."""

    def __init__(self, lab: pathlib.Path, programs: pathlib.Path) -> None:
        self.lab, self.by, self.log = lab, many.By(programs, "0" * 32), lab / "alone"

    def made_alone(self, by: many.By, lab: pathlib.Path, session: str) -> int:
        with open(self.log, "a", encoding="utf-8") as log:
            log.write(session.partition("/")[0] + "\n")
        return self.alone(by, lab, session)

    def make(self, sessions: list[str], at_once: int) -> tuple[dict[str, dict], list[str]]:
        self.log.write_text("", "utf-8")
        self.alone = many.made_alone
        with mock.patch.object(many, "made_alone", self.made_alone), mock.patch.object(many, "tell"):
            many.make_all(self.by, self.lab, sessions, at_once)
        return results_in(self.lab), sorted(self.log.read_text("utf-8").split())

    def make_each_alone(self, sessions: list[str]) -> dict[str, dict]:
        with mock.patch.object(many, "tell"):
            for session in sessions:
                many.made_alone(self.by, self.lab, session)
        return results_in(self.lab)


def differing(came: dict[str, dict], due: dict[str, dict]) -> list[str]:
    return sorted(name for name in {*came, *due} if came.get(name) != due.get(name))


def check_processes(folder: pathlib.Path, captures: dict[str, Inputs], room: pathlib.Path, fail: Fail) -> None:
    lab = room / "lab"
    sessions, played = put(lab, captures), Played(lab, folder)
    due, left = played.make_each_alone(sessions), sorted(filter(is_left, captures))
    compare("sessions that are made alone: results", sorted(due), sorted(captures), fail)
    for at_once in 1, 2, 4:
        random.Random(at_once).shuffle(sessions)
        came, alone = played.make(sessions, at_once)
        compare(f"by {at_once} processes: results that differ", differing(came, due), [], fail)
        compare(f"by {at_once} processes: made alone", alone, left, fail)
    with mock.patch.object(many, "MOST_MEMORY", 0):
        came, alone = played.make(sessions, 2)
    compare("by processes that take much memory", (differing(came, due), alone), ([], left), fail)
    check_ended(lab, sessions, due, room, fail)


def check_ended(lab: pathlib.Path, sessions: list[str], due: dict[str, dict], room: pathlib.Path, fail: Fail) -> None:
    """A process that ends, or is ended, takes no result with it."""
    mark = room / "mark"
    for ends, command in ENDS.items():
        auditor = room / f"{ends}.sh"
        write_script(auditor, ONCE.format(victim=lab / VICTIM / "d/s-1.cap", mark=mark, ends=command, auditor=AUDITOR))
        where, some = room / f"where {ends}", [it for it in sessions if not is_left(it)]
        where.mkdir()
        mark.touch()
        with mock.patch.object(crew, "SOON", SOON):
            came, alone = Played(lab, built_programs(where, auditor)).make(some, 2)
        compare(f"{ends}: results that differ", [it for it in differing(came, due) if not is_left(it)], [], fail)
        compare(f"{ends}: made alone", (VICTIM in alone, mark.exists()), (True, False), fail)


def check_one_after_another(folder: pathlib.Path, room: pathlib.Path, whole: bool, fail: Fail) -> None:
    """Of some stored captures, or of all."""
    room.mkdir()
    names = tuple(sorted({it.parent.name for it in DRIVER.glob("*/capture.side")} - {*CHANGED})) if whole else SOME
    captures = dict([*stored(names, CHANGED, room), *hostile(room)])
    check_one_process({name: it for name, it in captures.items() if not is_left(name)}, room, fail)
    check_processes(folder, captures, room, fail)
