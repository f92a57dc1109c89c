"""Checks that the rules find the same, however their statements are run: by one process, which makes the tables or has
them from the first; and with other processes that find rows, beside tables that are packed.

    checks/run alike                plays a share of the stored captures, and what is made for the sums
    checks/run alike -- CASE..      plays these alone, as `leaks`
    checks/run alike -- --all       plays all

Each table of the database must have the same rows in the same order, but for the raw tables, which no rule changes. So
must each sum over packed tables, which are in C, and the view of its name. What is made for these are the sessions of
sum_cases.py, and one with more groups than have room at first.
"""

import argparse
import enum
import itertools
import os
import pathlib
import sqlite3
from concurrent.futures import ProcessPoolExecutor
from contextlib import closing
from typing import Iterator
from unittest import mock

from checks.kit.checking import FLAG, Fail, check
from checks.kit.programs import DRIVER, ROOT
from checks.kit.tokens import marked
from checks.viewer.sessions import every, sum_cases
from checks.viewer.sessions.session import Session
from viewer.database import finders, loading, raw_tables
from viewer.database.programs import build_programs
from viewer.database.sqlite import open_database
from viewer.rules import judging
from viewer.rules.plan import Statement, plan_of

CASES = {path.name: ([str(path / "capture-1.cap")], str(path / "capture.side"))
         for path in sorted(DRIVER.iterdir()) if path.is_dir()}
CASES |= {path.name: ([str(path)], None) for path in sorted(ROOT.glob("samples/*.cap"))}  # type: ignore[misc]

# Of these `.ci/run` takes each so many-th.
SHARE = 4

# There is room for so many groups of a sum at first, by sums.c.
FIRST_ROOM = 1024


def many_groups() -> Session:
    """Calls of many codes, which name an interface; and of the first ones again, when there are more groups than had
    room. None takes any time."""
    session = Session()
    service, client = session.two()
    session.wait = lambda _: None
    for code in (*range(FIRST_ROOM + 100), *range(20)):
        client.main.asks(service.main, code, body=marked("a.b.IOne"))
    return session


SESSIONS = {one.name: one.played for one in every.CASES if hasattr(sum_cases, one.name.partition(" ")[0])}
SESSIONS["many_groups"] = many_groups

# Of a database that is not kept these tables have only what the rules look up.
MADE_IN_PART = {"data_hash", "exception"}
Rows = dict[str, list[tuple]]


def rows_of(made: pathlib.Path) -> Rows:
    """The rows of the tables that a database has beside the raw ones."""
    with closing(open_database(made)) as database:
        names = [name for name, in database.execute(
            "SELECT name FROM sqlite_schema WHERE type = 'table' AND name NOT GLOB 'raw_*' AND name NOT GLOB 'sqlite_*'"
            " ORDER BY 1")]
        return {name: database.execute(f"SELECT * FROM {name}").fetchall() for name in names}


def files_of(folder: pathlib.Path, name: str) -> tuple[list[str], str | None]:
    """The files of a capture, and its side list. Those of a session are written into a folder."""
    if name in CASES:
        return CASES[name]
    session, capture, side = SESSIONS[name](), folder / "session.cap", folder / "session.side"
    capture.write_bytes(session.capture())
    side.write_text(session.side(), "utf-8")
    return [str(capture)], str(side) if session.has_side else None


def sums_of(name: str, made: pathlib.Path) -> Iterator[str]:
    """The sums over packed tables that do not have the rows of their views, in the same order. Frames whose sequences
    fall are not packed, and then the sums are views: but not in what is made for them."""
    plan = plan_of(judging.FOLDER)
    with closing(open_database(made)) as database:
        for view, table in zip(plan.statements, judging.with_sums(database, plan).statements):
            if view.file == judging.SUMS and (view.text == table.text and name in SESSIONS
                                              or rows_by(database, view) != rows_by(database, table)):
                yield view.name


def rows_by(database: sqlite3.Connection, statement: Statement) -> list[str]:
    """The rows of the view, or of the table, that a statement makes."""
    database.execute(statement.text)
    rows = database.execute(f"SELECT * FROM {statement.name}").fetchall()
    kind, = database.execute("SELECT type FROM temp.sqlite_schema WHERE name = ?", (statement.name,)).fetchone()
    database.execute(f"DROP {kind} temp.{statement.name}")
    return list(map(repr, rows))


class Way(enum.Enum):
    """How rules are run: in a database that is kept, in one that has their tables, or with other processes."""
    KEPT, RULED, BESIDE = range(3)


def judged(room: pathlib.Path, name: str, way: Way) -> tuple[Rows, list[str]]:
    """The rows that come of a capture; and the sums that are wrong, where they are packed."""
    folder = room / f"{name}-{way.name}"
    folder.mkdir()
    files, side = files_of(folder, name)
    made = folder / "capture.db"
    least = mock.patch.object(finders, "LEAST_RECORDS", 0 if way is Way.BESIDE else 2**63)
    with least, mock.patch.object(loading, "LEAST_PACKED", 2**63 if way is Way.RULED else 0):
        loading.database_of(ROOT, files, side, made, lambda _: None, kept=way is Way.KEPT)[0].close()
    return rows_of(made), list(sums_of(name, made)) if way is Way.BESIDE else []


def compared(room: pathlib.Path, name: str) -> list[str]:
    """What differs of a capture. A database that has the tables of the rules has also those that else are temporary."""
    (due, _), (ruled, _), (came, sums) = (judged(room, name, way) for way in Way)
    wrong = [f"{name}: {table} has other rows" for table in sorted(due.keys() | came.keys())
             if came.get(table) != due.get(table) and table not in MADE_IN_PART]
    wrong += [f"{name}: {table} has other rows if it is there from the first" for table in sorted(due)
              if ruled.get(table) != due[table]]
    return wrong + [f"{name}: {sum} has other rows than the view" for sum in sums]


def filled_before(room: pathlib.Path) -> Iterator[str]:
    """The tables of the rules that are not empty where they are there from the first."""
    raw_tables.write_ruled(room / "ruled.db")
    with closing(open_database(room / "ruled.db")) as database:
        for it in plan_of(judging.FOLDER).statements:
            if it.makes == "TABLE" and database.execute(f"SELECT 1 FROM {it.name}").fetchone():
                yield it.name


def names(given: argparse.Namespace) -> Iterator[str]:
    if given.named:
        yield from given.cases
    else:
        yield from itertools.islice(CASES, 0, None, 1 if given.all else SHARE)
        yield from SESSIONS


def judge(given: argparse.Namespace, room: pathlib.Path, fail: Fail) -> None:
    build_programs(ROOT)
    raw_tables.loader()
    for table in filled_before(room):
        fail(f"{table} has rows before a capture is read")
    with ProcessPoolExecutor(os.cpu_count()) as pool:
        for wrong in pool.map(compared, itertools.repeat(room), names(given)):
            for what in wrong:
                fail(what)


if __name__ == "__main__":
    check(judge, lambda: [*CASES, *SESSIONS], all=FLAG)
