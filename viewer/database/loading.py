"""From a capture to its database: the programs that read it, the side list, and the rows of the proved report."""

import contextlib
import os
import pathlib
import select
import sqlite3
from typing import TYPE_CHECKING, Callable, NamedTuple

from viewer.database import data_hash, packages
from viewer.database.programs import Asked, answer, build_programs, fault_in
from viewer.database.raw_tables import (
    MADE_FILE, RULED_FILE, SCHEMA_FILE, Loading, can_pack, load_as_it_comes, load_rows)
from viewer.database.report import load_findings, load_report, read_meanwhile
from viewer.database.sqlite import open_database
from viewer.files import Stopped, linked, shown_name, unchanged
from viewer.methods.known import Methods, load_methods, named_in
from viewer.program_names import called
from viewer.rules.judging import OfData, begin, judge
from viewer.scratch import remove
from viewer.started import Started
from viewer.zeros import Ended, without_zeros

if TYPE_CHECKING:
    from viewer.arguments.sources import Declarations
    from viewer.database.finders import Finders
    from viewer.database.side_list import SideList
    from viewer.timing import Timing

# The least bytes of a capture of which tables are packed: of fewer, the files of these take longer than they save. A
# database of fewer has the tables of the rules from the first, unless it is kept.
LEAST_PACKED = 2**20

# Takes the raw tables that are in a folder, and the times of frames in a side list.
Load = Callable[[pathlib.Path, str | None], None]

# The programs read a capture side by side if there is so much memory: so many times the capture, and so much besides.
TIMES, BESIDE = 4, 2**28


def load_facts(database: sqlite3.Connection, files: list[str], malformed: str | None,
               facts: dict[str, object]) -> None:
    """The table `capture`."""
    names = ("parts", "bytes", "frames", "records", "first_seq", "last_seq", "missing")
    row = database.execute(f"SELECT {', '.join(names)} FROM raw_capture").fetchone()
    known: dict[str, object] = {"file": shown_name(files), "side_list": 0, "side_doubt": None, "books_doubt": None,
                                "packages_doubt": None, "zeros_doubt": None, **dict(zip(names, row)),
                                "malformed": malformed, **facts}
    known["first_ts"], known["last_ts"] = database.execute(
        "SELECT (SELECT ts FROM side_time WHERE seq = ?), (SELECT ts FROM side_time WHERE seq = ?)",
        (row[4], row[5])).fetchone()
    database.executemany("INSERT INTO capture VALUES (?, ?)", known.items())


def fill(database: sqlite3.Connection, files: list[str], side: str | None, report: pathlib.Path,
         malformed: str | None, methods: Methods | None = None, beside: list[str] | None = None,
         others: pathlib.Path | None = None, finders: "Finders | None" = None, is_packed: bool = False,
         sources: "Declarations | None" = None) -> "SideList | None":
    """Adds the side list, the report and its findings to the raw tables. The driver's books are beside the side lists
    `beside`, or else beside the side list, of which `others` has the lines that are not loaded yet. If there are
    `finders`, `doubt_side_list` tells later whether the side list is that of the capture. The methods are those of
    tables, and then those of `sources`."""
    database.execute("BEGIN")
    if not is_packed:
        data_hash.take_all(database, files)
    taken = None
    if side is not None:
        from viewer.database.side_list import SideList
        taken = SideList(database)
        taken.load(side, others)
        if finders:
            taken.begin_to_compare(finders)
        else:
            taken.facts["side_doubt"] = taken.doubt(None)
        if taken.copies:
            from viewer.database import load_books
            taken.facts["books_doubt"] = load_books.load(database, taken.copies, beside or [side], taken.met)
        taken.facts["packages_doubt"] = packages.load(database, beside or [side])
    load_report(database, report)
    load_facts(database, files, malformed, taken.facts if taken else {})
    load_findings(database)
    given = {**(sources.names(named_in(database)) if sources else {}), **(methods or {})}
    load_methods(database, given)
    database.execute("INSERT INTO capture VALUES ('methods', ?)", (len(given),))
    database.execute("COMMIT")
    return taken


def doubt_side_list(database: sqlite3.Connection, taken: "SideList", finders: "Finders") -> None:
    """Refuses a side list of another capture, and keeps the doubt if it may be of another."""
    database.execute("UPDATE capture SET value = ? WHERE key = 'side_doubt'", (taken.doubt(finders),))


def compare_with_books(database: sqlite3.Connection) -> None:
    """Says where the report and the driver's books differ, if there are any."""
    if database.execute("SELECT 1 FROM book").fetchone():
        from viewer.rules import agreement
        agreement.compare(database)


def bytes_of(files: list[str]) -> int:
    return sum(os.stat(name).st_size for name in files)


def memory_for(files: list[str]) -> bool:
    """Whether there is memory for the two programs that read a capture side by side: each takes a little more than the
    capture has bytes, and of a hostile one more."""
    with open("/proc/meminfo", encoding="utf-8") as lines:
        free = next((1024 * int(line.split()[1]) for line in lines if line.startswith("MemAvailable:")), 0)
    return free > BESIDE + TIMES * bytes_of(files)


def wait_for_one(*programs: Started) -> None:
    """Waits until one of the programs has ended."""
    with contextlib.ExitStack() as opened:
        ends = [os.pidfd_open(program.pid) for program in programs]
        for end in ends:
            opened.callback(os.close, end)
        select.select(ends, [], [])


def load_while_read(loading: Loading, listing: Asked) -> int:
    """Loads the tables while the listing writes them. The status of the listing, 0 or 2."""
    wait_for_one(loading.program, listing.program)
    if loading.program.look():  # what else can the listing do then than fail?
        loading.end()
    status = listing.status()
    loading.end()
    return status


def tables_of(root: pathlib.Path, parts: list[pathlib.Path], side: str | None, made: pathlib.Path, packs: bool,
              empty: str = MADE_FILE, meanwhile: Callable[[], None] = lambda: None, load: Load | None = None
              ) -> tuple[str | None, pathlib.Path | None]:
    """Makes the database, with the raw tables. Returns the line of the capture's first fault, or None, and the file of
    the lines of the side list that are left to load, if it is not the list itself. If tables are packed, `meanwhile` is
    done while the listing is at work; if not, `load` may take the raw tables."""
    rows, told = made.with_suffix(".rows"), made.with_suffix(".told")
    words = "--tables", rows, *parts
    if not packs:
        status = answer(root, told, "listing", *words)
        if load:
            load(rows, side)
        else:
            load_rows(made, rows, side, empty)
        return fault_in(status, told), None
    others = made.with_suffix(".others") if side is not None else None
    with load_as_it_comes(made, rows, side, others) as loading, Asked(root, told, "listing", *words) as listing:
        meanwhile()
        return fault_in(load_while_read(loading, listing), told), others


def read_when_there(audit: Asked, report: pathlib.Path) -> None:
    """Reads the report once it is there, if the capture has no fault."""
    if audit.program.wait() == 0:
        read_meanwhile(report)


def fault_with_zeros(root: pathlib.Path, files: list[str], room: pathlib.Path) -> str | None:
    """The line of the first fault of the files as they are."""
    room.mkdir()
    told = room / "told"
    return fault_in(answer(root, told, "audit", "first-fault", *linked(files, room)), told)


def tell_zeros(database: sqlite3.Connection, files: list[str], malformed: str | None, ends: dict[str, Ended]) -> None:
    """Keeps which files end in zeros, but for the one of which the first fault says that already."""
    told = None
    if malformed:
        from viewer.malformed import fault_of
        told = fault_of(malformed, files).file
    doubt = "; ".join(f"{os.path.basename(name)} {end.meaning}" for name, end in ends.items() if name != told)
    database.execute("UPDATE capture SET value = ? WHERE key = 'zeros_doubt'", (doubt or None,))


class Read(NamedTuple):
    """What the programs have read of a capture: the line of its first fault, and the file of the report, which is up to
    that; how its files end that end in zeros; the file from which the database was begun, whether its tables are
    packed, and the file of the lines of the side list that are left to load."""
    malformed: str | None
    report: pathlib.Path
    ends: dict[str, Ended]
    empty: str
    is_packed: bool
    others: pathlib.Path | None

    @property
    def is_ruled(self) -> bool:
        return self.empty == RULED_FILE


def empty_for(files: list[str], kept: bool) -> str:
    """The file from which the database of a capture is begun."""
    return SCHEMA_FILE if kept else RULED_FILE if bytes_of(files) < LEAST_PACKED else MADE_FILE


def read(root: pathlib.Path, files: list[str], side: str | None, made: pathlib.Path, empty: str,
         load: Load | None = None) -> Read:
    """Has the programs, which are built, read a capture into a new database with the raw tables; or has `load` take
    these, of a capture whose tables are not packed."""
    with unchanged(files):
        rows, report = made.with_suffix(".rows"), made.with_suffix(".report")
        rows.mkdir()
        parts = linked(files, rows)
        ends = without_zeros(files, parts)
        with Asked(root, report, "audit", "report", *parts) as audit:
            if not memory_for(files):
                audit.status()
            packs = empty == MADE_FILE and can_pack()
            listed, others = tables_of(root, parts, side, made, packs, empty, lambda: read_when_there(audit, report),
                                       load)
            malformed = fault_in(audit.status(), report)
        if listed != malformed:
            raise Stopped(1, f"{called('listing')} and {called('audit')} do not agree: {listed!r} and {malformed!r}")
    if malformed:
        answer(root, report, "audit", "report", rows / "before-fault.cap")
    if ends:
        malformed = fault_with_zeros(root, files, rows / "whole")
    remove(rows)
    return Read(malformed, report, ends, empty, packs, others)


def judged(database: sqlite3.Connection, files: list[str], side: str | None, has: Read, tell: Callable[[str], None],
           methods: Methods | None = None, beside: list[str] | None = None, timing: "Timing | None" = None,
           sources: "Declarations | None" = None, is_reused: bool = False) -> None:
    """Adds all else to the raw tables of a capture that was read: the side list, the report, and the verdicts."""
    tell("taking the side list and the report")
    finders = None
    if not has.is_ruled:
        from viewer.database.finders import finders_of
        finders = finders_of(database)
    with finders or contextlib.nullcontext():
        if finders:
            begin(database, finders)
        taken = fill(database, files, side, has.report, has.malformed, methods, beside, has.others, finders,
                     has.is_packed, sources)
        tell_zeros(database, files, has.malformed, has.ends)
        has.report.unlink()
        tell("applying the rules")
        with data_hash.Data(files) as data:
            judge(database, timing=timing, finders=finders, of_data=OfData(data.hash_of, data.exception_of),
                  is_ruled=has.is_ruled, is_reused=is_reused)
        if finders and taken:
            doubt_side_list(database, taken, finders)
    compare_with_books(database)


def database_of(root: pathlib.Path, files: list[str], side: str | None, made: pathlib.Path,
                tell: Callable[[str], None], methods: Methods | None = None,
                beside: list[str] | None = None, kept: bool = True, timing: "Timing | None" = None,
                sources: "Declarations | None" = None) -> tuple[sqlite3.Connection, str | None]:
    """Makes the database of a capture, with the report and the verdicts of the rules, and the names of methods. Returns
    it, and the line of the capture's first fault, or None. If it is not kept, a part of it stays in files beside it."""
    with unchanged(files):  # which says first that one is missing
        build_programs(root)
    tell("reading the capture")
    has = read(root, files, side, made, empty_for(files, kept))
    database = open_database(made)
    judged(database, files, side, has, tell, methods, beside, timing, sources)
    if not has.is_ruled:  # which has no temporary tables, and SQLite has read its schema
        database.close()
        database = open_database(made)
    return database, has.malformed
