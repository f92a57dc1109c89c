"""The rows of the proved report, with their fields as numbers, and the findings that they become."""

import contextlib
import itertools
import pathlib
import sqlite3
from typing import Callable, Iterable, Iterator

from viewer.database.raw_tables import MADE_FILE, empty_database
from viewer.database.sqlite import open_database
from viewer.units import signed

# The columns of the rows by section, as in docs/REPORT.md. There a low is only called `low`, and what a row is in its
# section has a name of its own (WHAT).
COLUMNS = {
    section: tuple(names.split()) for section, names in {
        "codes": "code_word name count",
        "calls": "place device process thread handle code what closer",
        "served": "place device process thread sender_pid code what closer",
        "strays": "place device process thread what",
        "refused": "place device process thread what",
        "handles": "device process handle strong strong_low weak weak_low held_strong held_weak",
        "nodes": "device process ptr cookie strong strong_low weak weak_low strong_due weak_due",
        "buffers": "place device process address data_size what",
        "frees": "place device process address",
        "requests": "place device process handle cookie",
        "deaths": "place device process cookie what",
        "clears": "place device process cookie what",
        "oneway": "device process what handle count sum",
        "objects": "place device process idx at what",
        "flags": "place device process what"}.items()}
WHAT = {"calls": "verdict", "served": "verdict", "strays": "kind", "refused": "kind", "buffers": "kind",
        "deaths": "which", "clears": "which", "oneway": "direction", "objects": "cause", "flags": "bits"}
CALLED = {"idx": "index", "at": "offset"}

TEXTS = ("name", "what")
HEXADECIMAL = ("address", "code_word", "cookie", "ptr")


def columns_of(section: str) -> str:
    """The columns of a section as docs/REPORT.md writes them."""
    return " ".join("low" if name.endswith("_low") else WHAT[section] if name == "what" else CALLED.get(name, name)
                    for name in COLUMNS[section])


def decimal(word: str) -> int | None:
    """A number of 64 bits as SQLite has it. A sum may be above that, and is then the greatest one."""
    value = None if word == "-" else int(word)
    return value if value is None or value < 2**63 else signed(value) if value < 2**64 else 2**63 - 1


def hexadecimal(word: str) -> int:
    return signed(int(word, 16))


def reading_of(name: str) -> Callable[[str], object]:
    """How a field is read."""
    if name in TEXTS:
        return str
    return hexadecimal if name in HEXADECIMAL else decimal


def fields_of(section: str, lines: Iterable[str]) -> Iterator[tuple]:
    """The fields of the rows of a section, each with its text first. A row of what a process received has no handle."""
    names = COLUMNS[section]
    readings = [reading_of(name) for name in names]
    without = names.index("handle") if section == "oneway" else None
    for line in lines:
        text = line.strip()
        words = text.split()
        if without is not None and len(words) < len(names):
            words.insert(without, "-")
        yield text, *(read(word) for read, word in zip(readings, words))


def read_already(path: pathlib.Path) -> pathlib.Path:
    """The database that has the report alone, if that was read while the database of the capture was made."""
    return path.with_suffix(".read")


def read_meanwhile(path: pathlib.Path) -> None:
    """Reads the report into such a database."""
    made = read_already(path)
    made.write_bytes(empty_database(MADE_FILE).read_bytes())
    with contextlib.closing(open_database(made)) as database:
        database.execute("BEGIN")
        read_report(database, path)
        database.execute("COMMIT")


def load_report(database: sqlite3.Connection, path: pathlib.Path) -> None:
    """The report, or what was read of it already: this is copied as it is."""
    made = read_already(path)
    if not made.exists():
        read_report(database, path)
        return
    database.execute("COMMIT")
    database.execute("ATTACH ? AS already", (str(made),))
    database.execute("INSERT INTO report SELECT * FROM already.report")
    database.execute("DETACH already")
    database.execute("BEGIN")
    made.unlink()


def read_report(database: sqlite3.Connection, path: pathlib.Path) -> None:
    """The report, section after section. Its heads are the rows of section `head`."""
    section = "head"
    with open(path, encoding="ascii") as lines:
        for are_rows, some in itertools.groupby(lines, lambda line: line.startswith("  ")):
            if not are_rows:
                heads = [line.strip() for line in some]
                section = heads[-1].split()[0]
                database.executemany("INSERT INTO report(section, text) VALUES ('head', ?)", ((it,) for it in heads))
                continue
            names = COLUMNS[section]
            database.executemany(f"INSERT INTO report(section, text, {', '.join(names)})"
                                 f" VALUES ('{section}', ?{', ?' * len(names)})", fields_of(section, some))


# The rows of the report that become findings: all but those of `codes` and `oneway`. The rules give verdicts later.
FINDINGS = """
INSERT INTO finding(report, section, what, place, upid, handle, code, ptr, cookie)
SELECT r.id, r.section,
  CASE r.section WHEN 'handles' THEN iif(r.strong OR r.weak, 'held', 'balanced')
    WHEN 'nodes' THEN iif(r.strong OR r.weak OR r.strong_due OR r.weak_due, 'held', 'balanced')
    ELSE coalesce(r.what, r.section) END,
  r.place, p.upid, r.handle, r.code, r.ptr, r.cookie
FROM report r CROSS JOIN raw_process p USING (device, process) WHERE r.section NOT IN ('codes', 'oneway')
ORDER BY r.id"""


def load_findings(database: sqlite3.Connection) -> None:
    """Puts the findings into the database."""
    database.execute(FINDINGS)
