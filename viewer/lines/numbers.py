"""The names of numbers as a header in C, of which the printer is built: those of numbers.sql, and those of faults."""

import sqlite3
from contextlib import closing
from typing import Iterator

from viewer.database.raw_tables import FOLDER
from viewer.malformed import MEANINGS

# Of the names that C has as constants, those that it has otherwise.
OTHERWISE = {"HANDLE": "OF_HANDLE", "PTR": "OF_PTR"}
# A record without a name.
OPAQUE = "OPAQUE"


def rows_in(table: str) -> list[tuple[int, str]]:
    with closing(sqlite3.connect(":memory:")) as database:
        database.executescript((FOLDER / "numbers.sql").read_text("utf-8"))
        return database.execute(f"SELECT number, name FROM {table} ORDER BY number").fetchall()


def constants(table: str) -> Iterator[str]:
    yield "enum {"
    yield from (f"\t{OTHERWISE.get(name, name)} = {number}," for number, name in rows_in(table) if name != OPAQUE)
    yield "};"


def names(table: str) -> Iterator[str]:
    yield f"static const struct number_name {table}_names[] = {{"
    yield from (f'\t{{ {number}, "{name}" }},' for number, name in rows_in(table))
    yield "};"


def lines() -> Iterator[str]:
    """The lines of the header."""
    yield "/* Made by viewer/lines/numbers.py. */"
    yield "struct number_name { uint64_t number; const char *name; };"
    yield from constants("kind")
    yield "static const char *const kind_names[] = {"
    yield from (f'\t[{number}] = "{name}",' for number, name in rows_in("kind"))
    yield "};"
    yield from constants("sort")
    for table in ("sort", "cause", "flag"):
        yield from names(table)
    yield "static const char *const fault_names[] = {"
    yield from (f'\t"{name}",' for name in MEANINGS)
    yield "};"
