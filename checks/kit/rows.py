"""The rows of the raw tables, as docs/DATABASE.md describes their form."""

import functools
import pathlib
import sqlite3
import struct
from contextlib import closing
from typing import Iterable, Iterator, Sequence

from viewer.database import raw_tables


@functools.cache
def columns_of_tables() -> dict[str, dict[str, str]]:
    """The raw tables in schema.sql, without `raw_`: of each the columns, in order, each with its type."""
    with closing(sqlite3.connect(":memory:")) as database:
        database.executescript((raw_tables.FOLDER / "schema.sql").read_text("utf-8"))
        tables = database.execute(
            "SELECT name FROM sqlite_schema WHERE type = 'table' AND name GLOB 'raw_*'").fetchall()
        return {table.removeprefix("raw_"):
                dict(database.execute("SELECT name, type FROM pragma_table_info(?)", (table,))) for table, in tables}


def rows_of(path: pathlib.Path) -> Iterator[dict[str, int | str]]:
    """The rows of a file `TABLE.rows`: of each the columns that it has, by their names. A number has no sign."""
    columns, data, at = columns_of_tables()[path.stem], path.read_bytes(), 0
    while at < len(data):
        mask, = struct.unpack_from("<Q", data, at)
        at += 8
        row: dict[str, int | str] = {}
        for number, (name, sort) in enumerate(columns.items()):
            if mask >> number & 1:
                value, = struct.unpack_from("<Q", data, at)
                at += 8
                row[name] = value
                if sort == "TEXT":
                    row[name] = data[at:at + value].decode("ascii")
                    at += value
        yield row


# What a column has.
Value = int | str | bytes | None


def encoded_row(row: Sequence[Value], sort: int = 0) -> bytes:
    """A row, which has a value, or None, for each column. `sort` is what its mask has besides."""
    mask = sum(1 << number for number, value in enumerate(row) if value is not None)
    made = bytearray(struct.pack("<Q", sort + mask))
    for value in row:
        if isinstance(value, (str, bytes)):
            text = value.encode("ascii") if isinstance(value, str) else value
            made += struct.pack("<Q", len(text)) + text
        elif value is not None:
            made += struct.pack("<Q", value % 2**64)
    return bytes(made)


def encoded(rows: Iterable[Sequence[Value]]) -> bytes:
    """The file of a table with these rows."""
    return b"".join(map(encoded_row, rows))
