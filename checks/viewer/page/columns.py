"""The tables in docs/DATABASE.md, which database_page.py makes, are those of a database: names, order, types and keys
of columns."""

import pathlib
import sqlite3

from checks.kit.checking import Fail, compare
from checks.viewer.table_catalogue import Column, catalogue


def wrong_types(database: sqlite3.Connection, name: str, columns: list[Column]) -> list[str]:
    """The columns whose values have another type than the page says."""
    wrong = []
    for column in columns:
        of = column.type if column.type in ("text", "real") else "integer"
        held = {found for found, in database.execute(f'SELECT DISTINCT typeof("{column.name}") FROM {name}')}
        if column.type != "any" and held - {of, "null"}:
            wrong.append(f"{column.name} has {', '.join(sorted(held))}")
    return wrong


def is_key(database: sqlite3.Connection, name: str, key: list[str]) -> bool:
    """Whether no two rows have the same key."""
    columns = ", ".join(f'"{column}"' for column in key)
    return database.execute(f"SELECT 1 FROM {name} GROUP BY {columns} HAVING count(*) > 1 LIMIT 1").fetchone() is None


def check_columns(made: pathlib.Path, fail: Fail) -> None:
    """Compares the page with a database."""
    database, told = sqlite3.connect(made), catalogue()
    columns = {name: told.columns(name) for name in told.said}
    there = {name: [column[0] for column in database.execute(f"SELECT * FROM {name} LIMIT 0").description]
             for name in columns}
    compare("the columns of docs/DATABASE.md",
            {name: [column.name for column in of] for name, of in columns.items()}, there, fail)
    for name, of in columns.items():
        key = [column.name for column in of if column.is_key]
        compare(f"types in docs/DATABASE.md, {name}", wrong_types(database, name, of), [], fail)
        compare(f"key in docs/DATABASE.md, {name}", not key or is_key(database, name, key), True, fail)
