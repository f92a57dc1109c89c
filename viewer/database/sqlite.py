"""Databases of SQLite, and the files of statements that fill them."""

import contextlib
import functools
import pathlib
import sqlite3
from typing import Iterator

from viewer.files import Stopped

# Numbers that have a name in statements and are in no table: the direction of a write, the code to which an object
# answers with its interface, and the first number that can't be of a process or a thread of Linux: `./record` gives
# such numbers where the system's is taken. Views have them as they are here, and not each program that reads a database
# of SQLite knows hexadecimal ones.
UNLISTED = {"WRITE": "1", "_NTF": str(0x5f4e5446), "NO_PID": "4194304"}


# Before the records of a frame come so many bytes (docs/ENVELOPE.md).
FRAME_HEADER = 32


@contextlib.contextmanager
def errors_in(path: pathlib.Path) -> Iterator[None]:
    """In this block a database is used: an error of SQLite, which names no file, gets the name of the database."""
    try:
        yield
    except sqlite3.Error as error:
        raise Stopped(4, f"{path}: {error}") from error


def statements_in(text: str) -> list[str]:
    """The SQL statements of a text, one after another. Each ends at the end of a line."""
    found, statement = [], ""
    for line in text.splitlines(keepends=True):
        statement += line
        if line.rstrip().endswith(";") and sqlite3.complete_statement(statement):
            found.append(statement)
            statement = ""
    return found


@functools.cache
def statements_of(path: pathlib.Path) -> list[str]:
    return statements_in(path.read_text("utf-8"))


def named_numbers(database: sqlite3.Connection) -> dict[str, int]:
    """The numbers that statements use by name: kinds of records, sorts of objects, flags, and some more."""
    named = database.execute("SELECT name, number FROM kind WHERE name <> 'OPAQUE'"
                             " UNION ALL SELECT name, number FROM sort UNION ALL SELECT name, number FROM flag")
    return {**dict(named), **{name: int(number) for name, number in UNLISTED.items()}}


def open_database(path: pathlib.Path) -> sqlite3.Connection:
    """The database, without a journal: it has no other user, and is made again if it is not whole."""
    database = sqlite3.connect(path, isolation_level=None, cached_statements=1000)
    for setting in ("journal_mode=OFF", "synchronous=OFF", "locking_mode=EXCLUSIVE", "cache_size=-131072",
                    "temp_store=MEMORY"):
        database.execute(f"PRAGMA {setting}")
    return database


def open_beside(path: str) -> sqlite3.Connection:
    """The database for one more process, which reads what nobody changes meanwhile: it is locked. Sorting goes to the
    disk."""
    database = sqlite3.connect(f"{pathlib.Path(path).as_uri()}?immutable=1", uri=True, isolation_level=None)
    for setting in ("cache_size=-16384", "temp_store=FILE"):
        database.execute(f"PRAGMA {setting}")
    return database


def path_of(database: sqlite3.Connection) -> str:
    """The file of a database; nothing if it is in memory."""
    return next(path for _, name, path in database.execute("PRAGMA database_list") if name == "main")


def insert(database: sqlite3.Connection, table: str, rows: list[tuple]) -> None:
    if rows:
        database.executemany(f"INSERT INTO {table} VALUES ({', '.join('?' * len(rows[0]))})", rows)
