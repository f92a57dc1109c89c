"""A database that is judged again and again, with other rows each time. Its tables stay, so that SQLite compiles each
statement once: for small rows that is nearly all that judging takes. A view of raw tables alone is a table here, with
the same rows: to put another view in its place, SQLite would compile all again."""

import functools
import pickle
import re
import sqlite3
import zlib
from typing import Callable

from viewer.rules.sql import tokens_of
from viewer.rules import judging

# The rows of a database, by table, in little room: a process that has much is slow to copy.
Rows = bytes


def connected(base: bytes) -> sqlite3.Connection:
    database = sqlite3.connect(":memory:", isolation_level=None, cached_statements=50_000)
    database.deserialize(base)
    database.execute("PRAGMA temp_store=MEMORY")
    return database


def tables(database: sqlite3.Connection, schema: str) -> list[str]:
    return [f"{schema}.{name}" for name, in database.execute(
        f"SELECT name FROM {schema}.sqlite_schema WHERE type = 'table' AND name NOT GLOB 'sqlite_*'")]


def rows_of(base: bytes) -> Rows:
    """The rows of a database."""
    database = connected(base)
    every = {name: database.execute(f"SELECT * FROM {name}").fetchall() for name in tables(database, "main")}
    return zlib.compress(pickle.dumps({name: rows for name, rows in every.items() if rows}), 1)


@functools.cache
def changed_by(statement: str) -> str:
    """The table that a statement makes or changes, or of which it makes an index."""
    words = [token.text for token in tokens_of(statement) if token.kind in ("word", "sign")]
    at = next(at for at, word in enumerate(words) if word.upper() in ("TABLE", "VIEW", "INTO", "UPDATE", "FROM", "ON"))
    return words[at + 1]


@functools.cache
def is_of_raw_tables(view: str) -> bool:
    """Whether a view takes rows of raw tables and of the side list alone: these are there before the first rule."""
    asked = set(re.findall(r"\b(?:FROM|JOIN)\s+(\w+)", view)) - set(re.findall(r"(\w+) AS MATERIALIZED \(", view))
    return bool(asked) and all(name.startswith(("raw_", "side_")) for name in asked)


@functools.cache
def query_of(statement: str) -> int | None:
    """Where the query begins of which a statement makes a table; None if it makes none."""
    first, *tokens = tokens_of(statement)
    makes = {token.text for token in tokens[:2]} & {"TABLE", "VIEW"} if first.says("CREATE") else set()
    if not makes or makes == {"VIEW"} and not is_of_raw_tables(statement):
        return None
    return next((other.start for one, other in zip(tokens, tokens[1:])
                 if one.says("AS") and other.says("SELECT", "WITH")), None)


def making(statement: str) -> str:
    """A statement of the rules for a new database."""
    return statement if query_of(statement) is None else statement.replace("CREATE TEMP VIEW", "CREATE TEMP TABLE", 1)


@functools.cache
def filling(statement: str) -> str:
    """A statement of the rules for tables that are there: what makes one only fills it."""
    query = query_of(statement)
    if query is not None:
        return f"INSERT INTO {changed_by(statement)} {statement[query:]}"
    return "SELECT 1" if next(tokens_of(statement)).says("CREATE") else statement


class Judged:
    """The database. `judge` gives it statements and functions, as it gives them to a new one."""

    def __init__(self, base: bytes) -> None:
        self.functions: dict[str, Callable] = {}
        self.database = connected(base)
        self.statements: dict[str, None] = {}
        self.first: list[str] = []
        self.is_made = False
        judging.judge(self)  # type: ignore[arg-type]
        for statement in self.first:
            self.database.execute(statement)
        self.is_made = True
        self.tables = tables(self.database, "main") + tables(self.database, "temp")

    def __getattr__(self, name: str) -> object:
        return getattr(self.database, name)

    def create_function(self, name: str, arguments: int, function: Callable, **how: bool) -> None:
        """Another function of this name takes its place without a word to SQLite."""
        if name not in self.functions:
            self.database.create_function(name, arguments, lambda *given: self.functions[name](*given), **how)
        self.functions[name] = function

    def execute(self, statement: str, *values: object) -> sqlite3.Cursor:
        if values and not self.is_made:
            self.statements[statement] = None
        elif not values and not self.is_made and not self.statements and not statement.startswith("BEGIN"):
            self.first.append(statement)
        if not self.is_made:
            return self.database.execute(making(statement) if values else statement, *values)
        if values:
            return self.again(statement, values)
        is_made = statement.startswith(("CREATE", "DROP", "ANALYZE")) or "sqlite_stat1" in statement
        return self.database.execute("SELECT 1" if is_made else statement)

    def again(self, statement: str, values: tuple) -> sqlite3.Cursor:
        """Runs a statement of the rules on the tables that are there."""
        return self.database.execute(filling(statement), *values)

    def judge(self, rows: Rows) -> None:
        """Takes other rows, and judges them."""
        self.database.execute("BEGIN")
        for table in self.tables:
            self.database.execute(f"DELETE FROM {table}")
        for table, of in pickle.loads(zlib.decompress(rows)).items():
            self.database.executemany(f"INSERT INTO {table} VALUES ({', '.join('?' * len(of[0]))})", of)
        self.database.execute("COMMIT")
        judging.judge(self)  # type: ignore[arg-type]
