"""A database that takes one capture after another. SQLite compiles each statement once: of a small capture that takes
longer than all else. So nothing may change the schema, in which the tables of the rules are from the first, nor give a
function once more."""

import os
import pathlib
import sqlite3
from typing import Any, Callable

from viewer.database.raw_tables import RULED_FILE, empty_database, loader, refuse_other_layout
from viewer.started import Started, Word, other

# There is room for more statements than all files have.
STATEMENTS = 2**12

Function = Callable[..., Any]


class Latest:
    """A function of SQL that does what was given last."""

    def __init__(self) -> None:
        self.does: Function | None = None

    def __call__(self, *values: Any) -> Any:
        if self.does is None:
            raise LookupError("it was of another capture")
        return self.does(*values)


class Reused(sqlite3.Connection):
    """The connection. It has no lock, so that SQLite looks each time whether the file is another one."""

    def __init__(self, path: pathlib.Path) -> None:
        super().__init__(path, isolation_level=None, cached_statements=STATEMENTS)
        self.functions: dict[tuple[str, int], Latest] = {}
        for setting in ("journal_mode=OFF", "synchronous=OFF", "cache_size=-131072", "temp_store=MEMORY"):
            self.execute(f"PRAGMA {setting}")

    def create_function(self, name: str, narg: int, func: Function | None, *, deterministic: bool = False) -> None:
        known = self.functions.get((name, narg))
        if known is None:
            known = self.functions[name, narg] = Latest()
            super().create_function(name, narg, known, deterministic=deterministic)
        known.does = func

    def version(self) -> int:
        """A number that changes when SQLite sees that the file was written by others, and forgets what it has of it."""
        return self.execute("PRAGMA data_version").fetchone()[0]

    def forget(self) -> None:
        for function in self.functions.values():
            function.does = None


class Loader:
    """A loader that loads one capture after another into a file, each in the place of the one before."""

    def __init__(self, path: pathlib.Path) -> None:
        asked, self.asks = map(other, os.pipe())
        self.answers, answered = map(other, os.pipe())
        try:
            words: list[Word] = [loader(), "--many", path, empty_database(RULED_FILE)]
            self.program = Started(words, {0: asked, 1: answered, 2: None})
        finally:
            os.close(asked)
            os.close(answered)

    def load(self, rows: pathlib.Path, side: str | None) -> None:
        refuse_other_layout(rows)
        os.write(self.asks, os.fsencode(f"{rows}\0{side or ''}\0"))
        if not os.read(self.answers, 1):
            raise sqlite3.OperationalError("it was not loaded")

    def close(self) -> None:
        os.close(self.asks)
        os.close(self.answers)
        self.program.end()


class Reusable:
    """The file of such a database, with the loader and the connection. If anything fails between `load` and `end`, it
    can't be used again: nobody knows what the capture has left."""

    def __init__(self, path: pathlib.Path) -> None:
        self.path = path
        self.loader: Loader | None = None
        self.database: Reused | None = None

    def load(self, rows: pathlib.Path, side: str | None) -> None:
        """Has the raw tables of another capture, and nothing of the one before."""
        self.loader = self.loader or Loader(self.path)
        before = self.database and self.database.version()
        self.loader.load(rows, side)
        self.database = self.database or Reused(self.path)
        if self.database.version() == before:
            raise sqlite3.OperationalError("it still has the capture before")

    def end(self) -> None:
        """Forgets the functions that were given for the capture."""
        assert self.database
        self.database.forget()

    def close(self) -> None:
        if self.database:
            self.database.close()
        if self.loader:
            self.loader.close()
