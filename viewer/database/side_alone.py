"""What side lists say of a recording, without its capture: which frames a time has is asked before that is read."""

import contextlib
import pathlib
import sqlite3
import tempfile
from typing import Iterator

from viewer.database.raw_tables import load_side
from viewer.database.side_list import SideList, joined_sides
from viewer.database.sqlite import errors_in, open_database
from viewer.files import unchanged

# The numbers that frames may have, as SQLite has them.
NUMBERS = 0, 2**63 - 1


def fill(database: sqlite3.Connection, path: str, others: pathlib.Path) -> None:
    """Adds what is not loaded of a side list, and since when and until when the recording goes."""
    taken = SideList(database)
    taken.load(path, others)
    first, last = database.execute("SELECT (SELECT ts FROM side_time ORDER BY seq LIMIT 1),"
                                   " (SELECT ts FROM side_time ORDER BY seq DESC LIMIT 1)").fetchone()
    facts = {**taken.facts, "first_ts": first, "until_ts": taken.facts.get("end_ts", last)}
    database.executemany("INSERT INTO capture VALUES (?, ?)", facts.items())


@contextlib.contextmanager
def database_of(sides: list[str]) -> Iterator[sqlite3.Connection]:
    """A database that has of a recording what its side lists say. If there are none, it is empty."""
    with unchanged(sides), tempfile.TemporaryDirectory(prefix="listing-") as folder:
        room = pathlib.Path(folder)
        made, others = room / "side.db", room / "others"
        path = joined_sides(sides, room / "joined.side") if sides else None
        load_side(made, path, others)
        with errors_in(made), contextlib.closing(open_database(made)) as database:
            if path is not None:
                fill(database, path, others)
            yield database
