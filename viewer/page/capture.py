"""The capture that a page shows: its database, and what all sections need of that."""

import os
import pathlib
import sqlite3
from typing import TYPE_CHECKING

from viewer.clocks import SECOND, Times
from viewer.files import word_of
from viewer.malformed import fault_of
from viewer.program_names import called
from viewer.page.groups_within import groups_within
from viewer.rules.names import Names
from viewer.window import WHOLE, Window

if TYPE_CHECKING:
    from viewer.arguments.recorded import Arguments

QUERIES = pathlib.Path(__file__).resolve().parent / "queries"

# The most rows of a section. The rest is counted.
ROWS = 2000

# How long a call of a main thread takes at least that the page lists, in nanoseconds: six frames of a screen are
# missed.
SLOW = SECOND // 10


class Capture:
    """The capture, and the window of it that is shown: `within` has its values for queries, and `upids` the last of
    these. A process is called as in `who`, and a call or an object as in `names`."""

    def __init__(self, database: sqlite3.Connection, files: list[str], window: Window | None = None, slow: int = SLOW,
                 options: str = "", arguments: "Arguments | None" = None):
        self.database, self.window, self.slow, self.arguments = database, window, slow, arguments
        self.within = WHOLE if window is None else window.values()
        self.upids = self.within[3]
        self.groups = set(groups_within(database, window))
        named = " ".join(map(word_of, files))
        self.command, self.report = f"{called('listing')} {named}", f"{called('audit')} report {named}"
        self.again = f"{called('view')} {named}{options}"
        self.facts = dict(database.execute("SELECT key, value FROM capture"))
        malformed = self.facts["malformed"]
        fault = fault_of(malformed, files) if malformed else None
        self.fault = fault._replace(file=os.path.basename(fault.file)) if fault else None
        self.who = dict(database.execute("SELECT upid, who FROM who"))
        self.rules = dict(database.execute("SELECT id, text FROM rule"))
        self.looks = dict(database.execute("SELECT id, next FROM rule"))
        self.names = Names(database)
        self.times = Times(database)

    def ask(self, query: str, *values: object) -> list[tuple]:
        return self.database.execute(query, values).fetchall()

    def asked(self, name: str, *values: object) -> list[tuple]:
        """The answer of the query in a file."""
        return self.ask((QUERIES / f"{name}.sql").read_text("utf-8"), *values)

    def rows(self, name: str, most: int = ROWS) -> list[tuple]:
        """The rows of the query in a file, which takes no more than how many there may be."""
        return self.asked(name, most)

    def says(self, place: int | None) -> str | None:
        """What the transaction or reply at a place says, if the page shows that."""
        return self.arguments.text(place) if self.arguments and place is not None else None

    def slow_calls(self, most: int = ROWS) -> list[tuple]:
        """The slow calls of main threads, by method."""
        return self.asked("main_thread", most, self.slow, self.upids)

    def count(self, table: str, condition: str = "1", *values: object) -> int:
        return self.ask(f"SELECT count(*) FROM {table} WHERE {condition}", *values)[0][0]
