"""Processes that find rows in the database while this one goes on, of a capture that is large. They read what nobody
changes meanwhile, above all the raw tables, and write what they find into databases of their own."""

import contextlib
import functools
import os
import pathlib
import select
import sqlite3
from typing import Iterator, Mapping, NamedTuple

from viewer.database.sqlite import insert, open_beside, path_of
from viewer.piped import Piped, Send

# The least records of a capture for which there are such processes: of fewer, rows are found before one has begun.
LEAST_RECORDS = 100_000

# The most processes that begin at one time.
MOST = 3


class Given(NamedTuple):
    """A temporary table or view that the processes get: the statement that makes it, its name, and its rows."""
    making: str
    name: str
    rows: list[tuple]


def unreadable() -> sqlite3.OperationalError:
    """Another process has met an error, or was killed."""
    return sqlite3.OperationalError("its rows can't be read")


class Place(NamedTuple):
    """Where the rows of a table are found and stay: a file, and a pipe that has a byte, which nobody takes, once they
    are there. So each process that asks for them waits for the one that finds them, and none copies them."""
    table: str
    file: str
    told: int

    def attach(self, database: sqlite3.Connection) -> None:
        """Waits for the rows, and gives a database a view that has them. If who finds them has ended, they never are
        there."""
        asked = select.poll()
        asked.register(self.told, select.POLLIN)
        (_, seen), = asked.poll()
        if not seen & select.POLLIN:
            raise unreadable()
        database.execute(f"ATTACH ? AS of_{self.table}", (self.file,))
        database.execute(f"CREATE TEMP VIEW {self.table} AS SELECT * FROM of_{self.table}.rows")


class Query(NamedTuple):
    """What is asked, and the name by which its rows are asked for. `places` has the tables that it looks at and that
    other queries find. If its own rows stay, `stays` is the name of their table. `columns` declares them; nothing: they
    are as they come."""
    name: str
    text: str
    places: tuple[Place, ...] = ()
    stays: str = ""
    columns: str = ""


class Task(NamedTuple):
    """A query, the file for its rows, and if they stay the pipe by which it is told that they are there."""
    query: Query
    file: str
    tells: int | None


def attach(database: sqlite3.Connection, path: str) -> None:
    """Attaches the database in which the rows of a query are, or will be, as `found`."""
    database.execute("ATTACH ? AS found", (path,))
    for setting in ("journal_mode=OFF", "synchronous=OFF"):
        database.execute(f"PRAGMA found.{setting}")


def find(path: str, given: list[Given], tasks: list[Task], values: Mapping[str, object], due: int, send: Send) -> None:
    """Says by an empty list when it has all that may change. Then it takes one task after another that no other one has
    taken, by its number in the pipe `due`, and says when its rows are found."""
    database = open_beside(path)
    for table in given:
        database.execute(table.making)
        insert(database, table.name, table.rows)
    database.execute("SELECT count(*) FROM raw_capture").fetchone()
    send([])
    attached: set[Place] = set()
    while number := os.read(due, 1):
        query, file, tells = tasks[number[0]]
        for place in set(query.places) - attached:
            place.attach(database)
            attached.add(place)
        attach(database, file)
        if query.columns:
            database.execute(f"CREATE TABLE found.rows{query.columns}")
            database.execute(f"INSERT INTO found.rows {query.text}", values)
        else:
            database.execute(f"CREATE TABLE found.rows AS {query.text}", values)
        database.execute("DETACH found")
        if tells is not None:
            os.write(tells, b"\n")
        send([(query.name,)])


class Crew:
    """Processes that find the rows of some queries, each for a file."""

    def __init__(self, path: str, given: list[Given], tasks: list[Task], values: Mapping[str, object]):
        processes = max(1, min((os.cpu_count() or 2) - 1, MOST, len(tasks)))
        self.files = {task.query.name: task.file for task in tasks}
        due, into = os.pipe()
        os.write(into, bytes(range(len(tasks))))
        os.close(into)
        self.piped = Piped(functools.partial(find, path, given, tasks, values, due), processes)
        os.close(due)
        self.lists = self.piped.received()
        self.found: set[str] = set()
        while processes:
            processes -= not self.receive()

    def receive(self) -> list[tuple]:
        """What a process says next: that it has all, or the name of a query of which the rows are found."""
        said = next(self.lists, None)
        if said is None:
            raise unreadable()
        self.found.update(name for name, in said)
        return said

    def wait(self, name: str) -> str:
        """Waits until the rows of a query are found. The file that has them."""
        while name not in self.found:
            self.receive()
        return self.files.pop(name)


class Finders:
    """The processes that find rows of a database. They end with the block."""

    def __init__(self, path: str):
        self.path = path
        self.every: list[Crew] = []
        self.of: dict[str, Crew] = {}
        self.places: dict[str, Place] = {}

    def begin(self, queries: list[Query], given: list[Given], values: Mapping[str, object]) -> None:
        """Begins to find the rows of queries, in as many processes as there are processors beside this one's."""
        if queries:
            tasks = [self.task(query, f"{self.path}.found-{len(self.of) + at}") for at, query in enumerate(queries)]
            self.every.append(Crew(self.path, given, tasks, values))
            self.of.update(dict.fromkeys(self.every[-1].files, self.every[-1]))
            for task in tasks:
                if task.tells is not None:
                    os.close(task.tells)

    def task(self, query: Query, file: str) -> Task:
        if not query.stays:
            return Task(query, file, None)
        told, tells = os.pipe()
        self.places[query.stays] = Place(query.stays, file, told)
        return Task(query, file, tells)

    def has(self, name: str) -> bool:
        return name in self.of

    @contextlib.contextmanager
    def found(self, database: sqlite3.Connection, name: str) -> Iterator[None]:
        """In this block the table `found.rows` has the rows of a query, which are waited for."""
        file = self.of[name].wait(name)
        within = database.in_transaction
        if within:
            database.execute("COMMIT")
        attach(database, file)
        yield
        database.execute("DETACH found")
        pathlib.Path(file).unlink()
        if within:
            database.execute("BEGIN")

    def __enter__(self) -> "Finders":
        return self

    def __exit__(self, *_: object) -> None:
        for crew in self.every:
            crew.piped.__exit__()
        for place in self.places.values():
            os.close(place.told)


def finders_of(database: sqlite3.Connection) -> Finders | None:
    """Processes for a database; None if it is small, or in memory."""
    records, = database.execute("SELECT coalesce(max(records), 0) FROM raw_capture").fetchone()
    path = path_of(database)
    return Finders(path) if path and records >= LEAST_RECORDS else None
