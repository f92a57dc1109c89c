"""Questions to a lab, and one question to many databases of `./view`."""

import os
import pathlib
import re
import sqlite3
from itertools import repeat
from typing import Iterator

from viewer.defects.seen import kept_database
from viewer.files import Stopped
from viewer.terminal import field_of
from viewer.units import counted

QUESTIONS = pathlib.Path(__file__).resolve().parent / "questions"

# What SQLite says of a question that is wrong, or would write. All else it says of the lab.
OF_THE_QUESTION = (sqlite3.SQLITE_ERROR, sqlite3.SQLITE_READONLY, sqlite3.SQLITE_AUTH)


def line_of(values: object) -> str:
    return "\t".join(map(field_of, values)) + "\n"  # type: ignore[call-overload]


def names() -> list[str]:
    """The questions that have a name."""
    return sorted(path.stem for path in QUESTIONS.glob("*.sql"))


class Values(dict[str, str | None]):
    """The values of a question, as `build=b07`. They note which of them SQLite asks for."""

    def __init__(self, words: list[str]):
        for word in words:
            if "=" not in word:
                raise Stopped(64, f"{word}: a value of a question is NAME=VALUE")
        super().__init__({name: value for name, _, value in (word.partition("=") for word in words)})
        self.taken: set[str] = set()

    def __getitem__(self, name: str) -> str | None:
        self.taken.add(name)
        return self.get(name)

    def refuse_others(self, question: str, query: str) -> None:
        """Refuses values that the question does not take, and a question whose values are not all given. They are told
        in the order in which its text names them."""
        if set(self) != self.taken:
            names = sorted(self.taken, key=lambda name: query.find(f":{name}"))
            *others, last = [f"{name}=" for name in names] or ["no value"]
            raise Stopped(64, f"{question} takes {', '.join(others)}{' and ' * bool(others)}{last}")


# Values that name something of the lab, and where that is.
OF_BUILD = "build", "SELECT 1 FROM build WHERE name = ?"
NAMED = {"defect": ("defect", "SELECT 1 FROM defect WHERE id = ?"), "old": OF_BUILD, "new": OF_BUILD}


def refuse_unknown(lab: sqlite3.Connection, values: Values) -> None:
    """Refuses a defect and builds that the lab does not have, because zeros would answer for them."""
    for name, value in values.items():
        if name in NAMED:
            what, query = NAMED[name]
            if not lab.execute(query, (value,)).fetchone():
                raise Stopped(1, f"the lab has no {what} {value}")


def text_of(question: str) -> str:
    """The SQL of a question."""
    if question in names():
        return (QUESTIONS / f"{question}.sql").read_text("utf-8")
    if question.isidentifier():
        raise Stopped(64, f"no question is called {question}, but these: {' '.join(names())}")
    return question


def ask(lab: sqlite3.Connection, question: str, words: list[str]) -> Iterator[str]:
    """The answer of a question by name, or of SQL: a line with the names of its columns, then the rows."""
    query, values = text_of(question), Values(words)
    lab.execute("PRAGMA query_only = 1")
    try:
        cursor = lab.execute(query, values)
    except (sqlite3.ProgrammingError, sqlite3.Warning) as error:
        raise Stopped(64, "a question is one statement of SQL, with values that have names, as :build") from error
    except sqlite3.OperationalError as error:
        if error.sqlite_errorcode & 0xff not in OF_THE_QUESTION:
            raise
        raise Stopped(64, f"{error}; questions that have a name: {' '.join(names())}") from error
    values.refuse_others("the question" if question == query else question, query)
    if question != query:
        refuse_unknown(lab, values)
    if cursor.description is None:
        return
    yield line_of(name for name, *_ in cursor.description)
    yield from map(line_of, cursor)


def doubt(lab: sqlite3.Connection, question: str) -> str | None:
    """Why an answer may lack something: results were too long for all rows of who talks to whom, or of what is held."""
    if not re.search(r"\b(talk|held)\b", text_of(question)):
        return None
    captures, rows = lab.execute("SELECT count(*), sum(left_out) FROM capture WHERE left_out > 0").fetchone()
    return f"{counted(captures, 'result')} of the lab with {rows:,} rows left out" if captures else None


def answer_of(query: str, path: str) -> list[tuple]:
    database = kept_database(path)
    try:
        return database.execute(query).fetchall()
    except (sqlite3.Error, sqlite3.Warning, UnicodeDecodeError) as error:
        raise Stopped(64, f"{path}: {error}") from error
    finally:
        database.close()


def each(query: str, paths: list[str]) -> Iterator[str]:
    """The answers of kept databases to a question, each line with the name of its database in front."""
    from concurrent.futures import ProcessPoolExecutor  # which takes longer than most questions
    with ProcessPoolExecutor(len(os.sched_getaffinity(0))) as pool:
        for path, rows in zip(paths, pool.map(answer_of, repeat(query), paths, chunksize=16)):
            yield from (line_of((path, *row)) for row in rows)
