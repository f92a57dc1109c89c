"""What viewer/database/about.sql says of the tables and views of a database, and which columns SQLite says that they
have.

A row of the table `about` says what a table or view rests on, and what a row of it is. Comments after it say more:

      ('frame', 'bytes', 'what one call wrote or read; ts is of the side list'),
      -- A sentence as docs/DATABASE.md has it, in Markdown.
      --   **seq**, place: what these columns mean
      --   direction (text): what this one means

A line `-- ## HEADING` before a row begins a section of the page; `about`, which has no row of its own, comes last.
Lines with three spaces have columns, in their order, and go on in the next line, five spaces in. In bold is the key of
a view; a table has its own. One type, at the end, is that of all in the line. Without a type a column has that which
the head of the file says for its name, or is an integer. Columns of which nothing more is to say have no line."""

import functools
import pathlib
import re
import sqlite3
from typing import Iterator, NamedTuple

from checks.kit.programs import ROOT
from viewer.database import raw_tables
from viewer.rules.judging import judge

ABOUT = ROOT / "viewer/database/about.sql"
COMMON = re.compile(r"^-- Columns that many tables have:\n((?:--.*\n)*)", re.MULTILINE)
SECTION = re.compile(r"^-- ## (.*)\n((?:(?!-- ## ).*\n)*)", re.MULTILINE)
OF_TABLE = re.compile(r"^  \('(\w+)', '\w+',\s*'(?:[^']|'')*'\)[,;]\n((?:  --.*\n)*)", re.MULTILINE)
COLUMN = re.compile(r"(\*\*)?(\w+)(?:\*\*)?(?: \((\w+)\))?")
# What SQLite calls the types.
DECLARED = {"TEXT": "text", "REAL": "real", "INTEGER": "integer"}


class Column(NamedTuple):
    """A column. `type` is empty if it is that of its name."""
    name: str
    type: str
    is_key: bool


class Columns(NamedTuple):
    """Columns that have one meaning, or none that is to be said."""
    columns: list[Column]
    meaning: str


# What is said of a table or view, in order: sentences, and columns.
Said = list[str | Columns]


class Wrong(Exception):
    """What is said of a table does not fit it."""


class Catalogue(NamedTuple):
    """The columns that many tables have, for each section its tables, and for each table the line and what is said."""
    common: list[Columns]
    sections: dict[str, list[str]]
    lines: dict[str, str]
    said: dict[str, Said]

    def types(self) -> dict[str, str]:
        return types_in(self.common)

    def columns(self, name: str) -> list[Column]:
        """The columns of a table, each with its type."""
        types = self.types()
        return [column._replace(type=column.type or types.get(column.name) or "integer")
                for part in self.said[name] if isinstance(part, Columns) for column in part.columns]


def types_in(common: list[Columns]) -> dict[str, str]:
    return {column.name: column.type for part in common for column in part.columns}


# ---- what the comments say


def columns_in(line: str) -> Columns:
    """The columns of a line, each with the type that is said."""
    names, _, meaning = line.partition(": ")
    columns = []
    for name in names.split(", "):
        found = COLUMN.fullmatch(name)
        if found is None:
            raise Wrong(f"{name!r} is no column")
        columns.append(Column(found[2], found[3] or "", bool(found[1])))
    if not any(column.type for column in columns[:-1]):
        columns = [column._replace(type=columns[-1].type) for column in columns]
    return Columns(columns, meaning)


def said_in(comments: str) -> Iterator[str | Columns]:
    """The sentences and columns of comments. An item of a list begins a line."""
    sentence = ""
    for line in [*re.sub(r"\n *--     (?=\S)", " ", comments).splitlines(), ""]:
        text = line.strip().removeprefix("--")
        is_column, text = text.startswith("   "), text.strip()
        if sentence and (is_column or not text or text.startswith("- ")):
            yield sentence
            sentence = ""
        if is_column:
            yield columns_in(text)
        else:
            sentence = f"{sentence} {text}".strip()


# ---- what SQLite says


def empty_database() -> sqlite3.Connection:
    """The database of a capture without frames."""
    database = sqlite3.connect(":memory:", isolation_level=None)
    database.executescript(raw_tables.schema())
    judge(database)
    return database


class There:
    """The columns that a table or view has."""

    def __init__(self, database: sqlite3.Connection, name: str, types: dict[str, str]):
        self.types = types
        found = database.execute("SELECT type FROM sqlite_schema WHERE name = ?", (name,)).fetchone()
        if found is None:
            raise Wrong("it is no table and no view")
        self.is_view = found[0] == "view"
        # A view has not all types, and no key.
        self.left = [Column(column, DECLARED.get(declared, ""), key > 0)
                     for _, column, declared, _, _, key in database.execute(f"PRAGMA table_info({name})")]

    def next(self, said: Column | None = None) -> Column:
        """The next column, with what is said of it."""
        there = self.left.pop(0)
        kind = said.type if said else ""
        meant = kind or self.types.get(there.name) or "integer"
        if there.type and meant != "any" and there.type != (meant if meant in ("text", "real") else "integer"):
            raise Wrong(f"{there.name} is declared as {there.type}, and said to be {meant}")
        if said and said.is_key and not self.is_view:
            raise Wrong(f"{said.name} is in bold: a table has its own key")
        return Column(there.name, kind, there.is_key or bool(said and said.is_key))

    def before(self, name: str) -> Iterator[Column]:
        """The columns before one of this name."""
        if name not in [column.name for column in self.left]:
            raise Wrong(f"{name} is none of its columns, or out of their order")
        while self.left[0].name != name:
            yield self.next()

    def like(self, said: Columns) -> Iterator[str | Columns]:
        """Columns as they are said, and before them those that have no line."""
        if unsaid := list(self.before(said.columns[0].name)):
            yield Columns(unsaid, "")
        names = [column.name for column in said.columns]
        if names != [column.name for column in self.left[:len(names)]]:
            raise Wrong(f"{', '.join(names)} are not its columns in their order")
        yield Columns([self.next(column) for column in said.columns], said.meaning)

    def rest(self) -> Iterator[str | Columns]:
        if self.left:
            yield Columns([self.next() for _ in list(self.left)], "")


def whole(said: Said, there: There) -> Iterator[str | Columns]:
    """What is said, with all columns: those after the last line come right after it."""
    last = max((at for at, part in enumerate(said) if isinstance(part, Columns)), default=len(said) - 1)
    for at, part in enumerate(said):
        if isinstance(part, Columns):
            yield from there.like(part)
        else:
            yield part
        if at == last:
            yield from there.rest()
    yield from there.rest()


def catalogue_of(path: pathlib.Path) -> Catalogue:
    """What the file says of each table."""
    text, database = path.read_text("utf-8"), empty_database()
    found = COMMON.search(text)
    common = [part for part in said_in(found[1] if found else "") if isinstance(part, Columns)]
    lines = {name: f"`{rests_on}`: {line}" for name, rests_on, line in database.execute(
        "SELECT name, rests_on, text FROM about")}
    comments = {**dict.fromkeys([*lines, "about"], ""), **dict(OF_TABLE.findall(text))}
    said = {}
    for name, of_table in comments.items():
        try:
            said[name] = list(whole(list(said_in(of_table)), There(database, name, types_in(common))))
        except Wrong as what:
            raise Wrong(f"{name}: {what}") from None
    if unread := "".join(OF_TABLE.sub("", rows) for _, rows in SECTION.findall(text)).strip():
        raise Wrong(f"not read: {unread.splitlines()[0]}")
    sections = {heading: [name for name, _ in OF_TABLE.findall(rows)] for heading, rows in SECTION.findall(text)}
    sections[[*sections][-1]].append("about")
    return Catalogue(common, sections, lines, said)


@functools.cache
def catalogue() -> Catalogue:
    return catalogue_of(ABOUT)
