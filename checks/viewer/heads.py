"""The heads of the SQL files of `view`: which names of which file their statements need, and what they make. And no
statement changes a raw table, which has what `./listing` wrote, or takes a path before it is made to be shown. And what
another process finds beside the others, as a comment of the statement says, is not changed meanwhile.

SQLite says, as it compiles a statement, what it reads, changes and creates, and which functions it calls. The head of a
file must have exactly that; otherwise the check says what it should be. The files run in the order of their heads, in
which SQLite also refuses a statement that needs what only a later file makes."""

import pathlib
import re
import sqlite3
import textwrap
from collections import defaultdict
from itertools import takewhile
from typing import Iterator, NamedTuple

from checks.kit.programs import ROOT
from viewer.database import raw_tables
from viewer.database.sqlite import statements_in
from viewer.rules import judging
from viewer.rules.catalogue import files_in_order
from viewer.rules.judging import LOADING
from viewer.rules.plan import statement_of, texts_of

VIEWER = ROOT / "viewer"
ORDER = files_in_order(judging.FOLDER)
QUERIES, VIEWS, FUNCTIONS = VIEWER / "page/queries", raw_tables.FOLDER / "views.sql", judging.FOLDER / "judging.py"

MAKES = {sqlite3.SQLITE_CREATE_TABLE: "tables", sqlite3.SQLITE_CREATE_TEMP_TABLE: "temporary tables",
         sqlite3.SQLITE_CREATE_VIEW: "views", sqlite3.SQLITE_CREATE_TEMP_VIEW: "temporary views",
         sqlite3.SQLITE_CREATE_INDEX: "indexes",
         sqlite3.SQLITE_CREATE_TEMP_INDEX: "indexes"}
CHANGES = (sqlite3.SQLITE_INSERT, sqlite3.SQLITE_UPDATE, sqlite3.SQLITE_DELETE)


def files_of_statements() -> dict[str, pathlib.Path]:
    """The statements that make and judge a database, then those of the page, in their order, each with its file."""
    found: dict[str, pathlib.Path] = {}
    for name in raw_tables.SCHEMA:
        found.update(dict.fromkeys(statements_in(raw_tables.schema_of(name)), raw_tables.FOLDER / name))
    for name in ORDER:
        found.update(dict.fromkeys(texts_of(judging.FOLDER / name), judging.FOLDER / name))
    return {**found, **{path.read_text("utf-8"): path for path in QUERIES.glob("*.sql")}}


# The columns of finding that are made to be shown, by a file of their own.
TEXTS = "texts.sql"
SHOWN = {"path", "interface", "others", "method", "service"}


class Ran(NamedTuple):
    """A statement that was run, and what SQLite said of it."""
    statement: str
    path: pathlib.Path
    seen: tuple[tuple, ...]

    def reads(self) -> set[tuple[str, str]]:
        """Tables with their columns."""
        return {(first, second) for action, first, second, _ in self.seen if action == sqlite3.SQLITE_READ}

    def changes(self) -> set[tuple[str, str | None]]:
        """Tables, and of an UPDATE the column. A view is none: who finds rows beside the others gets it."""
        return {(first, second) for action, first, second, _ in self.seen
                if action in CHANGES or action in MAKES and not MAKES[action].endswith("views")}

    def texts(self) -> set[str]:
        return set(re.findall("'(\\w+)'", self.statement))


class Watched:
    """A database that notes what the statements of each file use and make, and which file made a name."""

    def __init__(self) -> None:
        self.database = sqlite3.connect(":memory:", isolation_level=None)
        self.database.set_authorizer(self.note)
        self.files = files_of_statements()
        self.seen: list[tuple] = []
        self.uses: dict[pathlib.Path, set[str]] = defaultdict(set)
        self.makes: dict[pathlib.Path, dict[str, list[str]]] = defaultdict(lambda: defaultdict(list))
        self.maker: dict[str, pathlib.Path] = {}
        self.views: list[str] = []
        self.ran: list[Ran] = []

    def __getattr__(self, name: str) -> object:
        return getattr(self.database, name)

    def note(self, action: int, first: str | None, second: str | None, _: str | None, within: str | None) -> int:
        self.seen.append((action, first, second, within))
        return sqlite3.SQLITE_OK

    def create_function(self, name: str, *how: object, **more: object) -> None:
        self.maker[name] = FUNCTIONS
        self.database.create_function(name, *how, **more)

    def execute(self, statement: str, *values: object) -> sqlite3.Cursor:
        self.seen.clear()
        path = self.files.get(statement)
        try:
            answer = self.database.execute(statement, *values)
        except sqlite3.OperationalError as error:
            raise SystemExit(f"checks/rules: {path}: {error}; or does it run too early, by its head?") from error
        except sqlite3.ProgrammingError as error:  # a parameter without a value
            raise SystemExit(f"checks/rules: {path}: {error} Parameters are thresholds, and numbers of numbers.sql"
                             ) from error
        if path is not None:
            self.ran.append(Ran(statement, path, tuple(self.seen)))
            self.take(path)
            if path.parent == QUERIES:
                self.makes[path]["columns"] = [column for column, *_ in answer.description]
        return answer

    def is_view(self, name: str | None) -> bool:
        return name in self.views

    def is_early(self, path: pathlib.Path) -> bool:
        """Whether a file runs before texts are made."""
        return path.parent == judging.FOLDER and ORDER.index(path.name) < ORDER.index(TEXTS)

    def take(self, path: pathlib.Path) -> None:
        """Notes what the last statement did. What a view reads is no matter of a statement that reads the view. Of what
        is read without a column, as by `count(*)`, SQLite does not say whether a view reads it."""
        used, inside, bare = set(), set(), set()
        for action, first, second, within in self.seen:
            if action in MAKES and not first.startswith("sqlite_"):
                self.makes[path][MAKES[action]].append(first)
                self.maker[first] = path
                if MAKES[action].endswith("views"):
                    self.views.append(first)
            elif action == sqlite3.SQLITE_READ and not second:
                bare.add(first)
            elif action == sqlite3.SQLITE_READ:
                (inside if self.is_view(within) else used).add(first)
            elif action == sqlite3.SQLITE_SELECT and self.is_view(within):
                bare.add(within)
            elif action in CHANGES:
                used.add(first)
                if first.startswith("raw_"):
                    raise SystemExit(f"checks/rules: {path}: it changes {first}, which has what ./listing wrote")
            elif action == sqlite3.SQLITE_FUNCTION and not self.is_view(within) \
                    and self.maker.get(second) == FUNCTIONS:
                used.add(second)
        self.uses[path] |= used | bare - inside
        self.refuse_early(path)

    def refuse_early(self, path: pathlib.Path) -> None:
        """Stops at a statement that takes what is made to be shown before it is made. Of one that changes findings by
        others SQLite says that it reads all columns."""
        read = {column for action, table, column, _ in self.seen if (action, table) == (sqlite3.SQLITE_READ, "finding")}
        if SHOWN & read and not SHOWN <= read and self.is_early(path):
            raise SystemExit(f"checks/rules: {path}: it reads {', '.join(SHOWN & read)} of finding, which {TEXTS} makes"
                             " later")

    def faults_of_beside(self) -> Iterator[str]:
        """What other processes find while it is changed."""
        rules = [it for it in self.ran if it.path.parent == judging.FOLDER]
        for at, it in enumerate(rules):
            since = statement_of(it.path.name, it.statement).beside
            if not since:
                continue
            begin = max((number + 1 for number, other in enumerate(rules) if other.path.name == since), default=0)
            changed = [(other, table, column) for other in rules[begin:at] for table, column in other.changes()]
            taken = {table for table, column in it.reads() if table in self.maker and (
                any(is_other(it, table, column, *change) for change in changed)
                or since == LOADING and not self.is_there_first(table))}
            for table in sorted(taken):
                yield f"{it.path.relative_to(ROOT)}: it takes {table} beside the others, which change that: " + \
                      " ".join(it.statement.split())[-80:]

    def is_there_first(self, table: str) -> bool:
        """Whether the loader fills a table, or it is a view."""
        return table.startswith("raw_") or table in raw_tables.PACKED_TABLES or self.is_view(table)

    def look_into_views(self) -> None:
        """Notes what the views read and call, as a matter of their file."""
        for view in self.views:
            self.execute(f"SELECT * FROM {view}")
            path = self.maker[view]
            read = [seen[1:] for seen in self.seen if seen[0] == sqlite3.SQLITE_READ]
            bare = {table for table, column, _ in read if not column}
            self.uses[path] |= {table for table, column, within in read if column and within == view}
            self.uses[path] |= bare - {table for table, column, _ in read if column}
            self.uses[path] |= {name for action, _, name, within in self.seen if action == sqlite3.SQLITE_FUNCTION
                                and within == view and self.maker.get(name) == FUNCTIONS}

    def head(self, path: pathlib.Path) -> str:
        """The lines that the head of a file must have."""
        needs = {maker.name if maker.parent == path.parent else f"{maker.parent.name}/{maker.name}":
                 sorted(name for name in self.uses[path] if self.maker.get(name) == maker)
                 for maker in dict.fromkeys([*self.files.values(), FUNCTIONS]) if maker != path}
        makes = {kind: self.makes[path][kind] for kind in dict.fromkeys([*MAKES.values(), "columns"])}
        return f"{lines_of('needs', needs)}\n{after_of(path)}{lines_of('makes', makes)}"


def is_other(it: Ran, table: str, column: str, other: Ran, changed: str, of: str | None) -> bool:
    """Whether a statement changes what another one reads. Of findings that one gets the sections and codes: it reads
    those of sections that it names."""
    if table != changed or not column:
        return False
    if table == "finding" and column in ("section", "code"):
        return of == column or of is None and bool(it.texts() & other.texts())
    return True


def after_of(path: pathlib.Path) -> str:
    """The line by which a file says after which others it runs; nothing if it has none."""
    return "".join(line for line in path.read_text("utf-8").splitlines(keepends=True) if line.startswith("-- after: "))


def lines_of(word: str, names: dict[str, list[str]]) -> str:
    said = "; ".join(f"{of}: {', '.join(some)}" for of, some in names.items() if some) or "nothing"
    return textwrap.fill(f"{word}: {said}", 120, initial_indent="-- ", subsequent_indent="--   ",
                         break_on_hyphens=False, break_long_words=False)


def keep_raw(action: int, table: str | None, *_: object) -> int:
    """An authorizer that lets no statement change a raw table."""
    is_raw = action in CHANGES and (table or "").startswith("raw_")
    return sqlite3.SQLITE_DENY if is_raw else sqlite3.SQLITE_OK


def faults_of_heads() -> Iterator[str]:
    """What is wrong with the heads."""
    watched = Watched()
    for statement, path in watched.files.items():
        if path.parent == raw_tables.FOLDER:
            watched.execute(statement)
    judging.judge(watched)  # type: ignore[arg-type]
    for statement, path in watched.files.items():
        if path.parent == QUERIES:
            watched.execute(statement, {str(at): 0 for at in range(1, 9)})
    yield from watched.faults_of_beside()
    watched.look_into_views()
    for path in sorted(VIEWER.rglob("*.sql")):
        said = "\n".join(takewhile(lambda line: line.startswith("--"), path.read_text("utf-8").splitlines()))
        if path not in watched.files.values():
            yield f"{path.relative_to(ROOT)}: nothing runs it"
        elif watched.head(path) not in said:
            yield f"{path.relative_to(ROOT)}: its head must have these lines:\n{watched.head(path)}"
