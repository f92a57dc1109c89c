"""The rules as `judging.py` takes them: their statements in order, and the rows of the tables that say what the rules
are. To read that from the files takes longer than to judge a small capture. So it is kept in a file: in the repository
until a source is newer, in a package for good."""

import functools
import marshal
import pathlib
import re
from typing import TYPE_CHECKING, Iterator, NamedTuple

from viewer.kept import kept

if TYPE_CHECKING:
    from viewer.rules.guards import Parts

FOLDER = pathlib.Path(__file__).resolve().parent
# The name of the file.
KEPT = "rules"

# Of the forms in which Python writes values the one that has the same bytes for the same values.
FORM = 0

# What a statement makes, and whether of a query; or the table that it changes. Of an index the name is its table's.
MAKES = (r"^(?:CREATE (?:UNIQUE )?(?:TEMP )?(TABLE|VIEW|INDEX) (?:\S+ ON )?|UPDATE |INSERT (?:OR \w+ )?INTO "
         r"|DELETE FROM )(\w+)( AS\b)?")
# After which file another process may find the rows of a statement, and whether they stay where it finds them; and its
# query.
BESIDE, QUERY = r"^-- beside: (\S+?)(, where they stay)?$", r"\b(?:SELECT|WITH)\b"


# A guard is a table, and what must hold for a row of it, as `finding WHERE section = 'calls'`; or a query, of which
# each part has guards.
Guards = tuple[tuple["str | Guards", ...], ...]


class Statement(NamedTuple):
    """A statement of a file, and what it makes, or else the name of the table that it changes. `beside` is the file
    after which another process may find its rows; nothing if this one does. If they stay in the file where they are
    found, who looks at them does so there, and none copies them: so it is with those of a view. `query` is where the
    query begins that does so, or of which it makes a table; 0 if there is none. It does nothing if each part of it has
    a guard without a row. `adds`: it leaves the rows that are there; `sets` has the columns of an UPDATE, which leaves
    the others."""
    file: str
    text: str
    makes: str
    name: str
    beside: str
    stays: bool
    query: int
    guards: Guards = ()
    adds: bool = False
    sets: tuple[str, ...] = ()


class Plan(NamedTuple):
    """The statements. `rows` are those of the tables of rule.sql."""
    statements: list[Statement]
    rows: dict[str, list[tuple]]


def statement_of(file: str, text: str) -> Statement:
    made, said = re.search(MAKES, text, re.M), re.search(BESIDE, text, re.M)
    makes, name, of_query = made.groups("") if made else ("", "", "")
    before = None if makes == "VIEW" else said or (made if makes == "TABLE" and of_query else None)
    query = re.compile(QUERY).search(text, before.end()) if before else None
    stays = said is not None and (makes == "VIEW" or said[2] is not None)
    return Statement(file, text, makes, name, said[1] if said else "", stays, query.start() if query else 0)


def texts_of(path: pathlib.Path) -> list[str]:
    """The statements of a file of rules. A view can't have parameters, so it has the numbers."""
    from viewer.database.raw_tables import with_numbers
    from viewer.database.sqlite import statements_of
    return [with_numbers(text) if "\nCREATE TEMP VIEW " in f"\n{text}" else text for text in statements_of(path)]


def plan_in(folder: pathlib.Path) -> Plan:
    """The plan of the rules in a folder."""
    from viewer.rules.catalogue import catalogue_of, files_in_order, rows_of
    statements = [statement_of(name, text) for name in files_in_order(folder) for text in texts_of(folder / name)]
    return Plan(statements, rows_of(catalogue_of(folder)))


# ---- the file in which it is kept


def with_guards(statements: list[Statement]) -> Iterator[Statement]:
    """The statements with their guards. Of a view nobody knows when it gets a row, so those of its query are asked."""
    from viewer.database.raw_tables import schema
    from viewer.database.sqlite import statements_in
    from viewer.rules.guards import Parts, adds_of, columns_set, guards_of
    tables: set[str] = set()
    views: dict[str, Parts] = {}
    for one in (*(statement_of("", text) for text in statements_in(schema())), *statements):
        guards = guards_of(one.text, views)
        if one.makes == "VIEW":
            views[one.name] = guards
        elif one.makes == "TABLE":
            tables.add(one.name)
        if one.file:
            assert one.name, one.text  # else nobody knows which guards to ask again after it
            yield one._replace(guards=kept_of(guards, tables), adds=adds_of(one.text), sets=columns_set(one.text))


def kept_of(guards: "Parts", tables: set[str]) -> Guards:
    """The guards of tables, and of queries that have one for each part: a part without one may have rows any time."""
    parts = []
    for part in guards:
        found: dict[str | Guards, None] = {}
        for one in part:
            if isinstance(one, list):
                query = kept_of(one, tables)
                found |= {query: None} if all(query) else {}
            elif one.table in tables:
                found[f"{one.table}{one.condition}"] = None
        parts.append(tuple(found))
    return tuple(parts)


def write_plan(path: pathlib.Path) -> None:
    """Writes the plan of the rules of this folder."""
    statements, rows = plan_in(FOLDER)
    path.write_bytes(marshal.dumps(([tuple(one) for one in with_guards(statements)], rows), FORM))


@functools.cache
def plan_of(folder: pathlib.Path) -> Plan:
    """The plan of the rules in a folder."""
    if folder != FOLDER:
        return plan_in(folder)
    statements, rows = marshal.loads(kept(KEPT, (FOLDER, FOLDER.parent / "database"), write_plan).read_bytes())
    return Plan([Statement(*it) for it in statements], rows)
