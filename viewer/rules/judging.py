"""The rules, file after file, and the words by which their statements make texts."""

import functools
import pathlib
import re
import sqlite3
from typing import TYPE_CHECKING, Callable, Iterator, NamedTuple

from viewer.clocks import Times
from viewer.database.sqlite import insert, named_numbers, path_of
from viewer.exceptions import exception_name
from viewer.page.texts import APPS
from viewer.rules.emptiness import Emptiness
from viewer.rules.names import Names, short_of
from viewer.rules.notes import note_text
from viewer.rules.paths import call_words, path_text
from viewer.rules.plan import FOLDER, Plan, Statement, plan_of
from viewer.rules.thresholds import THRESHOLDS
from viewer.rules.verdicts import RANKS
from viewer.units import LETTERS, counted, defect_key, duration_of, status_name

if TYPE_CHECKING:
    from viewer.database.finders import Finders, Given, Query
    from viewer.timing import Timing

# Most statements look at the findings of some sections, and a capture may have very many of others. Without statistics
# SQLite takes it that ten findings are of a section, and that it need make no index for these few of what is joined to
# them; so the statistics say that there are very many. Where findings of one section are looked up by something else,
# as by their place, the statement has `+section`, for which no index is used. Nothing of this is left in the database.
BY_SECTION = ("CREATE INDEX finding_of_section ON finding(section)", "ANALYZE finding_of_section",
              "DELETE FROM sqlite_stat1",
              "INSERT INTO sqlite_stat1 VALUES ('finding', 'finding_of_section', '1000000 100000')",
              "ANALYZE sqlite_schema")
NO_LONGER = ("DROP INDEX finding_of_section", "DROP TABLE sqlite_stat1")


# The functions of which texts and keys are made.
WORDS: dict[str, Callable] = {
    "duration": duration_of, "counted": counted, "status_name": status_name, "exception_name": exception_name,
    "defect_key": defect_key, "path_text": path_text, "note_text": note_text, "call_words": call_words,
    "rank_of": RANKS.get, "bare_name": lambda name: name and short_of(name)}


class OfData(NamedTuple):
    """What statements ask of the data of an attachment, which has so many bytes."""
    hash_of: Callable[[int | None, int], int | None]
    exception_of: Callable[[int | None, int], int | None]


def nothing(_: int | None, __: int) -> None:
    """Where there is no capture to read: the tables data_hash and exception have what there is."""


NO_DATA = OfData(nothing, nothing)


# The statements of which other processes may find rows as soon as the raw tables are there say `-- beside: loading`.
LOADING = "loading"


def name_of(number: int) -> str:
    """The name by which the rows of a statement are asked for."""
    return f"statement {number}"


def query_of(plan: Plan, number: int, finders: "Finders") -> "Query":
    """What is asked for the rows of a statement."""
    from viewer.database.finders import Query
    it = plan.statements[number]
    if it.makes == "VIEW":
        return Query(name_of(number), f"SELECT * FROM {it.name}", (), it.name)
    text = it.text[it.query:].rstrip().removesuffix(";")
    names = words_of(text)
    places = tuple(place for name, place in finders.places.items() if name in names)
    return Query(name_of(number), text, places, it.name if it.stays else "", columns_of(plan, it))


def columns_of(plan: Plan, statement: Statement) -> str:
    """How the table that a statement fills declares its columns; nothing if the statement makes it, or names columns.
    To a table that is declared alike SQLite copies rows as they are."""
    if not statement.text[:statement.query].rstrip().endswith(f"INSERT INTO {statement.name}"):
        return ""
    making = next((it.text for it in plan.statements if (it.makes, it.name) == ("TABLE", statement.name)), "")
    return making[making.index("("):].rstrip().removesuffix(";") if making else ""


def begin_due(plan: Plan, due: list[tuple[int, Statement]], given: list["Given"], finders: "Finders",
              numbers: dict[str, float]) -> None:
    """Has other processes find the rows of statements. They also get the views that these name, but of what is found
    already."""
    views = [it for it in views_of(plan, due) if it.name not in finders.places]
    finders.begin([query_of(plan, number, finders) for number, _ in due], [*given, *views], numbers)


def begin(database: sqlite3.Connection, finders: "Finders") -> None:
    """Has other processes find what the rules take of the raw tables alone, while the database is filled."""
    plan = with_sums(database, plan_of(FOLDER))
    begin_due(plan, due_after(plan, LOADING), [], finders, numbers_of(database))


class Judging:
    """The rules at work on a database. Some rows come of other processes, if there are `finders`: of statements that
    say `-- beside: FILE`, from the end of that file on. A database that is ruled has all tables, as ruled.py says."""

    def __init__(self, database: sqlite3.Connection, plan: Plan, timing: "Timing | None", finders: "Finders | None",
                 is_ruled: bool = False):
        self.database, self.plan, self.timing = database, with_sums(database, plan), timing
        self.finders, self.is_ruled = finders, is_ruled
        self.empty = Emptiness(database, (it.name for it in plan.statements if is_ruled and it.makes == "TABLE"))
        self.numbers = numbers_of(database)
        self.packed = packed_tables(database)

    def judge(self) -> None:
        file = ""
        for number, statement in enumerate(self.plan.statements):
            if statement.file != file:
                self.after(file)
                self.begin(file)
                file = statement.file
            if statement.makes == "INDEX" and statement.name in self.packed:
                continue
            if self.timing:
                with self.timing.statement(file, statement.text):
                    self.run(number, statement)
            else:
                self.run(number, statement)

    def run(self, number: int, statement: Statement) -> None:
        """Runs a statement, or takes its rows from another process."""
        if self.is_ruled:
            self.run_ruled(statement)
            return
        if statement.makes == "VIEW" or not self.finders or not self.finders.has(name_of(number)):
            self.database.execute(statement.text, self.numbers)
            return
        if statement.stays:
            self.look_at(statement.name)
            return
        with self.finders.found(self.database, name_of(number)):
            self.database.execute(f"{statement.text[:statement.query]}SELECT * FROM found.rows")

    def look_at(self, table: str) -> None:
        """Has a view, in place of a table without rows, of the rows that other processes find."""
        assert self.finders
        self.database.execute("COMMIT")
        self.database.execute(f"DROP TABLE temp.{table}")
        self.finders.places[table].attach(self.database)
        self.database.execute("BEGIN")

    def run_ruled(self, statement: Statement) -> None:
        """Runs a statement where all tables are there, if it finds anything. A table is filled in place of made."""
        if statement.makes and not statement.query:
            return
        rows = 0
        if not self.empty.finds_nothing(statement.guards):
            text = statement.text
            if statement.makes:
                text = f"INSERT INTO {statement.name} {text[statement.query:]}"
            rows = self.database.execute(text, self.numbers).rowcount
        if rows:
            self.empty.changed(statement)

    def begin(self, file: str) -> None:
        """Has other processes find the rows of statements for which all is there after a file."""
        due = due_after(self.plan, file) if self.finders and file else []
        if self.finders and due:
            self.database.execute("COMMIT")
            begin_due(self.plan, due, [self.of_findings(), *self.tables_of(due)], self.finders, self.numbers)
            self.database.execute("BEGIN")

    def of_findings(self) -> "Given":
        """The sections and codes of the findings."""
        from viewer.database.finders import Given
        rows = self.database.execute("SELECT DISTINCT section, code FROM finding").fetchall()
        return Given("CREATE TEMP TABLE finding(section TEXT, code INTEGER)", "finding", rows)

    def tables_of(self, due: list[tuple[int, Statement]]) -> Iterator["Given"]:
        """The temporary tables that statements name, as far as they are filled."""
        from viewer.database.finders import Given
        names = names_in(due).intersection(it.name for it in self.plan.statements if it.makes == "TABLE")
        made = self.database.execute("SELECT name, sql FROM temp.sqlite_schema WHERE type = 'table'").fetchall()
        for name, making in made:
            if name in names:
                rows = self.database.execute(f"SELECT * FROM temp.{name}").fetchall()
                yield Given(making.replace("CREATE TABLE", "CREATE TEMP TABLE", 1), name, rows)

    def after(self, file: str) -> None:
        """What follows the statements of a file, and is none of them."""
        if file == "names.sql":
            names_of = Names(self.database)
            self.database.create_function("call_name", 3, names_of.call, deterministic=True)
            self.database.create_function("short_name", 1, names_of.short.get, deterministic=True)
            times = Times(self.database)
            self.database.create_function("moment", 1, lambda ts: times.clock(ts) or times.since(ts) or None)
        elif file == "rule.sql":
            for table, rows in self.plan.rows.items():
                insert(self.database, table, rows)
                self.empty.learn(table, not rows)
        elif file == "waits.sql" and self.database.execute("SELECT 1 FROM step LIMIT 1").fetchone():
            from viewer.rules import waiting
            waiting.count(self.database, int(THRESHOLDS["POOLS"]))
            self.empty.forget("waited")


def packed_tables(database: sqlite3.Connection) -> set[str]:
    """The tables that are packed, which have indexes of their own."""
    return {name for name, in database.execute("SELECT name FROM sqlite_schema WHERE sql LIKE 'CREATE VIRTUAL %'")}


# The file with the views that have the rows of tables of the module `sums`, and which tables must be packed for these.
SUMS, SUMMED = "sums.sql", {"raw_call", "raw_delivery", "raw_frame", "raw_record", "raw_send"}


def with_sums(database: sqlite3.Connection, plan: Plan) -> Plan:
    """The plan for a database: if its tables are packed, sums are tables of the module `sums`."""
    packed = packed_tables(database)
    if not SUMMED <= packed or "side_time" not in packed and database.execute("SELECT 1 FROM side_time").fetchone():
        return plan
    path = path_of(database).replace("'", "''")
    return plan._replace(statements=[
        it._replace(text=f"CREATE VIRTUAL TABLE temp.{it.name} USING sums('{path}')") if it.file == SUMS else it
        for it in plan.statements])


def due_after(plan: Plan, file: str) -> list[tuple[int, Statement]]:
    """The statements whose rows other processes may find from the end of a file on, by their numbers."""
    return [(number, it) for number, it in enumerate(plan.statements) if it.beside == file]


def words_of(text: str) -> set[str]:
    return set(re.findall(r"\w+", text))


def names_in(due: list[tuple[int, Statement]]) -> set[str]:
    return set().union(*(words_of(it.text) for _, it in due))


def views_of(plan: Plan, due: list[tuple[int, Statement]]) -> list["Given"]:
    """The temporary views that statements name."""
    from viewer.database.finders import Given
    names = names_in(due)
    return [Given(it.text, it.name, []) for it in plan.statements if it.makes == "VIEW" and it.name in names]


def numbers_of(database: sqlite3.Connection) -> dict[str, float]:
    """The values of the parameters of statements."""
    return {**named_numbers(database), **THRESHOLDS, "FIRST_LETTERS": LETTERS.start, "LAST_LETTERS": LETTERS[-1],
            "FIRST_APP": APPS.start, "LAST_APP": APPS[-1]}


def take_words(database: sqlite3.Connection, of_data: OfData) -> None:
    """Has the database know the functions that statements call from the first one on."""
    for name, ask in of_data._asdict().items():
        database.create_function(name, 2, ask)
    for name, function in WORDS.items():
        database.create_function(name, -1, functools.lru_cache(4096)(function), deterministic=True)


def judge(database: sqlite3.Connection, folder: pathlib.Path = FOLDER, timing: "Timing | None" = None,
          finders: "Finders | None" = None, of_data: OfData = NO_DATA, is_ruled: bool = False,
          is_reused: bool = False) -> None:
    """Gives each finding its verdict. In the statements `:BR_REPLY` is the number of that name, and `:LONG` a
    threshold. They make texts by the functions of WORDS, and after names.sql by `call_name(code, upid, ptr)`, the name
    of a call, and `moment(ts)`, the time of day. `short_name(interface)` is what an interface is called, and
    `bare_name(interface)` without its package, even if there is another one of that name. `hash_of(attachment, size)`
    is the number of the data of an attachment, and `exception_of` the exception with which they begin, for what is not
    in data_hash or exception yet. The schema of a database that is reused stays."""
    take_words(database, of_data)
    for statement in () if is_ruled else BY_SECTION:
        database.execute(statement)
    database.execute("BEGIN")
    Judging(database, plan_of(folder), timing, finders, is_ruled).judge()
    database.execute("COMMIT")
    for statement in () if is_reused else NO_LONGER:
        database.execute(statement)
