"""Wrong forms of the statements of the rules, played on small sessions and scenarios: which of these tells a form from
the right statement.

A case is judged once for all forms. Before a statement runs, each of its forms does, and is undone. A form that leaves
what the statement leaves can't be told there. For a form that leaves something else, which no form before it left, a
copy of this process goes on to the end with it, and looks at what comes of it. A view is looked at when all is judged,
and judged again with each form that shows something else."""

import mmap
import os
import re
import sqlite3
import struct
from typing import Callable, Mapping, NamedTuple, Sequence

from checks.viewer.wrong_rules.forms import forms_of
from viewer.rules.guards import Guard, Parts, finds_nothing, guards_of
from checks.viewer.wrong_rules.judge import Judged, Rows, changed_by, filling, query_of
from viewer.rules.sql import tokens_of

# So many hundreds of thousands of steps of SQLite's machine may a statement take: a wrong one may never end.
MOST_STEPS = 300


class Wrong(NamedTuple):
    """A wrong form of a statement: what the statement is about, what the form does, both, and the stretch of the right
    one that differs."""
    subject: str
    what: str
    right: str
    wrong: str
    start: int
    end: int

    @property
    def name(self) -> str:
        return f"{self.subject}: {self.what}"


# ---- all forms


def subject_of(statement: str) -> str:
    """What a statement is about: the rule that it gives, or else the table that it makes or changes, with the columns
    that an UPDATE sets."""
    tokens = list(tokens_of(statement))
    table = changed_by(statement)
    if not tokens[0].says("UPDATE"):
        return table
    set_at = next(at for at, token in enumerate(tokens) if token.says("SET"))
    rules = re.findall(r"'([A-Z]\d+)'", statement)
    depth, columns = 0, []
    for at, token in enumerate(tokens[set_at:], set_at):
        depth += token.says("(", "CASE") - token.says(")", "END")
        if not depth and token.says("=") and tokens[at - 1].kind == "word":
            columns.append(tokens[at - 1].text)
        elif not depth and token.says("FROM", "WHERE"):
            break
    if "rule" in columns and rules:
        return rules[0]
    return ".".join([table, *columns])


def all_forms(statements: Sequence[str], thresholds: Mapping[str, float]) -> list[Wrong]:
    """The wrong forms of all statements. The second statement about something says so."""
    found = []
    about: dict[str, int] = {}
    for statement in statements:
        forms = forms_of(statement, thresholds)
        if forms:
            subject = subject_of(statement)
            about[subject] = about.get(subject, 0) + 1
            name = f"{subject} ({about[subject]})" if about[subject] > 1 else subject
            found += [Wrong(name, form.what, statement, form.statement, form.start, form.end) for form in forms]
    return found


class Forms(NamedTuple):
    """The wrong forms of a statement, with their numbers; the table that it changes; where the query begins of which it
    makes a table; whether it makes a view that is one here; and its guards."""
    forms: Sequence[tuple[int, Wrong]]
    table: str
    query: int | None
    is_view: bool
    guards: Parts


def by_statement(forms: Sequence[Wrong]) -> dict[str, Forms]:
    """Forms with their numbers, by the statement of which they are."""
    numbered: dict[str, list[tuple[int, Wrong]]] = {}
    for number, form in enumerate(forms):
        numbered.setdefault(form.right, []).append((number, form))
    return {right: Forms(of, changed_by(right), query_of(right), is_view(right), guards_of(right))
            for right, of in numbered.items()}


def is_view(statement: str) -> bool:
    return query_of(statement) is None and "VIEW" in [token.text for token in tokens_of(statement)][:3]


# ---- what came of each


class Told:
    """Numbers that copies of the process write too, from some place of what they share. Of a form: nothing yet, that it
    is no statement, or the number of the case that tells it. Of a case: whether it was played."""
    CELL = struct.Struct("i")

    def __init__(self, shared: mmap.mmap, start: int = 0) -> None:
        self.shared, self.start = shared, start

    def __getitem__(self, number: int) -> int:
        return self.CELL.unpack_from(self.shared, self.start + number * self.CELL.size)[0]

    def __setitem__(self, number: int, what: int) -> None:
        self.CELL.pack_into(self.shared, self.start + number * self.CELL.size, what)


NOT_TOLD, NO_STATEMENT = 0, -1


class Trying(Judged):
    """A database that, when it is given a statement, first tries its wrong forms. In a copy of the process it takes one
    of them in place of the statement, and is `wrong` then."""

    def __init__(self, base: bytes, forms: Mapping[str, Forms], told: Told) -> None:
        super().__init__(base)
        self.forms, self.told = forms, told
        self.wrong: int | None = None
        self.steps = 0
        self.empty: dict[str, tuple[str, bool]] = {}
        self.database.set_progress_handler(self.step, 100_000)

    def step(self) -> bool:
        self.steps += 1
        return self.steps > MOST_STEPS

    def play(self, case: int, rows: Rows, is_told: Callable[[Judged], bool]) -> None:
        """Plays the forms on a case, which is judged by the right statements then. `is_told` says whether something
        else came of it than what is due."""
        try:
            self.judge(rows)
            if self.wrong is None:
                self.play_views(rows)
            tells = self.wrong is not None and is_told(self)
        except Exception:  # such as a finding without a rule, of which no text can be made
            if self.wrong is None:
                raise
            tells = True
        except BaseException:
            if self.wrong is not None:
                os._exit(1)
            raise
        if self.wrong is not None:
            if tells:
                self.told[self.wrong] = case
            os._exit(0)

    def judge(self, rows: Rows) -> None:
        self.empty = {}
        super().judge(rows)

    def play_views(self, rows: Rows) -> None:
        """In a copy of the process a wrong view is put in place of the right one, and all is judged again."""
        for right, of in self.forms.items():
            for number, form in of.forms if of.is_view else ():
                if self.told[number] == NOT_TOLD and self.shown(form.wrong) != self.shown(right):
                    if self.is_statement(number, form, ()) and self.copied(number):
                        self.database.execute(f"DROP VIEW {of.table}")
                        self.database.execute(form.wrong)
                        self.judge(rows)
                        return

    def shown(self, view: str) -> object:
        """What a view shows, by the query in its statement."""
        tokens = list(tokens_of(view))
        query = next(other.start for one, other in zip(tokens, tokens[1:]) if one.says("AS"))
        return self.left(lambda: self.database.execute(view[query:]).fetchall())

    # -- a statement

    def again(self, statement: str, values: tuple) -> sqlite3.Cursor:
        self.steps = 0
        of = self.forms.get(statement)
        if self.wrong is None and of is not None and not of.is_view:
            forms = [(number, form) for number, form in of.forms
                     if self.told[number] == NOT_TOLD and not self.does_nothing(of, form)]
            due = self.left_by(statement, of, values) if forms else None
            first: dict[str, int] = {}  # of the forms that leave the same
            for number, form in forms:
                left = self.left_by(form.wrong, of, values)
                if left == due or not self.is_statement(number, form, values):
                    continue
                like = first.setdefault(repr(left), number)
                if like != number:
                    self.told[number] = self.told[like]
                elif self.copied(number):
                    return super().again(form.wrong, values)
        self.forget(changed_by(statement))
        return super().again(statement, values)

    def copied(self, number: int) -> bool:
        """Makes a copy of the process, which has a form, and waits for it. Returns whether this is the copy."""
        child = os.fork()
        if child:
            os.waitpid(child, 0)
        else:
            self.wrong, self.steps = number, 0
        return not child

    def left_by(self, statement: str, of: Forms, values: tuple) -> object:
        """What the table has after a statement, which is undone; or what a query finds of which it makes a table."""
        if of.query is not None:
            return self.left(lambda: self.database.execute(statement[of.query:], *values).fetchall())
        self.database.execute("SAVEPOINT before")
        try:
            return self.left(lambda: (self.database.execute(statement, *values),
                                      self.database.execute(f"SELECT * FROM {of.table}").fetchall())[1])
        finally:
            self.database.execute("ROLLBACK TO before")
            self.database.execute("RELEASE before")

    def left(self, run: Callable[[], object]) -> object:
        self.steps = 0
        try:
            return run()
        except sqlite3.Error as error:
            return str(error)

    def is_statement(self, number: int, form: Wrong, values: tuple) -> bool:
        try:
            self.database.execute(f"EXPLAIN {filling(form.wrong)}", *values)
        except sqlite3.Error:
            self.told[number] = NO_STATEMENT
        return self.told[number] == NOT_TOLD

    # -- guards

    def does_nothing(self, of: Forms, form: Wrong) -> bool:
        """Whether neither the statement nor a form of it finds a row."""
        return finds_nothing(of.guards, lambda guard: guard.is_left_by(form.start, form.end) and self.is_empty(guard))

    def is_empty(self, guard: Guard) -> bool:
        """Whether a guard has no rows, which is asked again after its table was changed."""
        if guard.query not in self.empty:
            self.empty[guard.query] = guard.table, self.database.execute(guard.query).fetchone() is None
        return self.empty[guard.query][1]

    def forget(self, table: str) -> None:
        self.empty = {query: of for query, of in self.empty.items() if of[0] != table}

    def executemany(self, statement: str, values: object) -> sqlite3.Cursor:
        self.empty = {}
        return self.database.executemany(statement, values)  # type: ignore[arg-type]
