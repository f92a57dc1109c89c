"""The groups in columns, for a person at a terminal."""

import pathlib
import sqlite3
import textwrap
import unicodedata
from typing import Iterable, Iterator, NamedTuple

from viewer.clocks import Times
from viewer.page.groups_within import groups_within
from viewer.page.why_kept import kept_of
from viewer.terminal import shown
from viewer.units import counted
from viewer.window import Window

QUERIES = pathlib.Path(__file__).resolve().parent / "queries"
TIMES, WHO = ((QUERIES / f"group_{name}.sql").read_text("utf-8") for name in ("times", "who"))

# What nobody looks at first.
OTHERS = ("explained", "normal")

# The most characters of a cell, and the fewest of a line of text.
CELL, LEAST = 36, 40


class Group(NamedTuple):
    """A group: the cells of its line, and the texts below that."""
    cells: list[str]
    texts: list[str]


def width_of(text: str) -> int:
    """How many columns a text takes: some letters take two, and marks on a letter none."""
    return sum(0 if unicodedata.combining(one) else 2 if unicodedata.east_asian_width(one) in "WF" else 1
               for one in text)


def padded(text: str, width: int) -> str:
    return text + " " * (width - width_of(text))


def few(names: list[str]) -> str:
    """Some names, as many as a cell has room for."""
    for count in range(len(names), 1, -1):
        left = f" and {len(names) - count} more" if count < len(names) else ""
        if width_of(told := ", ".join(names[:count]) + left) <= CELL:
            return told
    return names[0] + (f" and {len(names) - 1} more" if len(names) > 1 else "") if names else ""


class Table:
    """The groups of a capture that are shown."""

    def __init__(self, database: sqlite3.Connection, window: Window | None):
        self.database, self.times = database, Times(database)
        self.groups = set(groups_within(database, window))
        self.who = dict(database.execute("SELECT upid, who FROM who"))
        self.rules = {id: (text, following) for id, text, following in
                      database.execute("SELECT id, text, next FROM rule")}

    def heads(self) -> list[str]:
        return ["verdict", "n", "what", "who"] + (["at"] if self.times.first is not None else []) + (
            [self.times.zone] if self.times.zone else [])

    def why(self, rules: list[str], note: str | None) -> Iterator[str]:
        """The sentences of the rules, the note, and where to look next."""
        yield " ".join(f"{self.rules[rule][0]} ({rule})" for rule in rules)
        if note:
            yield note
        if following := self.rules[rules[0]][1]:
            yield f"Look at {following}."

    def group(self, number: int, verdict: str, title: str, path: str, n: int, n_all: int | None, rules: str,
              note: str | None) -> Group:
        first, _ = self.database.execute(TIMES, (number,)).fetchone()
        who = [self.who[upid] for upid, in self.database.execute(WHO, (number,))]
        when = [self.times.since(first)] if self.times.first is not None else []
        when += [self.times.clock(first)] if self.times.zone else []
        often = f"{n:,}" if n_all is None else f"{n:,} of {n_all:,}"
        texts = filter(None, (path, *self.why(rules.split(","), note)))
        return Group(list(map(shown, (verdict, often, title, few(who), *when))), list(map(shown, texts)))

    def of(self, verdicts: Iterable[str]) -> list[Group]:
        """The groups of some verdicts, in their order."""
        rows = self.database.execute("SELECT grp, verdict, title, path, n, n_all, rules, note FROM finding_group"
                                     " ORDER BY nth").fetchall()
        return [self.group(*row) for row in rows if row[0] in self.groups and row[1] in verdicts]


def in_columns(heads: list[str], groups: list[Group], width: int) -> Iterator[str]:
    """The lines of a table that is so wide, if it can be."""
    widths = [max(width_of(row[at]) for row in (heads, *(group.cells for group in groups))) for at in range(len(heads))]
    indent = " " * (sum(widths[:2]) + 4)
    room = max(width - len(indent), LEAST)
    for row, texts in (Group(heads, []), *groups):
        yield "  ".join(map(padded, row, widths)).rstrip() + "\n"
        for text in texts:
            for line in textwrap.wrap(text, room, break_long_words=False, break_on_hyphens=False):
                yield f"{indent}{line}\n"


def table_of(database: sqlite3.Connection, window: Window | None, is_all: bool, width: int) -> Iterator[str]:
    """What --groups prints at a terminal: the groups that are real or maybe, or all."""
    table = Table(database, window)
    found = table.of(("real", "maybe"))
    others = table.of(OTHERS)
    if kept := kept_of(database, table.groups):
        yield f"{shown(kept.text)}\n"
    if not found:
        yield "No group is real or maybe. This does not show that nothing is wrong.\n"
    if found or is_all and others:
        yield from in_columns(table.heads(), found + (others if is_all else []), width)
    if others and not is_all:
        yield f"{counted(len(others), 'group')} explained or normal: --all shows them.\n"
