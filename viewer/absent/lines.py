"""What `--absent` prints: whether a call was made, and on what that rests."""

import sqlite3
from typing import Iterator

from viewer.absent.asked_of import Opening, Span
from viewer.absent.called import Meant
from viewer.absent.conditions import Question
from viewer.terminal import shown
from viewer.units import counted


class Told:
    """The lines of a question."""

    def __init__(self, database: sqlite3.Connection, meant: Meant, openings: list[Opening] | None, span: Span):
        self.question = Question(database, meant, openings, span)

    @property
    def time(self) -> str:
        """From when to when."""
        begin, end = (asked if asked is not None else known for asked, known in
                      zip(self.question.span.asked, self.question.recorded))
        if begin is None or end is None:
            return "in the capture"
        return f"from {self.question.times.both(begin)} to {self.question.times.both(end)}"

    def at(self, place: int, seq: int) -> str:
        row = self.question.database.execute("SELECT ts FROM side_time WHERE seq = ?", (seq,)).fetchone()
        return f"place {place}" + (f", {self.question.times.both(row[0])}" if row else "")

    def head(self) -> str:
        question = self.question
        word, who = question.meant.word, question.who
        if made := question.made:
            n = counted(len(made), "call")
            other = "no other one is missing" if not question.failed else "others may be missing"
            return (f"made: {n} of {word} by {who} {self.time}, and {other}; the first at"
                    f" {self.at(made[0].place, made[0].seq)}")
        if question.failed:
            return f"not known: whether {who} called {word} {self.time}"
        return f"absent: {who} did not call {word} {self.time}"

    def lines(self) -> Iterator[str]:
        yield shown(self.head()) + "\n"
        for one in sorted(self.question.conditions, key=lambda one: one.holds):
            yield shown(f"  {'holds' if one.holds else 'FAILS'}  {one.rests_on:9}  {one.text}") + "\n"


def lines_of(database: sqlite3.Connection, meant: Meant, openings: list[Opening] | None, span: Span) -> Iterator[str]:
    return Told(database, meant, openings, span).lines()
