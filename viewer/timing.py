"""How long what `./view` does takes, for `--timing`."""

import contextlib
import time
from typing import Iterator

# Statements that took less than this share of all are not listed.
LEAST_SHARE = 0.01

# How much of a statement a line has.
LONGEST_TEXT = 80


def text_of(statement: str) -> str:
    """What a statement begins with, without comments, on one line."""
    lines = (line.partition("--")[0] for line in statement.splitlines())
    return " ".join(" ".join(lines).split())[:LONGEST_TEXT]


def line_of(seconds: float, what: str) -> str:
    return f"{seconds:7.3f} s  {what}"


class Timing:
    """Measures phases, one after another, and statements of SQL, by the clock."""

    def __init__(self) -> None:
        self.began = time.perf_counter()
        self.phases: list[tuple[str, float]] = []
        self.statements: list[tuple[float, str]] = []

    def phase(self, what: str) -> None:
        """From now on it does this."""
        self.phases.append((what, time.perf_counter()))

    @contextlib.contextmanager
    def statement(self, file: str, statement: str) -> Iterator[None]:
        began = time.perf_counter()
        yield
        self.statements.append((time.perf_counter() - began, f"{file}: {text_of(statement)}"))

    def lines(self) -> Iterator[str]:
        """Seconds and what took them: phases in their order, then all, then the longest statements."""
        ended = time.perf_counter()
        ends = [began for _, began in self.phases[1:]] + [ended]
        for (what, began), end in zip(self.phases, ends):
            yield line_of(end - began, what)
        yield line_of(ended - self.began, "all")
        for seconds, what in sorted(self.statements, reverse=True):
            if seconds >= LEAST_SHARE * (ended - self.began):
                yield line_of(seconds, what)
