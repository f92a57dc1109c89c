"""Wrong forms of the rules on many cases, side by side, and what is to be said of those that nothing tells."""

import functools
import hashlib
import mmap
import os
import pathlib
import subprocess
from concurrent.futures import ProcessPoolExecutor
from typing import Callable, Iterator, Mapping, NamedTuple, Sequence

from checks.viewer.wrong_rules import changed, untold
from checks.viewer.wrong_rules.judge import Judged, Rows
from checks.viewer.wrong_rules.play import NO_STATEMENT, NOT_TOLD, Forms, Told, Trying, Wrong, by_statement

# So many forms are played of what a change touches: some seconds of the processor.
MOST_FORMS = 60


class Cases(NamedTuple):
    """Cases: their names, the rows of each before it is judged, and what is wrong with one that was judged."""
    names: Sequence[str]
    rows: Sequence[Rows]
    faults: Callable[[int, Judged], list[str]]


class Tried(NamedTuple):
    """Wrong forms, what came of each, and which cases were played."""
    forms: Sequence[Wrong]
    told: Told
    played: Told

    def untold(self) -> list[int]:
        return [number for number in range(len(self.forms)) if self.told[number] == NOT_TOLD]

    def are_statements(self) -> int:
        return sum(self.told[number] != NO_STATEMENT for number in range(len(self.forms)))


def tried(forms: Sequence[Wrong], cases: Cases, file: pathlib.Path | None = None) -> Tried:
    """Forms of which nothing was found yet; or with a file, what an earlier run wrote there of the same forms and
    cases."""
    about = digest_of(forms, cases)
    empty = about + bytes((len(forms) + len(cases.names)) * Told.CELL.size)
    if file is None:
        shared = mmap.mmap(-1, len(empty))
    else:
        if not file.exists() or not file.read_bytes().startswith(about):
            file.write_bytes(empty)
        with file.open("r+b") as opened:
            shared = mmap.mmap(opened.fileno(), 0)
    return Tried(forms, Told(shared, len(about)), Told(shared, len(about) + len(forms) * Told.CELL.size))


def digest_of(forms: Sequence[Wrong], cases: Cases) -> bytes:
    digest = hashlib.blake2s()
    for part in (*(form.name for form in forms), *(form.wrong for form in forms), *cases.names, *cases.rows):
        digest.update(part if isinstance(part, bytes) else part.encode())
    return digest.digest()


class Work(NamedTuple):
    """What the processes have that play, as copies of the one that began them. `base` is a database of any case."""
    base: bytes
    cases: Cases
    which: Tried
    forms: Mapping[str, Forms]


AT_WORK: list[Work] = []


@functools.cache
def at_work() -> Trying:
    """The database of a process."""
    return Trying(AT_WORK[-1].base, AT_WORK[-1].forms, AT_WORK[-1].which.told)


def play_at(number: int) -> list[str]:
    """Plays a case, and returns what is wrong with it by the right rules."""
    work, database = AT_WORK[-1], at_work()
    database.play(number + 1, work.cases.rows[number], lambda judged: bool(work.cases.faults(number, judged)))
    faults = work.cases.faults(number, database)
    work.which.played[number] = not faults
    return faults


def play_all(base: bytes, cases: Cases, which: Tried) -> Iterator[str]:
    """Plays forms on all cases that were not played yet. Returns what is wrong with these by the right rules."""
    AT_WORK.append(Work(base, cases, which, by_statement(which.forms)))
    left = [number for number in range(len(cases.rows)) if not which.played[number]]
    with ProcessPoolExecutor(os.cpu_count()) as pool:
        for number, faults in zip(left, pool.map(play_at, left, chunksize=4)):
            yield from (f"{cases.names[number]}: {fault}" for fault in faults)


# ---- of a change


def forms_of_change(statements: Sequence[str], thresholds: Mapping[str, float]) -> tuple[list[Wrong], str]:
    """Forms that a change of the rules brings, not more than MOST_FORMS, and a line that says how many there are; no
    line if it brings none."""
    try:
        commit = changed.base()
        forms = changed.brought(statements, thresholds, commit) if changed.is_changed(commit) else []
    except (OSError, subprocess.CalledProcessError):
        return [], "wrong rules: git does not say what a change touches, so none was played"
    step = max(1, -(-len(forms) // MOST_FORMS))
    left = len(forms) - len(forms[::step])
    return forms[::step], (f"wrong rules: the change since {commit} brings {len(forms)} wrong forms"
                           + f", of which {left} were left out: checks/run rules -- --wrong plays all" * (left > 0)
                           ) * bool(forms)


def unexplained(which: Tried) -> Iterator[str]:
    """Forms that nothing tells, and of which nothing says why."""
    reasons = untold.stored()
    for number in which.untold():
        if reasons.why(which.forms[number].name) is None:
            yield f"{which.forms[number].name}: nothing tells it from the right rule, and untold.txt does not say why"


# ---- of all rules


def said_of(forms: Sequence[Wrong], by_sessions: Tried, by_scenarios: Tried, scenarios: Cases, whole: bool
            ) -> Iterator[str]:
    """Prints how many forms there are and what came of them, and returns what is wrong: forms that nothing tells, of
    which untold.txt says nothing, or no reason yet, or that another scenario tells; and of all forms also lines of
    untold.txt for forms that are told, or are none."""
    reasons, open_ones, explained = untold.stored(), 0, 0
    for number, form in enumerate(by_scenarios.forms):
        case, why = by_scenarios.told[number], reasons.why(form.name)
        teller = scenarios.names[case - 1] if case > NOT_TOLD else None
        named = why.removeprefix(untold.SCENARIO) if why and why.startswith(untold.SCENARIO) else None
        explained += why is not None and why != untold.OPEN
        open_ones += why == untold.OPEN
        if teller is not None and named is None:
            yield f"{form.name}: no session tells it, and the {untold.SCENARIO}{teller} does: untold.txt must say so"
        elif teller is None and named is not None:
            yield f"{form.name}: {untold.SCENARIO}{named} does not tell it"
        elif why is None or why == untold.OPEN:
            yield f"{form.name}: nothing tells it" + (", and untold.txt has no reason yet" if why else "")
    rest = [form.name for form in by_scenarios.forms]
    yield from (f"untold.txt: {line}: a session tells it, or it is no form" for line in reasons.idle(rest) if whole)
    print(f"{len(forms)} wrong forms; {len(forms) - by_sessions.are_statements()} are no statements;"
          f" {by_sessions.are_statements() - len(rest)} are told by sessions,"
          f" {len(rest) - len(by_scenarios.untold())} by scenarios alone; of {len(rest)} that no session tells"
          f" {explained} are explained, {open_ones} are open")
