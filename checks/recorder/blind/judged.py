"""What `./view` says of a recorded session, beside what is expected of it."""

import pathlib
import re
from typing import Iterator, NamedTuple

from checks.recorder.blind.expected import Expected, Line
from viewer.database import loading
from viewer.files import Stopped
from viewer.page.group_lines import group_lines


class Session(NamedTuple):
    """A recorded session: its folder, and what `./view` says of it."""
    folder: pathlib.Path
    lines: list[Line]
    facts: dict[str, object]
    differences: list[str]
    failure: str | None = None  # why `./view` says nothing

    @property
    def told(self) -> list[Line]:
        return [line for line in self.lines if line.verdict in ("real", "maybe")]

    @property
    def lost(self) -> int | None:
        """How many frames were lost, and events missed. None if the recording came to no end."""
        side = (self.folder / "capture.side").read_text("utf-8", errors="surrogateescape")
        ends = re.findall(r"^\d+ end recording .* lost=(\d+)$", side, re.M)
        missed = re.findall(r"^\d+ missed (\d+) ", side, re.M)
        return sum(map(int, ends + missed)) if ends else None


def viewed(folder: pathlib.Path, to: pathlib.Path, programs: pathlib.Path, kept: bool) -> Session:
    """Makes the database of a session in the folder `to`, as `./view` does, by the programs of another folder. If it
    is not kept, a part of it is in files beside it, as with `./view --groups`, which takes less time."""
    captures = sorted(folder.glob("capture-*.cap"), key=lambda path: int(path.stem.split("-")[1]))
    made, side = to / f"{folder.name}.db", str(folder / "capture.side")
    try:
        database, malformed = loading.database_of(programs, list(map(str, captures)), side, made, lambda _: None,
                                                  kept=kept)
    except Stopped as stopped:
        return Session(folder, [], {}, [], str(stopped))
    if malformed:
        return Session(folder, [], {}, [], malformed)
    lines = [Line(line) for line in group_lines(database)]
    facts = dict(database.execute("SELECT key, value FROM capture"))
    differences = [" ".join(map(str, found)) for found in database.execute(
        "SELECT p.name, d.section, d.what, d.report, d.books FROM disagreement d JOIN process p USING (upid)"
        " ORDER BY d.id")]
    database.close()
    return Session(folder, lines, facts, differences)


class Judged:
    """What comes of a session, beside what is expected of it."""

    def __init__(self, session: Session, expected: Expected):
        self.session, self.expected = session, expected
        self.parts = [(expected.part_of(line), line) for line in session.told]
        self.fault = self.of("fault")
        self.found = next((verdict for verdict in ("real", "maybe") if any(
            line.verdict == verdict for line in self.fault)), None)
        first = self.parts[0] if self.parts else (None, None)
        self.named = first[0] in ("fault", "more") and any(rule.names_in(first[1]) for rule in expected.faults)
        self.as_process = self.named and any(
            first[1].processes & set(rule.who) for rule in expected.faults)
        self.has_all_names = all(
            {name for line in self.fault for name in line.names_of(rule.who)} == set(rule.who)
            for rule in expected.faults)
        self.has_method = bool(self.fault) and all(
            any(line.has(pattern) for line in self.fault) for rule in expected.faults for pattern in rule.method)
        self.unspared = {name for line in self.fault for name in line.processes & expected.spared}

    @property
    def is_healthy(self) -> bool:
        return not self.expected.faults

    def of(self, part: str, *verdicts: str) -> list[Line]:
        return [line for of, line in self.parts if of == part and line.verdict in (verdicts or ("real", "maybe"))]

    def told(self) -> Iterator[str]:
        """Each line that is `real` or `maybe`, the first one first: what it is, its kind, rules and processes."""
        for part, line in self.parts:
            yield f"{line.verdict} {part}: {in_short(line)}"

    def complaints(self) -> Iterator[str]:
        """What is not as expected."""
        if self.session.failure:
            yield self.session.failure
        if not self.is_healthy:
            yield from self.complaints_of_fault()
        if count := len(self.of("wrong")):
            yield f"lines that are wrong: {count}"
        for difference in self.session.differences:
            yield f"the driver's books: {difference}"
        if self.session.lost != 0:
            yield f"frames lost: {self.session.lost}"

    def complaints_of_fault(self) -> Iterator[str]:
        if not self.found:
            yield "the fault was missed"
            yield from (f"told as explained: {in_short(line)}" for line in self.session.lines
                        if line.verdict == "explained" and self.expected.part_of(line) == "fault")
        elif not self.has_all_names:
            yield "not all are named"
        if not self.named:
            yield "the first line does not name the culprit"
        if self.found and not self.has_method:
            yield "the method is not named"
        if self.unspared:
            yield f"also blamed: {' '.join(sorted(self.unspared))}"


def in_short(line: Line) -> str:
    return " / ".join((line.kind, line.rules, ",".join(sorted(line.processes))))


def lenient(judged: list[Judged]) -> Iterator[str]:
    """Faults that are found in the lines of another session, and lines of faults that a healthy session may have: so
    the expectations themselves are judged."""
    for one in judged:
        for other in judged:
            if one.expected.faults and one is not other and Judged(other.session, one.expected).found:
                yield f"the fault of {one.expected.name} is found in {other.expected.name}"
            if one.is_healthy and other.fault and not Judged(other.session, one.expected).of("wrong"):
                yield f"nothing is wrong in {one.expected.name} with the lines of {other.expected.name}"
