"""What `./view` says of the defects of a capture: how they changed since another one, and whether a gate may pass."""

import sqlite3
from typing import Iterator, NamedTuple

from viewer.defects.changes import GONE, GROWN, NEW, WORSE, Comparison
from viewer.defects.first_seen import first_seen
from viewer.defects.known_keys import known_in, unseen_lines
from viewer.defects.seen import RANKS, Defect, defects_of, facts_of, seen_in
from viewer.malformed import Fault


class Shown(NamedTuple):
    """What the page shows: marks of defects by their keys, the defects that are gone, and of each key in which of both
    captures its defect was first seen."""
    marks: dict[str, list[str]]
    gone: list[Defect]
    seen: dict[str, str]


class Gate:
    """What is asked: the database of another capture, the weakest verdict that fails, and the file of what is known.
    Each may be missing. Files that can't be read stop it at once."""

    def __init__(self, against: str | None, fail_on: str | None, known: str | None):
        self.against, self.fail_on = against, fail_on
        self.old = None if against is None else seen_in(against)
        self.known = {} if known is None else known_in(known)
        self.comparison: Comparison | None = None
        self.now: dict[str, Defect] = {}
        self.part: object = None

    def look(self, database: sqlite3.Connection) -> None:
        """Looks at the database of the capture."""
        self.part = facts_of(database).get("narrowed")
        if self.old is not None:
            self.comparison = Comparison(database, self.old, str(self.against))
            self.now = self.comparison.now
        elif self.fail_on:
            self.now = defects_of(database)

    def doubt(self) -> str | None:
        """Why what is new may not be new; None if nothing is known against it."""
        if not self.old:
            return None
        malformed, parts = self.old.facts["malformed"], (self.old.facts.get("narrowed"), self.part)
        if parts[0] != parts[1]:
            had, has = (f"a part ({part})" if part else "the whole system" for part in parts)
            return f"{self.against} is of {had}, and the capture of {has}: keys and verdicts may differ"
        return f"{self.against} has only what comes before a fault: {malformed}" if malformed else None

    def lines(self, fault: Fault | None) -> Iterator[str]:
        """What is printed of a capture with this first fault."""
        if self.comparison:
            yield from self.comparison.lines(fault)
        yield from unseen_lines(self.known, set(self.now))

    def failed(self) -> list[str]:
        """The keys of the defects that fail."""
        if self.fail_on is None:
            return []
        looked = [change.defect for change in self.comparison.of(NEW, WORSE)] if self.comparison else self.now.values()
        return [it.key for it in looked if it.rank <= RANKS[self.fail_on] and it.key not in self.known]

    def shown(self) -> Shown:
        changes = self.comparison.of(NEW, WORSE, GROWN) if self.comparison else []
        marks = {change.defect.key: [change.what] for change in changes}
        for key in self.known:
            marks.setdefault(key, []).append("known")
        return Shown(marks, [change.defect for change in self.comparison.of(GONE)] if self.comparison else [],
                     dict(first_seen(self.comparison, str(self.against)) if self.comparison else ()))
