"""The two sides of a comparison: the captures of the old builds and of the new one, and which defects they have."""

import functools
import json
import pathlib
import sqlite3
from collections.abc import Iterator
from typing import NamedTuple

from lab import chance
from lab.renamed import WORD, Renamed, Text
from lab.result import OF_PART
from lab.store import lacks_basis
from viewer.files import Stopped
from viewer.units import counted

FOLDER = pathlib.Path(__file__).resolve().parent


class Build(NamedTuple):
    """What there is of a build. Malformed captures, and those that could not be viewed, do not count."""
    name: str
    captures: int
    devices: int
    malformed: int
    failed: int
    lossy: int
    cut: int

    def __str__(self) -> str:
        return (f"{self.name}: {counted(self.captures, 'capture')} of {counted(self.devices, 'device')}, {self.lossy}"
                f" with lost frames; plus {self.malformed} malformed, {self.failed} failed"
                + (f"; {counted(self.cut, 'result')} with rows left out" if self.cut else ""))


class Capture(NamedTuple):
    """A capture that counts: whose it is, how long, in seconds, and whether it has only a part of a system."""
    device: str
    is_new: bool
    seconds: float | None
    has_side: bool
    is_of_part: bool


class Found(NamedTuple):
    """A defect in a capture, more than explained."""
    capture: int
    n: int
    is_real: bool


class Seen(NamedTuple):
    """What the captures of one side have of a defect: how many of them, and how many as `real`; on how many devices;
    how many findings, by the numbers of the captures."""
    captures: int
    real: int
    devices: int
    real_devices: int
    n: dict[int, int]


def joined(some: list[Found], others: list[Found]) -> list[Found]:
    """What is found of one defect by two names."""
    by_capture = {one.capture: one for one in some}
    for other in others:
        one = by_capture.get(other.capture)
        by_capture[other.capture] = other if one is None else Found(
            other.capture, one.n + other.n, one.is_real or other.is_real)
    return [*by_capture.values()]


def build_of(lab: sqlite3.Connection, name: str) -> Build:
    """A build of the lab."""
    counts = lab.execute(
        "SELECT sum(usable), count(DISTINCT iif(usable, device, NULL)), sum(malformed NOTNULL), sum(failed NOTNULL),"
        " sum(usable AND (coalesce(lost, 0) <> 0 OR coalesce(missing, 0) <> 0)), sum(usable AND left_out > 0)"
        " FROM (SELECT *, malformed IS NULL AND failed IS NULL AS usable FROM capture WHERE build = ?)",
        (name,)).fetchone()
    if not counts[0]:
        raise Stopped(1, f"the lab has no capture of build {name} that can be compared")
    return Build(name, *counts)


def refuse_mix(lab: sqlite3.Connection, builds: list[str]) -> None:
    """Keys of two designs, and keys with and without the names of methods, are not compared."""
    usable = f"build IN ({', '.join('?' * len(builds))}) AND malformed IS NULL AND failed IS NULL"
    for column, what in (("prints", "keys of several designs"), ("methods > 0", "tables of methods for some captures")):
        mixed = lab.execute(f"SELECT count(DISTINCT {column}) FROM capture WHERE {usable}", builds).fetchone()[0]
        if mixed > 1:
            raise Stopped(1, f"builds {' and '.join(builds)} have {what}, and those of the others differ: make their"
                             " results anew, all alike")


def versions_of(lab: sqlite3.Connection, builds: list[str]) -> list[str]:
    """The versions that made the results of these builds, if they rest on several programs or rules. A version that
    only shows or compares results otherwise is none."""
    what = "version" if lacks_basis(lab) else "coalesce(basis, version)"
    rows = lab.execute(f"SELECT DISTINCT {what}, version FROM capture WHERE build IN ({', '.join('?' * len(builds))})",
                       builds).fetchall()
    versions = {version or "unknown" for _, version in rows}
    return sorted(versions) if len({basis for basis, _ in rows}) > 1 else []


class Sides:
    """The captures of both sides, the old ones first, and what they have."""

    def __init__(self, lab: sqlite3.Connection, old: list[str], new: str, renamed: Renamed):
        self.lab, self.renamed = lab, renamed
        self.names: dict[str, object] = {"old": json.dumps(old), "new": new}
        self.captures = {number: Capture(*row) for number, *row in self.rows("captures.sql", of_part=OF_PART)}
        self.place = {number: at for at, number in enumerate(self.captures)}
        self.new = sum(capture.is_new for capture in self.captures.values())
        self.refuse_side_lists_of_one()
        self.old = len(self.captures) - self.new
        # Without times each capture counts as long as another one, and no rate is told.
        self.timed = all(capture.seconds for capture in self.captures.values())
        self.has_times = bool(lab.execute("SELECT 1 FROM sqlite_schema WHERE name = 'took'").fetchone())
        seconds = [max(1, round(one.seconds or 0)) if self.timed else 1 for one in self.captures.values()]
        self.seconds_old, self.seconds_new = sum(seconds[:self.old]), sum(seconds[self.old:])
        self.orders = chance.Orders(seconds, self.new)
        # The keys of defects that are one by the newest names, if they are several.
        self.keys: dict[str, list[str]] = {}
        self.found = self.all_found()
        self.met = {renamed.text(who) for who, in self.rows("met.sql") if who is not None}

    def refuse_side_lists_of_one(self) -> None:
        """Without times and names, defects have other keys and verdicts."""
        having = {is_new: any(one.has_side for one in self.captures.values() if one.is_new == is_new)
                  for is_new in (False, True)}
        if having[False] != having[True]:
            raise Stopped(1, f"only captures of the {'new' if having[True] else 'old'} side have side lists: keys and"
                             " verdicts differ without them")

    def rows(self, query: str, **more: object) -> Iterator[tuple]:
        text = (FOLDER / "compared" / query).read_text("utf-8")
        return self.lab.execute(text, {**self.names, **more})  # type: ignore[return-value]

    def all_found(self) -> dict[tuple[str, Text], list[Found]]:
        """What each defect is found in, by its key and its texts."""
        found: dict[bytes, list[Found]] = {}
        for key, *one in self.rows("found.sql"):
            found.setdefault(key, []).append(Found(*one))
        of: dict[tuple[str, Text], list[Found]] = {}
        for bytes_, key, *texts in self.lab.execute(
                "SELECT CAST(id AS BLOB), id, kind, who, path, call FROM defect ORDER BY id"):
            defect = self.renamed.defect(key, Text(*texts))
            if defect[0] != key:
                self.keys.setdefault(defect[0], []).append(key)
            if bytes_ in found:
                of[defect] = joined(of[defect], found[bytes_]) if defect in of else found[bytes_]
        return of

    def all_keys(self, key: str) -> list[str]:
        """The keys of a defect, by all its names."""
        return [key, *self.keys.get(key, ())]

    def seen(self, found: list[Found], is_new: bool) -> Seen:
        """What one side has of a defect that is found in these captures."""
        captures = self.captures
        own = [one for one in found if captures[one.capture].is_new == is_new]
        real = [one for one in own if one.is_real]
        devices, real_devices = ({captures[one.capture].device for one in some} for some in (own, real))
        return Seen(len(own), len(real), len(devices), len(real_devices), {one.capture: one.n for one in own})

    def rate(self, seen: Seen, is_new: bool) -> chance.Interval | None:
        """Findings an hour of one side."""
        return self.recorded[is_new].rate(seen.n) if self.timed else None

    @functools.cached_property
    def recorded(self) -> dict[bool, chance.Recorded]:
        """How long the captures of each side are."""
        return {is_new: chance.Recorded({number: one.seconds or 0 for number, one in self.captures.items()
                                         if one.is_new == is_new}) for is_new in (False, True)}

    @functools.cached_property
    def called(self) -> set[tuple[str, str]]:
        """Who makes or gets which of the calls of the defects in the new build."""
        names = {text.call for _, text in self.found if text.call is not None}
        if self.keys:  # the new build may have them by earlier names
            names |= {call for call, in self.lab.execute("SELECT DISTINCT call FROM defect WHERE call NOTNULL")}
        rows, renamed = self.rows("called.sql", calls=json.dumps(sorted(names))), self.renamed.text
        return {(renamed(who), renamed(call)) for *both, call in rows for who in both if who is not None}

    def words_of(self, is_new: bool) -> set[str]:
        """The words in the names of processes and calls of one side, and what they end in before each dot."""
        texts = {text for row in self.rows("names.sql", is_new=is_new) for text in row if text is not None}
        words = {word for text in texts for word in WORD.findall(self.renamed.text(text))}
        return words | {word[:at] for word in words for at, sign in enumerate(word) if sign == "."}

    def could_come(self, who: str, call: str | None) -> bool:
        """Whether the new build could have a defect: its process is there, and makes or gets the call."""
        return who in self.met and (call is None or (who, call) in self.called)
