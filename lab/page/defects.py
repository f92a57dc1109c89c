"""The defects of a lab on its page: in which share of the captures of each build each one is, and what became of it."""

import functools
import pathlib
import sqlite3
from collections.abc import Iterator
from typing import NamedTuple

from lab import chance
from lab.shown_by import Commands, commands_of
from lab.compare import BACK, SHOWN, TIMED, TOLD, Comparison, Enough
from lab.doubts import doubts
from lab.first_seen import FIRST
from lab.known_until import Known
from lab.order import wrong_clocks
from lab.page.builds import Build, builds_of, captures_of
from lab.page.methods import series_of
from lab.renamed import Renamed, Text
from viewer.defects.changes import GONE, GROWN, NEW, WORSE
from viewer.files import Stopped
from viewer.terminal import shown

# How many builds before each one it is compared with; how many builds a picture shows; and how many captures are named
# of the newest build that has a defect.
BEFORE, PICTURED, NAMED = 2, 24, 4

# A defect that no build has in a larger share of its captures is rare, if nothing is told of it.
RARE = 0.1

FOUND = """
SELECT d.id, d.kind, d.who, d.path, d.call, f.capture, f.verdict = 'real', f.n, f.place, f.path
FROM found f JOIN defect d ON d.id = f.defect JOIN capture c ON c.id = f.capture
WHERE f.verdict <> 'explained' AND c.malformed IS NULL AND c.failed IS NULL
ORDER BY d.kind, d.who, d.path, f.verdict = 'real' DESC, f.n DESC, c.device, c.file"""


class Found(NamedTuple):
    """A defect in a capture: whether it is `real` there, how many findings it has, and the place of the first one."""
    capture: int
    is_real: bool
    n: int
    place: int | None
    path: str | None


class Named(NamedTuple):
    """A capture that has a defect, as the page names it."""
    device: str
    session: str
    verdict: str
    n: int
    place: int | None
    path: str | None


class Cell(NamedTuple):
    """A defect in a build. `what` became of it there since the builds before, and by which p."""
    build: str
    date: str | None
    having: int
    captures: int
    share: chance.Interval
    devices: int
    rate: chance.Interval | None
    what: str | None
    p: float | None


class Point(NamedTuple):
    """A build in a picture in which something became of the defect."""
    x: int
    y: float
    what: str


class Picture(NamedTuple):
    """The lines of the intervals and the dots of the shares are paths, because a page has thousands of them. And the
    first and the last build that is shown."""
    width: int
    height: int
    label: str
    ranges: str
    dots: str
    marked: list[Point]
    ends: list[Cell]


class Defect(NamedTuple):
    """A defect: its cells by build, in which build it is first and last, what state it is in, and what is known of it.
    `named` are some captures of the build in which it is last, and `commands` show the first of these."""
    key: str
    kind: str
    who: str
    path: str
    verdict: str
    cells: list[Cell]
    since: str
    until: str
    state: str | None
    known: Known | None
    named: list[Named]
    commands: Commands

    @property
    def last(self) -> Cell:
        return self.cells[-1]

    @property
    def is_rare(self) -> bool:
        return not self.state and not any(cell.what or cell.share.value > RARE for cell in self.cells)


def short(number: float) -> str:
    return f"{number:.1f}".removesuffix(".0")


def picture_of(cells: list[Cell], height: int = 56, step: int = 14) -> Picture:
    """The shares of captures that have a defect, by build, each with its interval; a gap without captures."""
    some = cells[-PICTURED:]

    def y(share: float) -> float:
        return height - 3 - share * (height - 6)

    points = [(7 + at * step, cell) for at, cell in enumerate(some) if cell.captures]
    ranges = "".join(f"M{x} {short(y(cell.share.low))}V{short(y(cell.share.high))}" for x, cell in points)
    dots = "".join(f"M{x} {short(y(cell.share.value))}h0" for x, cell in points if not cell.what)
    marked = [Point(x, round(y(cell.share.value), 1), cell.what) for x, cell in points if cell.what]
    label = ", ".join(f"{cell.build} {cell.having} of {cell.captures}{f' {cell.what}' if cell.what else ''}"
                      for cell in some)
    return Picture(max(step * len(some), step), height, f"share of captures by build: {shown(label)}", ranges, dots,
                   marked, [some[0], some[-1]])


def told_once(cells: list[Cell]) -> Iterator[Cell]:
    """The cells without marks that say again what a build before says. Each build is compared with several, so what
    went between these still seems to go in the next build; and what grew there seems to grow."""
    marked: Cell | None = None
    for at, cell in enumerate(cells):
        before = cells[at - 1] if at else None
        is_again = before is not None and marked is before and cell.what == GROWN and (
            cell.rate is None or before.rate is None or cell.rate.value <= before.rate.high)
        if is_again or cell.what == GONE and before is not None and not before.having:
            cell = cell._replace(what=None)
        yield cell
        if cells[at].what not in (None, GONE):
            marked = cells[at]


def since_of(cells: list[Cell]) -> str | None:
    """In which build a defect came, went or came back, by the last mark that says so."""
    gone = [at for at, cell in enumerate(cells) if cell.what == GONE]
    if gone:
        later = next((cell.build for cell in cells[gone[-1]:] if cell.having), None)
        return f"came back in {later}" if later else f"gone since {cells[gone[-1]].build}"
    new = [cell.build for cell in cells if cell.what == NEW]
    return f"new in {new[-1]}" if new else None


def state_of(cells: list[Cell], known: Known | None) -> str | None:
    """What state a defect is in, by what became of it in all builds."""
    if cells[-1].what == BACK:
        return f"{known}, and back"
    more = [f"{what} in {cell.build}" for what in (WORSE, GROWN) for cell in cells[::-1] if cell.what == what]
    return ", ".join(filter(None, (str(known) if known else since_of(cells), *more[:1]))) or None


class Lab:
    """All that the page shows of a lab. `refused` says of builds why they are not compared."""

    def __init__(self, lab: sqlite3.Connection, folder: pathlib.Path, enough: Enough, known: dict[str, Known],
                 renamed: Renamed):
        self.folder, self.known, self.renamed = folder, known, renamed
        self.builds = builds_of(lab)
        if not any(build.captures for build in self.builds):
            raise Stopped(1, "the lab has no capture that can be shown")
        self.captures = captures_of(lab)
        self.recorded = self.recorded_of()
        self.refused: list[str] = []
        self.compared = self.comparisons(lab, enough)
        self.rows = {build: {row.key: row for row in compared.rows} for build, compared in self.compared.items()}
        self.clocks = list(wrong_clocks(lab, [build.name for build in self.builds]))
        self.defects = [self.defect(*one) for one in self.found(lab).items()]
        self.methods = series_of(self.builds, self.captures, self.compared)

    def recorded_of(self) -> dict[str, chance.Recorded]:
        """How long the captures of each build are; without times of all of them no rate is told."""
        seconds: dict[str, dict[int, float]] = {build.name: {} for build in self.builds}
        for number, capture in self.captures.items():
            seconds[capture.build][number] = capture.seconds or 0
        return {build: chance.Recorded(of if all(of.values()) else {}) for build, of in seconds.items()}

    def comparisons(self, lab: sqlite3.Connection, enough: Enough) -> dict[str, Comparison]:
        """Each build compared with those before it that have captures."""
        names = [build.name for build in self.builds if build.captures]
        made = {}
        for at, name in enumerate(names[1:], 1):
            try:
                made[name] = Comparison(lab, names[max(0, at - BEFORE):at], name, enough, self.known, self.renamed)
            except Stopped as stopped:
                self.refused.append(str(stopped))
        return made

    @property
    def last(self) -> Comparison | None:
        """The comparison of the last build."""
        return self.compared.get(next(build.name for build in reversed(self.builds) if build.captures))

    def doubts(self) -> list[str]:
        """Why the comparison of the last build tells less than there is, or more."""
        said = list(doubts(self.last)) if self.last else []
        return said + [clock for clock in self.clocks if clock not in said]

    def found(self, lab: sqlite3.Connection) -> dict[tuple[str, Text], list[Found]]:
        """What each defect is found in, by its newest names."""
        found: dict[tuple[str, Text], list[Found]] = {}
        newest = functools.cache(self.renamed.defect)
        for key, kind, who, path, call, *one in lab.execute(FOUND):
            found.setdefault(newest(key, Text(kind, who, path, call)), []).append(Found(*one))
        return found

    def cell(self, key: str, build: Build, found: list[Found]) -> Cell:
        compared, row = self.compared.get(build.name), self.rows.get(build.name, {}).get(key)
        what = compared.whats.get(key) if compared else None
        is_told = what in SHOWN or what == FIRST and compared is self.last
        of = {one.capture: one.n for one in found}
        recorded = self.recorded[build.name]
        return Cell(build.name, build.date, len(of), build.captures, chance.share_of(len(of), build.captures),
                    len({self.captures[number].device for number in of}),
                    recorded.rate(of) if recorded.hours else None, what if is_told else None, row.p if row else None)

    def named(self, found: Found) -> Named:
        capture = self.captures[found.capture]
        verdict = "real" if found.is_real else "maybe"
        return Named(capture.device, capture.file, verdict, found.n, found.place, found.path)

    def commands(self, found: Found) -> Commands:
        capture = self.captures[found.capture]
        return commands_of(self.folder, f"{capture.build}/{capture.device}", capture.file, found.place)

    def defect(self, defect: tuple[str, Text], found: list[Found]) -> Defect:
        by: dict[str, list[Found]] = {build.name: [] for build in self.builds}
        for one in found:
            by[self.captures[one.capture].build].append(one)
        key, text = defect
        cells = list(told_once([self.cell(key, build, by[build.name]) for build in self.builds]))
        seen = [cell.build for cell in cells if cell.having]
        newest = by[seen[-1]]
        known = next(iter(self.compared.values())).known.get(key) if self.compared else None
        verdict = "real" if any(one.is_real for one in newest) else "maybe"
        return Defect(key, text.kind, text.who, text.path, verdict, cells, seen[0], seen[-1], state_of(cells, known),
                      known, [self.named(one) for one in newest[:NAMED]], self.commands(newest[0]))

    def counts(self) -> dict[str, int]:
        """How many defects and methods became what in the last build."""
        return {**{what: sum(defect.last.what == what for defect in self.defects) for what in TOLD},
                **{what: sum(series.last.what == what for series in self.methods) for what in TIMED}}

    def changed(self) -> list[Defect]:
        """What changed in the last build, what is worst first."""
        order = {what: at for at, what in enumerate(SHOWN)}
        some = [defect for defect in self.defects if defect.last.what in SHOWN]
        return sorted(some, key=lambda it: (order[str(it.last.what)], it.last.p or 0, it.key))

    def first_seen(self) -> list[Defect]:
        """What is first seen in the last build, the most urgent first."""
        if self.last is None:
            return []
        defects = {defect.key: defect for defect in self.defects}
        return [defects[row.key] for row in self.last.of(FIRST)]

    def others(self, is_rare: bool) -> list[Defect]:
        """The others, those first of which something was told before; then those of the last build, and those in the
        largest share of its captures."""
        numbers = {build.name: number for number, build in enumerate(self.builds)}
        some = [defect for defect in self.defects if not defect.last.what and defect.is_rare == is_rare]
        return sorted(some, key=lambda it: (not it.state, -numbers[it.until], -it.last.share.value, it.key))
