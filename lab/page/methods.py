"""The methods of a lab that became slower or faster, on its page: their medians, build by build."""

from collections.abc import Iterator
from statistics import median
from typing import NamedTuple

from lab.compare import Comparison, milliseconds
from lab.known_until import Known
from lab.page.builds import Build, Capture
from lab.slower import Method
from viewer.terminal import shown

# How many builds a picture shows, and how high it is.
PICTURED, HEIGHT, STEP = 24, 40, 14


class Cell(NamedTuple):
    """A method in a build: in how many captures, the median of their medians, in nanoseconds, and what became of it
    there."""
    build: str
    captures: int
    ns: float | None
    what: str | None

    @property
    def said(self) -> str:
        took = "-" if self.ns is None else f"{milliseconds(self.ns)} ms"
        return f"{shown(self.build)} {took}{f' {self.what}' if self.what else ''}"


class Series(NamedTuple):
    """A method, with its cells by build, and what is known of it."""
    method: Method
    cells: list[Cell]
    known: Known | None

    @property
    def last(self) -> Cell:
        return self.cells[-1]

    @property
    def state(self) -> str:
        """What became of it, the last build first."""
        return ", ".join(f"{cell.what} in {shown(cell.build)}" for cell in reversed(self.cells) if cell.what)

    @property
    def pictured(self) -> list[Cell]:
        return self.cells[-PICTURED:]

    def points(self) -> Iterator[tuple[int, float, Cell]]:
        """Where the medians are in a picture that begins with no time."""
        most = max((cell.ns or 0 for cell in self.pictured), default=0) or 1
        for at, cell in enumerate(self.pictured):
            if cell.ns is not None:
                yield STEP // 2 + at * STEP, round(HEIGHT - 4 - max(cell.ns, 0) / most * (HEIGHT - 8), 1), cell

    @property
    def path(self) -> str:
        return "".join(f"{'L' if at else 'M'}{x} {y:g}" for at, (x, y, _) in enumerate(self.points()))

    @property
    def size(self) -> tuple[int, int]:
        return STEP * len(self.pictured), HEIGHT


def series_of(builds: list[Build], captures: dict[int, Capture], compared: dict[str, Comparison]) -> list[Series]:
    """Those of which something is told in a build: those first that changed last."""
    became = {(build, row.method): what for build, comparison in compared.items() for row in comparison.timed
              if (what := comparison.became(row))}
    found = []
    for method in sorted({method for _, method in became}):
        of: dict[str, dict[int, int]] = {build.name: {} for build in builds}
        for comparison in compared.values():
            for capture, ns in comparison.times.found.get(method, {}).items():
                of[captures[capture].build][capture] = ns
        cells = [Cell(name, len(times), median(times.values()) if times else None, became.get((name, method)))
                 for name, times in of.items()]
        known = next(iter(compared.values())).known.get(method.key)
        found.append(Series(method, cells, known))
    places = {build.name: at for at, build in enumerate(builds)}
    return sorted(found, key=lambda it: -max(places[cell.build] for cell in it.cells if cell.what))
