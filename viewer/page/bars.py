"""The bars of the strip of time, in lanes."""

from typing import Iterable, Iterator, NamedTuple

from viewer.page.axis import Span

# A bar has at least this width, and what is nearer to one another than that is one bar.
LEAST = 3

# Bars of a lane that are at the same time stand in rows, of which there are so many at most. The height of the one row
# of a lane, and of each of several.
ROWS, ALONE, EACH = 6, 12, 7


class Bar(NamedTuple):
    """A bar: where it is, what it says without a stranger's words, the group or the call that it is of if it is of one,
    and in which row of its lane it stands."""
    x: float
    width: float
    label: str
    of: str | None
    row: int = 0


class Lane(NamedTuple):
    name: str
    sort: str
    bars: list[Bar]

    @property
    def rows(self) -> int:
        return 1 + max((bar.row for bar in self.bars), default=0)

    @property
    def each(self) -> int:
        """The height of a row."""
        return ALONE if self.rows == 1 else EACH


class Mark(NamedTuple):
    """What a bar is made of."""
    span: Span
    label: str
    of: str | None


def is_short(mark: Mark, scale: float) -> bool:
    return (mark.span.end - mark.span.begin) * scale < LEAST


def end_of(mark: Mark, scale: float) -> float:
    return max(mark.span.end, mark.span.begin + LEAST / scale) * scale


class Run:
    """Marks that are one bar, in units of the strip."""

    def __init__(self, mark: Mark, scale: float):
        self.marks, self.begin, self.end = [mark], mark.span.begin * scale, end_of(mark, scale)
        self.is_short = is_short(mark, scale)

    def take(self, mark: Mark, scale: float) -> None:
        self.marks.append(mark)
        self.end = max(self.end, end_of(mark, scale))
        self.is_short &= is_short(mark, scale)

    def bar(self, row: int, width: float) -> Bar:
        first, more = self.marks[0], len(self.marks) - 1
        wide = self.end - self.begin
        return Bar(round(min(self.begin, width - wide), 1), round(wide, 1),
                   f"{first.label}, and {more:,} more" if more else first.label, first.of, row)


def run_for(mark: Mark, scale: float, rows: list[list[Run]]) -> Run | None:
    """The bar that a mark becomes a part of: of a short one a bar of short marks beside it, or where no row is left the
    one that ends first. None if it becomes a bar of its own."""
    lasts = [row[-1] for row in rows]
    if any(mark.span.begin * scale - last.end >= LEAST for last in lasts):
        return None
    beside = [last for last in lasts if last.is_short and is_short(mark, scale)]
    if beside or len(rows) == ROWS:
        return min(beside or lasts, key=lambda last: last.end)
    return None


def bars_of(marks: Iterable[Mark], scale: float, width: float) -> Iterator[Bar]:
    """Marks as the bars of a lane, each in the first row that has room for it."""
    rows: list[list[Run]] = []
    for mark in sorted(marks):
        run = run_for(mark, scale, rows)
        if run:
            run.take(mark, scale)
            continue
        free = next((row for row in rows if mark.span.begin * scale - row[-1].end >= LEAST), None)
        if free is None:
            free = []
            rows.append(free)
        free.append(Run(mark, scale))
    for at, row in enumerate(rows):
        for run in row:
            yield run.bar(at, width)
