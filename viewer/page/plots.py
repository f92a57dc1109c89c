"""The plots of the page: how many findings a group has and where they are, and what stays of what processes hold."""

from typing import NamedTuple

from viewer.page.capture import Capture

# Where each of 16 slices of the capture begins and the last one ends, from 0 to 1, if all are as wide.
EVEN = [at / 16 for at in range(17)]


class Plot(NamedTuple):
    """A plot: how large it is, what it is called, where its axis is, and the path of its line."""
    width: int
    height: int
    label: str
    axis: int
    line: str


def steps(values: list[int], width: int = 112, height: int = 24, edges: list[float] = EVEN) -> Plot | None:
    """Sixteen values as steps; none if all are 0. `edges` says where each begins and the last one ends."""
    top = max(values, default=0)
    if top <= 0:
        return None
    scale = (height - 5) / top
    line = "".join(f"{'M1 ' if at == 0 else 'V'}{height - 2 - value * scale:.1f}H{1 + (width - 2) * edges[at + 1]:.1f}"
                   for at, value in enumerate(values))
    return Plot(width, height, ", ".join(map(str, values)), height - 2, line)


def marked(places: list[int], whole: int, width: int = 112, height: int = 14) -> Plot:
    """A mark for each place in the capture."""
    marks = "".join(f"M{1 + (width - 3) * place / max(whole, 1):.1f} 3V{height - 1}" for place in places)
    return Plot(width, height, "where in the capture", height - 4, marks)


def growth_of(capture: Capture, group: int) -> Plot | None:
    """How many findings a group has at the end of each of 16 slices of the capture."""
    slices = {at: n for at, n in capture.asked("group_growth", group)}
    values, so_far = [], 0
    for at in range(16):
        so_far += slices.get(at, 0)
        values.append(so_far)
    return steps(values)


def begins_of(capture: Capture) -> list[int]:
    """When each of the 16 slices of the capture begins, and when the capture ends; nothing without times."""
    first, last, until = (capture.facts.get(key) for key in ("first_seq", "last_seq", "until_ts"))
    if first is None or until is None or last - first < 16:
        return []
    begins = [ts for ts, in capture.ask("SELECT (SELECT ts FROM side_time WHERE seq >= first_seq ORDER BY seq LIMIT 1)"
                                        " FROM raw_slice ORDER BY slice")]
    return [] if None in begins else [*begins, until]


def axis_of(capture: Capture) -> list[int]:
    """When the axis of growth begins and ends; nothing without times."""
    times = begins_of(capture)
    return [times[0], times[-1]] if times else []


def edges_of(capture: Capture) -> list[float]:
    """Where on its axis each of the 16 slices of the capture begins and the last one ends, from 0 to 1; as wide as one
    another without times."""
    times = begins_of(capture)
    if not times:
        return EVEN
    whole = max(times[-1] - times[0], 1)
    return [min(max((ts - times[0]) / whole, 0), 1) for ts in times]


def floors_of(capture: Capture) -> dict[tuple[int, int], list[int]]:
    """The least that a process held of a thing in each of 16 slices of the capture, by process and thing, as far as it
    holds some at the end."""
    floors: dict[tuple[int, int], list[int]] = {}
    for thing, upid, at, least in capture.asked("floors"):
        floors.setdefault((upid, thing), [0] * 16)[at] = least
    return floors


class Held(NamedTuple):
    """What a process holds of a thing: a plot of what stays, the most that it held, and what it holds at the end."""
    plot: Plot | None
    most: int
    last: int


def growths_of(capture: Capture) -> list[tuple]:
    """Of each process whether it has an end, and the space that its buffers take, also that of oneway ones; then what
    it holds of each thing."""
    edges, floors = edges_of(capture), floors_of(capture)

    def plot(upid: int, thing: int, last: int, ended: int | None) -> Plot | None:
        floor = floors.get((upid, thing), []) if last else []
        held = [0 if ended is not None and at > ended else least for at, least in enumerate(floor)]
        return steps(held, 150, 30, edges)
    return [(upid, ended, space, oneway, [Held(plot(upid, thing, last, ended_slice), most, last)
                                          for thing, (most, last) in enumerate(zip(columns[::2], columns[1::2]))])
            for upid, ended, space, oneway, *columns, ended_slice in capture.rows("growth")]
