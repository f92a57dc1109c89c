"""How long the calls of each method took in a capture, by names that are the same in other captures; and whether a
method is slower or faster in another one."""

import sqlite3
from collections.abc import Iterable, Iterator
from statistics import median
from typing import NamedTuple

from viewer.terminal import line_of
from viewer.units import defect_key

# What became of a method.
SLOWER, FASTER = "slower", "faster"

# The parts of a time: how long calls wait for a thread of the server, and the server's own work for them, without the
# calls that it makes meanwhile.
PARTS = ("queue", "work")

# A method is slower or faster if its time differs by the factor, and by so many nanoseconds.
FACTOR, LEAST = 1.2, 1_000_000

# How busy a device was is known of so many methods, not of fewer.
METHODS = 5

# The medians of each method. Of several processes of a program it is the one that got most of the calls.
TIMES = """
SELECT server, call, calls, queue, work FROM (
    SELECT p.program || ' on ' || p.device AS server, m.call, m.calls, m.queue_median AS queue, m.work_median AS work,
      row_number() OVER (PARTITION BY p.program, p.device, m.call ORDER BY m.calls DESC, m.server_upid) AS nth
    FROM method_time m JOIN program p ON p.upid = m.server_upid WHERE m.client_upid IS NULL)
WHERE nth = 1 ORDER BY calls DESC, server, call"""


# How long its calls took on average after a thread had them, in milliseconds.
AVERAGE = """
SELECT avg(t.dur - t.wait) / 1e6 FROM txn t JOIN program p ON p.upid = t.server_upid
WHERE t.outcome = 'answered' AND t.call = ? AND p.program || ' on ' || p.device = ?"""

# Of fewer calls in a capture a median says little.
CALLS = 10


class Timed(NamedTuple):
    """The median times of a method in a capture, in nanoseconds."""
    server: str
    call: str
    calls: int
    queue: int
    work: int

    def of(self, part: str) -> int:
        return self.queue if part == "queue" else self.work


def times_of(database: sqlite3.Connection) -> list[Timed]:
    return [Timed(*row) for row in database.execute(TIMES)]


def key_of(part: str, server: str, call: str) -> str:
    """The key of a part of the time of a method, as defects have keys."""
    return defect_key(f"time, {part}", server, call)


def load_of(times: Iterable[tuple[float, float]]) -> float:
    """How many times as long as usual the methods of a capture took: the median of them, each with what is usual. A
    device that has much else to do takes longer for all of them."""
    ratios = [time / usual for time, usual in times if usual > 0]
    return (median(ratios) if len(ratios) >= METHODS else 1.0) or 1.0


def change_of(before: float, now: float, load: float) -> str | None:
    """What became of a time, in nanoseconds, if all methods take `load` times as long as before."""
    if now - before >= LEAST and now >= FACTOR * before * max(1.0, load):
        return SLOWER
    if before - now >= LEAST and before >= FACTOR * now * max(1.0, 1 / load):
        return FASTER
    return None


class Change(NamedTuple):
    """A part of the time of a method that is another one in the new capture."""
    what: str
    part: str
    before: Timed
    now: Timed

    @property
    def key(self) -> str:
        return key_of(self.part, self.now.server, self.now.call)


def changes(before: list[Timed], now: list[Timed]) -> list[Change]:
    """The methods of two captures that are slower or faster in the new one, beside the load of both. It is no test: two
    captures do not say what chance does."""
    old = {(timed.server, timed.call): timed for timed in before}
    both = [(old[timed.server, timed.call], timed) for timed in now if (timed.server, timed.call) in old]
    found = []
    for part in PARTS:
        load = load_of((new.of(part), was.of(part)) for was, new in both)
        found += [Change(what, part, was, new) for was, new in both if min(was.calls, new.calls) >= CALLS
                  and (what := change_of(was.of(part), new.of(part), load))]
    return sorted(found, key=lambda it: (it.what != SLOWER, it.now.server, it.now.call, it.part))


def average_of(database: sqlite3.Connection, timed: Timed) -> float | None:
    average, = database.execute(AVERAGE, (timed.call, timed.server)).fetchone()
    return average if isinstance(average, float) else None


def said_of(change: Change, averages: tuple[float | None, float | None]) -> str:
    """What a line says of the times of a method."""
    before, now = (timed.of(change.part) / 1e6 for timed in (change.before, change.now))
    said = f"{change.part}: median {before:.3g} ms, then {now:.3g}"
    if change.part == "work" and None not in averages:
        said += f"; without the queue {averages[0]:.3g} ms on average, then {averages[1]:.3g}"
    return f"{said}; no test"


def lines(found: list[Change], old: sqlite3.Connection, new: sqlite3.Connection) -> Iterator[str]:
    """A line for each change, with how many calls there are in both captures."""
    for it in found:
        averages = average_of(old, it.before), average_of(new, it.now)
        yield line_of(it.what, None, it.before.calls, it.now.calls, said_of(it, averages), it.now.server, it.now.call,
                      None, it.key)
