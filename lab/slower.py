"""Methods that are slower or faster on the new side by more than chance. A sample is the median of a method in a
capture, because the calls of one capture are not independent of each other."""

import math
from statistics import median
from typing import NamedTuple

from lab import chance
from lab.sides import Sides
from viewer.defects.times import FACTOR, LEAST, PARTS, change_of, key_of, load_of


# A p of a method counts so many times. There are many methods, and where devices differ in single ones, few samples:
# of 700 comparisons of equal builds 11 had a line of a method without this, and 5 with it. 2 was chosen on these same
# draws, so they are no test of it. With 3 and 5 fewer had a line, but of 40 builds with a call that takes twice as long
# the check `chances` found 39, and with 2 all. docs/MEASURED.md has what fresh draws gave.
COUNTS = 2

# Devices differ if the mean squares between them are more than so many times as large as within them.
DIFFERS = 1.5


class Method(NamedTuple):
    """A part of the time of a method: `queue` or `work`."""
    server: str
    call: str
    part: str

    @property
    def key(self) -> str:
        return key_of(self.part, self.server, self.call)


class Side(NamedTuple):
    """What one side has of a method: in how many captures and on how many devices, how many calls, and the median of
    its medians, in nanoseconds."""
    captures: int
    devices: int
    calls: int
    ns: float


class Row(NamedTuple):
    """A method on both sides. `load` is how many times as long as before methods take in these captures."""
    method: Method
    before: Side
    now: Side
    load: float
    p: float

    def least(self, looked: int) -> float:
        """How small p may be after a look at so many orders."""
        return COUNTS * chance.least_after(self.p / COUNTS, looked)

    @property
    def what(self) -> str | None:
        """What became of it, if that is more than chance."""
        return change_of(self.before.ns, self.now.ns, self.load)

    @property
    def factor(self) -> float:
        """How many times as long as before it takes."""
        return self.now.ns / self.before.ns if self.before.ns else math.inf


class Samples(NamedTuple):
    """The captures that have a method, the old ones first, their times, and the same beside the load of each."""
    captures: list[int]
    old: int
    ns: list[int]
    beside: list[float]


class Design(NamedTuple):
    """Which samples there are of some captures, the old ones first, and which of them may be exchanged."""
    samples: list[list[int]]
    new: int
    groups: list[list[int]]

    def orders(self) -> chance.Orders:
        if len(self.groups) == 1:
            return chance.Orders([1] * len(self.samples), self.new)
        return chance.Within(len(self.samples), self.new, self.groups)


def by_device(devices: list[str], old: int) -> Design:
    """That of captures on devices that differ, the old ones first. A capture is exchanged only with others of its
    device. Devices that only one side has are exchanged with each other, each as one sample: the median of its
    captures."""
    both = {*devices[:old]} & {*devices[old:]}
    samples: dict[tuple[str, int], list[int]] = {}
    for at, device in enumerate(devices):
        samples.setdefault((device, at if device in both else -1), []).append(at)
    groups: dict[str, list[int]] = {}
    for number, (device, _) in enumerate(samples):
        groups.setdefault(device if device in both else "", []).append(number)
    return Design([*samples.values()], sum(some[0] >= old for some in samples.values()), [*groups.values()])


def quantile(values: list[int], share: float) -> int:
    return sorted(values)[min(len(values) - 1, int(share * len(values)))]


def may_differ(ns: list[int], share: float) -> bool:
    """Whether times differ so much that one side, which has so large a share of them, could be slower or faster. It is
    asked of all together, so that it says nothing of who is slower."""
    low, high = quantile(ns, share / 2), quantile(ns, 1 - share / 2)
    return high - low >= LEAST and high >= FACTOR * low


class Times:
    """The times of methods on both sides, and the tests of those that could be told apart."""

    def __init__(self, sides: Sides, rate: float):
        self.sides, self.rate = sides, rate
        self.calls: dict[Method, dict[int, int]] = {}
        self.found: dict[Method, dict[int, int]] = {}
        self.known_orders: dict[tuple[int, tuple[str, ...]], tuple[Design, chance.Orders]] = {}
        self.read()
        self.loads = {part: self.loads_of(part) for part in PARTS}
        self.tested = {method: samples for method, of in self.found.items()
                       if (samples := self.samples(method, of)) is not None}
        self.differ = {part: self.devices_differ(part) for part in PARTS}
        # Tests that could tell nothing do not count.
        self.tested = {method: samples for method, samples in self.tested.items()
                       if COUNTS * self.orders(method, samples)[1].least_p <= rate}

    def read(self) -> None:
        sides = self.sides
        if not sides.has_times:
            return
        names = {number: (sides.renamed.text(server or ""), sides.renamed.text(call or ""))
                 for number, server, call in sides.lab.execute("SELECT id, server, call FROM method")}
        for number, capture, calls, *parts in sides.rows("times.sql"):
            for part, ns in zip(PARTS, parts):
                if ns is not None and number in names:
                    method = Method(*names[number], part)
                    self.found.setdefault(method, {})[capture] = ns
                    self.calls.setdefault(method, {})[capture] = calls or 0

    @property
    def keys(self) -> set[str]:
        """Those of all methods in the new captures."""
        return {method.key for method, of in self.found.items()
                if any(self.sides.captures[capture].is_new for capture in of)}

    def loads_of(self, part: str) -> dict[int, float]:
        """How busy each capture was, by this part of the times of its methods."""
        of: dict[int, list[tuple[float, float]]] = {}
        for method, times in self.found.items():
            if method.part == part:
                usual = median(times.values())
                for capture, ns in times.items():
                    of.setdefault(capture, []).append((ns, usual))
        return {capture: load_of(times) for capture, times in of.items()}

    def samples(self, method: Method, of: dict[int, int]) -> Samples | None:
        """Those of a method, if one side could be slower or faster."""
        captures = sorted(of, key=self.sides.place.__getitem__)
        old = sum(not self.sides.captures[capture].is_new for capture in captures)
        ns = [of[capture] for capture in captures]
        if not 0 < old < len(captures) or not may_differ(ns, min(old, len(captures) - old) / len(captures)):
            return None
        loads = self.loads[method.part]
        found = Samples(captures, old, ns, [one / loads[capture] for capture, one in zip(captures, ns)])
        return found

    def devices_differ(self, part: str) -> bool:
        """Whether devices differ in single methods, beside their loads: whether captures of one device are more alike
        than those of a side."""
        alike = chance.Alike()
        for method, samples in self.tested.items():
            if method.part == part:
                logs = [math.log(max(1, time)) for time in samples.beside]
                usual = [median(logs[:samples.old]), median(logs[samples.old:])]
                groups: dict[str, list[float]] = {}
                for at, (capture, log) in enumerate(zip(samples.captures, logs)):
                    groups.setdefault(self.sides.captures[capture].device, []).append(log - usual[at >= samples.old])
                alike.add(groups.values())
        return alike.times > DIFFERS

    def orders(self, method: Method, samples: Samples) -> tuple[Design, chance.Orders]:
        """How samples may be exchanged. It is the same for many methods."""
        differ = self.differ[method.part]
        devices = [self.sides.captures[capture].device if differ else "" for capture in samples.captures]
        key = samples.old, (*devices,)
        if key not in self.known_orders:
            design = by_device(devices, samples.old)
            self.known_orders[key] = design, design.orders()
        return self.known_orders[key]

    def p(self, method: Method, most: int, enough: int) -> float:
        """The p of a permutation test of the ranks of the times beside the load, each less what is usual in its
        group, as it counts."""
        samples = self.tested[method]
        design, orders = self.orders(method, samples)
        logs = [math.log(max(1, median(samples.beside[at] for at in sample))) for sample in design.samples]
        aligned = list(logs)
        for group in design.groups:
            usual = median(logs[at] for at in group)
            for at in group:
                aligned[at] = round(logs[at] - usual, 9)
        # Of few orders some may never be drawn.
        return min(1.0, COUNTS * max(orders.p(enumerate(chance.ranks(aligned)), most, enough), orders.least_p))

    def row(self, method: Method, p: float) -> Row:
        samples = self.tested[method]
        before, now = (self.side(method, samples, is_new) for is_new in (False, True))
        usual = [median(some) for some in (samples.beside[:samples.old], samples.beside[samples.old:])]
        load = now.ns * usual[0] / (before.ns * usual[1]) if before.ns and usual[1] else 1.0
        return Row(method, before, now, load, p)

    def side(self, method: Method, samples: Samples, is_new: bool) -> Side:
        at = slice(samples.old, None) if is_new else slice(samples.old)
        captures = samples.captures[at]
        return Side(len(captures), len({self.sides.captures[one].device for one in captures}),
                    sum(self.calls[method][one] for one in captures), median(samples.ns[at]))

    def load(self, part: str) -> tuple[float, float]:
        """How many times as long as on the old side methods take on the new one, and how often chance does as much."""
        of: tuple[list[float], list[float]] = ([], [])
        for capture, load in self.loads[part].items():
            of[self.sides.captures[capture].is_new].append(load)
        if not all(of):
            return 1.0, 1.0
        orders = chance.Orders([1] * len(of[0] + of[1]), len(of[1]))
        return median(of[1]) / median(of[0]), orders.p(enumerate(chance.ranks(of[0] + of[1])), chance.FEW_ORDERS)
