"""Whether captures of two builds differ by more than chance: exact tests, a bound on how many of the told differences
are false, and intervals. All is conditional on what both builds have together, so nothing is assumed of how often a
defect comes, or in which clumps."""

import math
import random
from bisect import bisect_left, bisect_right
from collections.abc import Collection, Iterable, Iterator, Sequence
from functools import cached_property, lru_cache
from statistics import fmean
from typing import NamedTuple

# Of how many standard deviations an interval of 95 % is, to each side.
DEVIATIONS = 1.959964

# A permutation test ends when so many orders are as unlike as what was seen: then it is chance, or nearly known. And
# there are never more orders than this.
MET, MOST_ORDERS = 50, 100_000

# A look at a test ends sooner. What it finds to be chance stays so: the right p is hardly smaller by the factor DOUBT.
FEW_MET, FEW_ORDERS, DOUBT = 10, 1000, 4

# Of so many orders of many captures one is drawn, and the others are that one turned: few captures would have the same
# orders again and again.
TURNED, MANY = 8, 200

# Every order is drawn from this seed, so the same lab always gives the same p.
SEED = 1


# ---- captures with and without


@lru_cache(maxsize=10_000)
def ways(old: int, new: int, having: int) -> tuple[int, list[int]]:
    """In how many ways `having` captures can be those of both builds that have a defect, by how many of them are old:
    the least number of old ones, and the ways from there on."""
    first = max(0, having - new)
    way, found = math.comb(old, first) * math.comb(new, having - first), []
    for some in range(first, min(old, having) + 1):
        found.append(way)
        way = way * (old - some) * (having - some) // ((some + 1) * (new - having + some + 1))
    return first, found


@lru_cache(maxsize=10_000)
def fisher(old_having: int, old: int, new_having: int, new: int) -> float:
    """The p of Fisher's exact test, of both sides: how often chance shares out those that have it in a way that is no
    more likely than the one that was seen."""
    first, found = ways(old, new, old_having + new_having)
    seen = found[old_having - first]
    return sum(way for way in found if way <= seen) / sum(found)


def least_p(old: int, new: int, having: int) -> float:
    """The least p that Fisher's test can give of so many captures: as many of them as may be are of one build."""
    found = ways(old, new, having)[1]
    return min(found[0], found[-1]) / sum(found)


@lru_cache(maxsize=10_000)
def least_order_p(old: int, new: int, having: int) -> float:
    """The least p that a permutation test can give of findings in so many captures: no other order of these captures is
    as unlike, but the others may be in any order."""
    others = old + new - having
    least = min(math.comb(others, old - some) for some in (max(0, having - new), min(old, having)))
    return least / math.comb(old + new, old)


# ---- findings an hour


class Counted(NamedTuple):
    """Numbers of captures, as bits: a mask for each binary digit, the highest first, which has a bit for each capture.
    So the sum over any captures, which are a mask too, takes a few steps."""
    digits: list[int]

    def sum(self, captures: int) -> int:
        total = 0
        for digit in self.digits:
            total = 2 * total + (digit & captures).bit_count()
        return total


def mask_of(places: list[int]) -> int:
    """A mask with these bits. It is made of a text, since each bit more in a number takes time for all of them."""
    bits = bytearray(b"0") * (max(places, default=0) + 1)
    for place in places:
        bits[-1 - place] = ord("1")
    return int(bits, 2)


def counted(numbers: Iterable[tuple[int, int]]) -> Counted:
    """The number of each capture, by its place."""
    alike: dict[int, list[int]] = {}
    for place, number in numbers:
        alike.setdefault(number, []).append(place)
    digits = [0] * max(map(int.bit_length, alike), default=0)
    for number, places in alike.items():
        captures = mask_of(places)
        for at in range(number.bit_length()):
            if number >> at & 1:
                digits[at] |= captures
    return Counted(digits[::-1])


class Orders:
    """Orders in which the same captures could have come from both builds, at random: of each order the mask of those
    that are new, and their seconds."""

    def __init__(self, seconds: list[int], new: int):
        """`seconds` has how long each capture is, the old ones first; `new` of them are new."""
        self.captures, self.new = len(seconds), new
        self.lengths, self.total = counted(enumerate(seconds)), sum(seconds)
        self.seen = (1 << self.captures) - (1 << self.captures - new)
        self.seen_seconds = self.lengths.sum(self.seen)
        self.chance, self.drawn = random.Random(SEED), list[tuple[int, int]]()
        self.all = (1 << self.captures) - 1
        self.turned_each = TURNED if self.captures >= MANY else 1
        # The share of the new ones, in binary digits, the last one first.
        self.share = [256 * new // self.captures >> at & 1 for at in range(8)]

    @cached_property
    def least_p(self) -> float:
        """The least p that there can be: that of a single order."""
        return 1 / math.comb(self.captures, self.new)

    def draw(self) -> int:
        """So many of all captures, each choice as likely as another. Each capture is taken with about the share of the
        new ones; then single ones are taken or left until there are as many as due."""
        captures = 0
        for digit in self.share:
            some = self.chance.getrandbits(self.captures)
            captures = captures | some if digit else captures & some
        while (more := self.new - captures.bit_count()):
            one = 1 << int(self.chance.random() * self.captures)
            captures = captures | one if more > 0 else captures & ~one
        return captures

    def turned(self, captures: int) -> int:
        """A choice of captures, turned by chance: each one is the same number of places further on, the last ones at
        the beginning. It is as likely as any other, and takes a tenth of the time of one that is drawn."""
        places = int(self.chance.random() * self.captures)
        return (captures << places | captures >> self.captures - places) & self.all

    def some(self, most: int) -> Iterator[tuple[int, int]]:
        """So many orders, the same ones each time."""
        for number in range(most):
            if number == len(self.drawn):
                captures = self.draw() if number % self.turned_each == 0 else self.turned(self.drawn[-1][0])
                self.drawn.append((captures, self.lengths.sum(captures)))
            yield self.drawn[number]

    def p(self, findings: Iterable[tuple[int, int]], most: int, enough: int = MET) -> float:
        """The p of a permutation test, of both sides: how often findings an hour differ as much as they do if each
        capture may be of either build. A capture keeps its findings and its length, because findings come in clumps.
        The test ends early where chance is likely, and p is right then too (Besag and Clifford, 1991)."""
        numbers = counted(findings)
        of_seconds, of_findings = self.total, numbers.sum(self.all)
        seen, met = abs(numbers.sum(self.seen) * of_seconds - of_findings * self.seen_seconds), 0
        for number, (captures, seconds) in enumerate(self.some(most), 1):
            met += abs(numbers.sum(captures) * of_seconds - of_findings * seconds) >= seen
            if met == enough:
                return met / number
        return (met + 1) / (most + 1)


class Within(Orders):
    """The same of samples that are exchanged only within their groups, each of which has places of old and new ones."""

    def __init__(self, samples: int, new: int, groups: Iterable[Sequence[int]]):
        super().__init__([1] * samples, new)
        self.turned_each = 1
        self.groups = [(places, sum(place >= samples - new for place in places)) for places in groups]

    @cached_property
    def least_p(self) -> float:
        return 1 / math.prod(math.comb(len(places), new) for places, new in self.groups)

    def draw(self) -> int:
        return sum(1 << place for places, new in self.groups for place in self.chance.sample(places, new))


def ranks(values: Sequence[float]) -> list[int]:
    """Twice the rank of each value; equal ones share theirs."""
    order = sorted(values)
    return [bisect_left(order, value) + bisect_right(order, value) for value in values]


class Alike:
    """Whether the values of a group are more alike than those of several: the squares between groups and within them,
    summed over many measures of the same groups, each in units of its own."""

    def __init__(self) -> None:
        self.between = self.within = 0.0
        self.free_between = self.free_within = 0

    def add(self, groups: Collection[Sequence[float]]) -> None:
        mean = fmean(value for group in groups for value in group)
        between = sum(len(group) * (fmean(group) - mean) ** 2 for group in groups)
        within = sum((value - fmean(group)) ** 2 for group in groups for value in group)
        if between + within > 0:
            self.between += between / (between + within)
            self.within += within / (between + within)
            self.free_between += len(groups) - 1
            self.free_within += sum(map(len, groups)) - len(groups)

    @property
    def times(self) -> float:
        """How many times as large as within groups the mean squares between them are: about 1 if groups say nothing."""
        if not self.free_between or not self.free_within:
            return 1.0
        return self.between / self.free_between / max(self.within / self.free_within, 1e-12)


def least_after(p: float, orders: int) -> float:
    """How small a p may be after a look at so many orders. If too few of them were as unlike, nothing is known of it.
    """
    return p / DOUBT if p > FEW_MET / orders else 0.0


# ---- many defects


def orders_for(tests: int, rate: float) -> int:
    """How many orders tell a difference beside so many tests: enough for half of the p that the first one needs."""
    return min(MOST_ORDERS, math.ceil(2 * max(tests, 1) / max(rate, 1e-9)))


def limit(ps: Iterable[float], rate: float) -> float:
    """The largest p that is told, so that of what is told the share `rate` is false on average (Benjamini and Hochberg,
    1995); negative if nothing is."""
    ordered = sorted(ps)
    return max((p for at, p in enumerate(ordered, 1) if p <= rate * at / len(ordered)), default=-1.0)


# ---- intervals


class Interval(NamedTuple):
    """A number, and the interval in which it is with 95 %."""
    value: float
    low: float
    high: float


def share_of(having: int, captures: int) -> Interval:
    """A share of captures, with Wilson's interval."""
    if captures == 0:
        return Interval(0.0, 0.0, 1.0)
    share, square = having / captures, DEVIATIONS ** 2 / captures
    middle = (share + square / 2) / (1 + square)
    half = DEVIATIONS / (1 + square) * math.sqrt(share * (1 - share) / captures + square / captures / 4)
    return Interval(share, max(0.0, middle - half) if having else 0.0, min(1.0, middle + half) if having < captures
                    else 1.0)


def byar(number: float, side: int) -> float:
    return number * (1 - 1 / (9 * number) + side * DEVIATIONS / (3 * math.sqrt(number))) ** 3


class Recorded:
    """How long captures were recorded, by their numbers: of many defects each has findings in a few of them."""

    def __init__(self, seconds: dict[int, float]):
        self.seconds = seconds
        self.hours, self.squares = sum(seconds.values()) / 3600, sum(each * each for each in seconds.values())

    def rate(self, findings: dict[int, int]) -> Interval | None:
        """Findings an hour of a defect, with Byar's interval of a Poisson count. If captures differ by more than such
        counts do, because findings come in clumps, the interval is as much wider. None without times."""
        if not self.hours:
            return None
        total = sum(findings.values())
        rate = total / self.hours
        each = rate / 3600
        # Of each capture the square of what came without what was due; and first, as if nothing had come.
        squares = each * each * self.squares + sum(
            came * (came - 2 * each * self.seconds[number]) for number, came in findings.items())
        clump = max(1.0, squares / total) if total else 1.0
        count = total / clump
        low = byar(count, -1) if count > 0.25 else 0.0
        return Interval(rate, max(0.0, low) * clump / self.hours, byar(count + 1, 1) * clump / self.hours)


def rate_of(findings: list[int], seconds: list[float]) -> Interval | None:
    """Findings an hour of captures in their order."""
    return Recorded(dict(enumerate(seconds))).rate(dict(enumerate(findings)))
