"""What a comparison can tell: how often it tells a new defect that comes in a part of the runs, and how many captures
that takes. The p of a defect depends only on how many captures have it, so all of this is computed, and nothing drawn.
"""

import math
from functools import lru_cache
from typing import NamedTuple

from lab import chance

# The shares of the runs in which a new defect may come, and how often it is told where captures are said to suffice.
SHARES, SURE = (1.0, 0.5, 0.2), 0.9


class Power(NamedTuple):
    """Of a new defect in this share of the runs: in which share of comparisons it is told, and how many captures of
    each of two builds tell it in SURE of them."""
    share: float
    told: float
    needed: int


@lru_cache(maxsize=10_000)
def least_having(old: int, new: int, largest_p: float) -> int | None:
    """How many captures of the new build must have a defect that no old one has, so that it is told by this p. None:
    all of them are too few."""
    if chance.fisher(0, old, new, new) > largest_p:
        return None
    few, enough = 0, new
    while enough - few > 1:
        middle = (few + enough) // 2
        few, enough = (few, middle) if chance.fisher(0, old, middle, new) <= largest_p else (middle, enough)
    return enough


def at_least(least: int, of: int, share: float) -> float:
    """How often so many of all runs, or more, have what each one has by this share."""
    if share >= 1:
        return 1.0
    log = math.lgamma(of + 1)
    return min(1.0, math.fsum(
        math.exp(log - math.lgamma(some + 1) - math.lgamma(of - some + 1) + some * math.log(share)
                 + (of - some) * math.log1p(-share)) for some in range(least, of + 1)))


def told(share: float, old: int, new: int, largest_p: float) -> float:
    """In which share of comparisons of so many captures a new defect in this share of the runs is told."""
    least = least_having(old, new, largest_p)
    return 0.0 if least is None else at_least(least, new, share)


@lru_cache(maxsize=1000)
def needed(share: float, largest_p: float) -> int:
    """How many captures of each of two builds tell a new defect in this share of the runs, in SURE of the comparisons.
    """
    captures = 2
    while told(share, captures, captures, largest_p) < SURE:
        captures += 1
    return captures


def powers(old: int, new: int, largest_p: float) -> list[Power]:
    """What so many captures tell, where a single difference is told by this p."""
    return [Power(share, told(share, old, new, largest_p), needed(share, largest_p)) for share in SHARES]
