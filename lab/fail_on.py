"""What fails a comparison, as the words of `--fail-on` say it."""

import re
from typing import NamedTuple

from lab.first_seen import FIRST
from viewer.defects.changes import GROWN
from viewer.defects.times import SLOWER

# `grown` or `slower`, or how many times as much is there, as `grown:1.5`.
FACTOR = re.compile(rf"({GROWN}|{SLOWER})(?::([0-9]{{1,6}}(?:\.[0-9]{{1,6}})?))?")


class FailOn(NamedTuple):
    """The weakest verdict of what is new, worse or back that fails; how many times as much of a defect fails as grown,
    and how many times as long a time as slower, None if nothing does; and whether what is first seen fails."""
    verdict: str = "maybe"
    growth: float | None = None
    slower: float | None = None
    is_first: bool = False


def fail_on(words: list[str]) -> FailOn:
    """What these words say together; ValueError of one that is none of them."""
    asked = FailOn()
    for word in words:
        if word in ("real", "maybe"):
            asked = asked._replace(verdict=word)
        elif word == FIRST:
            asked = asked._replace(is_first=True)
        elif said := FACTOR.fullmatch(word):
            factor = float(said[2] or 1)
            asked = asked._replace(growth=factor) if said[1] == GROWN else asked._replace(slower=factor)
        else:
            raise ValueError(word)
    return asked
