"""In which of two captures a defect was first seen: of what build each is, how long it took, and how many findings it
has."""

import contextlib
import time
from typing import Iterator

from viewer.clocks import SECOND
from viewer.defects.changes import Change, Comparison
from viewer.defects.seen import seconds_of
from viewer.units import counted, duration_of


def day_of(realtime: object) -> str:
    """When a recording began, in the zone of this system; nothing if no calendar has it."""
    with contextlib.suppress(OverflowError, OSError, ValueError):
        if isinstance(realtime, int):
            return f"recorded {time.strftime('%Y-%m-%d %H:%M', time.localtime(realtime // SECOND))}"
    return ""


def build_of(facts: dict) -> str:
    """When and on what a capture was recorded, as far as that is known."""
    kernel = f"Linux {facts['kernel']}" if facts.get("kernel") else ""
    known = ", ".join(filter(None, (day_of(facts.get("realtime")), kernel, facts.get("machine"))))
    return f" ({known})" if known else ""


def count_in(facts: dict, count: int) -> str:
    """How many findings a capture has, and in which time."""
    seconds = seconds_of(facts)
    return counted(count, "finding") + ("" if seconds is None else f" in {duration_of(round(seconds * SECOND))}")


def told_of(change: Change, name: str, old: dict, new: dict) -> str:
    if not change.before:
        return f"here{build_of(new)}; {name}{build_of(old)} has none"
    return f"in {name}{build_of(old)}: {count_in(old, change.before)}; here {count_in(new, change.now)}"


def first_seen(comparison: Comparison, name: str) -> Iterator[tuple[str, str]]:
    """Of each defect of the new capture its key, and where it was first seen. `name`: what the old one is called."""
    for change in comparison.changes:
        if change.now:
            yield change.defect.key, told_of(change, name, *comparison.facts)
