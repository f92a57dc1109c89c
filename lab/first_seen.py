"""What is seen for the first time in a build, however rare it is: chance does not count here, because a server that
hangs in one run of forty hangs."""

import json
import sqlite3
from collections.abc import Iterable
from typing import NamedTuple

FIRST = "first"

# In how many builds before it is looked for.
BUILDS_BEFORE = 10

# What users suffer from first, as the kinds of such defects begin: calls without an answer, deaths and crashes.
URGENT = ("calls without an answer", "calls open throughout", "served calls not replied",
          "calls in which the server ended", "calls that failed (BR_DEAD_REPLY)", "calls that failed (BR_FROZEN_REPLY)",
          "deaths not acknowledged", "references to an object told dead", "references to ended processes")

# Those of some defects that these builds have.
THERE = """
SELECT DISTINCT f.defect FROM json_each(:defects) d CROSS JOIN found f ON f.defect = d.value
  JOIN capture c ON c.id = f.capture
WHERE c.build IN (SELECT value FROM json_each(:builds)) AND c.malformed IS NULL AND c.failed IS NULL
  AND f.verdict <> 'explained'"""

# The capture of a build that shows a defect best.
BEST = """
SELECT c.build, c.device, coalesce(c.file, ''), f.place
FROM found f JOIN capture c ON c.id = f.capture
WHERE f.defect IN (SELECT value FROM json_each(?)) AND c.build = ? AND c.malformed IS NULL AND c.failed IS NULL
ORDER BY f.verdict = 'real' DESC, f.n DESC, c.device, c.file LIMIT 1"""


class Best(NamedTuple):
    """A capture, and the place in it of the first finding of a defect."""
    build: str
    device: str
    file: str
    place: int | None


def urgency(kind: str) -> int:
    """How urgent a kind of defect is: less comes first."""
    return next((at for at, begin in enumerate(URGENT) if kind.startswith(begin)), len(URGENT))


def builds_before(order: dict[str, int], build: str, count: int) -> list[str]:
    """The builds before this one, so many at most."""
    return [name for name, number in order.items() if order[build] - count <= number < order[build]]


def seen_in(lab: sqlite3.Connection, defects: Iterable[str], builds: list[str]) -> set[str]:
    """Those of the defects that a capture of these builds has."""
    return {key for key, in lab.execute(THERE, {"defects": json.dumps([*defects]), "builds": json.dumps(builds)})}


def best_capture(lab: sqlite3.Connection, defects: Iterable[str], build: str) -> Best:
    return Best(*lab.execute(BEST, (json.dumps([*defects]), build)).fetchone())
