"""The builds of a lab and their captures, as its page shows them."""

import sqlite3
from typing import NamedTuple

from lab.order import date_of

# Captures that count, in the order of their builds.
USABLE = """
SELECT c.id, c.build, c.device, c.file, c.seconds FROM capture c JOIN build b ON b.name = c.build
WHERE c.malformed IS NULL AND c.failed IS NULL ORDER BY b.number, c.device, c.file"""

BUILDS = """
SELECT b.name, sum(c.malformed IS NULL AND c.failed IS NULL),
  count(DISTINCT iif(c.malformed IS NULL AND c.failed IS NULL, c.device, NULL)),
  total(iif(c.malformed IS NULL AND c.failed IS NULL, c.seconds, 0)) / 3600, b.begun,
  sum(c.malformed NOTNULL), sum(c.failed NOTNULL),
  sum(c.malformed IS NULL AND c.failed IS NULL AND (coalesce(c.lost, 0) <> 0 OR coalesce(c.missing, 0) <> 0)),
  sum(c.left_out > 0), group_concat(DISTINCT coalesce(c.version, 'unknown'))
FROM build b JOIN capture c ON c.build = b.name GROUP BY b.number ORDER BY b.number"""

# Those that do not count, and why.
REFUSED = """
SELECT c.build, c.device, c.file, coalesce(c.failed, c.malformed) FROM capture c JOIN build b ON b.name = c.build
WHERE c.malformed NOTNULL OR c.failed NOTNULL ORDER BY b.number DESC, c.device, c.file"""


class Build(NamedTuple):
    """A row of BUILDS, with the day on which its captures began."""
    name: str
    captures: int
    devices: int
    hours: float
    date: str | None
    malformed: int
    failed: int
    lossy: int
    cut: int
    versions: str


class Capture(NamedTuple):
    """A capture that counts."""
    build: str
    device: str
    file: str
    seconds: float | None


def builds_of(lab: sqlite3.Connection) -> list[Build]:
    return [Build(*row)._replace(date=date_of(row[4])) for row in lab.execute(BUILDS)]


def captures_of(lab: sqlite3.Connection) -> dict[int, Capture]:
    return {number: Capture(build, device, file or "", seconds) for number, build, device, file, seconds in
            lab.execute(USABLE)}
