"""Captures of a build that do not count: malformed, failed, or never made."""

import sqlite3
from collections.abc import Iterator
from typing import NamedTuple

from lab.sides import Build
from viewer.units import counted

# A build with fewer captures than this share of what the old builds have on average lacks some.
FEWER = 0.9

REFUSED = """
SELECT device, coalesce(file, digest), iif(failed NOTNULL, 'failed', 'malformed'), coalesce(failed, malformed)
FROM capture WHERE build = ? AND (failed NOTNULL OR malformed NOTNULL) ORDER BY device, file, digest"""


class Uncounted(NamedTuple):
    """How many captures of a build count, and why others do not. `missing`: so many fewer it has than the old ones."""
    build: str
    counted: int
    failed: int
    malformed: int
    missing: int

    @property
    def due(self) -> int:
        return self.counted + self.failed + self.malformed + self.missing

    @property
    def share(self) -> float:
        return self.counted / self.due

    def __str__(self) -> str:
        whys = (("failed", self.failed), ("malformed", self.malformed), ("missing beside the old builds", self.missing))
        why = [f"{count} {what}" for what, count in whys if count]
        return f"{self.counted} of {counted(self.due, 'capture')} of {self.build} count: {', '.join(why)}"


class Refused(NamedTuple):
    """A capture that does not count."""
    device: str
    file: str
    how: str
    why: str


def recordings(build: Build) -> int:
    return build.captures + build.malformed + build.failed


def uncounted(builds: list[Build]) -> list[Uncounted]:
    """Of each of the builds that are compared, the new one last."""
    *old, new = builds
    usual = round(sum(map(recordings, old)) / len(old))
    missing = usual - recordings(new) if recordings(new) < FEWER * usual else 0
    return [Uncounted(build.name, build.captures, build.failed, build.malformed, missing if build is new else 0)
            for build in builds]


def too_few(builds: list[Build], share: float) -> list[str]:
    """The builds of which a smaller share counts."""
    return [one.build for one in uncounted(builds) if one.share < share]


def refused(lab: sqlite3.Connection, build: str) -> Iterator[Refused]:
    """The captures of a build that do not count."""
    return (Refused(*row) for row in lab.execute(REFUSED, (build,)))
