"""The order of the builds of a lab: by a file that lists them, or their commits, and else by the clocks of the devices.
"""

import datetime
import re
import sqlite3
from collections.abc import Iterator

from viewer.files import Stopped, refuse_named_pipe

# A commit in a line, or in the name of a build.
COMMIT = re.compile(r"(?<![0-9a-z])[0-9a-f]{7,40}(?![0-9a-z])")

# No device recorded before, in nanoseconds: 2008, when Android came.
FIRST_CLOCK = 1_199_145_600 * 10**9


def words_of(path: str) -> list[str]:
    """The first word of each line, the oldest build first. A line may be empty, or begin with #."""
    refuse_named_pipe(path)
    try:
        with open(path, encoding="utf-8", errors="replace") as lines:
            return [words[0] for line in lines if (words := line.split()) and not words[0].startswith("#")]
    except OSError as error:
        raise Stopped(4, f"{path}: {error.strerror}") from error


def commits_in(name: str) -> list[str]:
    return COMMIT.findall(name.lower())


def listed(words: list[str], builds: list[str]) -> dict[str, int]:
    """The place of each build that is listed by its name, or by a commit that its name has."""
    places = {word: at for at, word in enumerate(words)}
    commits: dict[str, list[tuple[str, int]]] = {}
    for word, at in places.items():
        for commit in commits_in(word):
            commits.setdefault(commit[:7], []).append((commit, at))
    found = {}
    for build in builds:
        by_commit = [at for own in commits_in(build) for commit, at in commits.get(own[:7], ())
                     if commit.startswith(own) or own.startswith(commit)]
        if build in places or by_commit:
            found[build] = places[build] if build in places else by_commit[0]
    return found


def put_order(lab: sqlite3.Connection, path: str) -> None:
    """Orders the builds of a lab as a file lists them. Those that it lacks come after them, by their clocks."""
    builds = [name for name, in lab.execute("SELECT name FROM build")]
    found = listed(words_of(path), builds)
    if not found:
        raise Stopped(1, f"{path} lists no build of the lab")
    lab.executemany("INSERT INTO listed(name, number) VALUES (?, ?)", found.items())


def date_of(begun: int | None) -> str | None:
    """The day of a time in nanoseconds; None without one that a calendar has."""
    if begun is None:
        return None
    try:
        return f"{datetime.datetime.fromtimestamp(begun // 10**9, datetime.timezone.utc):%Y-%m-%d}"
    except (OverflowError, ValueError, OSError):
        return None


def wrong_clocks(lab: sqlite3.Connection, builds: list[str]) -> Iterator[str]:
    """What the clocks of these builds say that can't be, or that the file contradicts."""
    some = [row for row in lab.execute("SELECT b.name, b.begun, l.number FROM build b LEFT JOIN listed l USING (name)"
                                       " WHERE b.begun NOTNULL ORDER BY b.number") if row[0] in builds]
    is_listed = any(number is not None for *_, number in some)
    if lacking := [name for name, _, number in some if number is None and is_listed]:
        yield f"the order of builds lacks {', '.join(lacking)}, which so come last"
    for (name, begun, _), (later, after, _) in zip(some, some[1:]):
        if after < begun:
            yield f"by their clocks {later} ({date_of(after)}) comes before {name} ({date_of(begun)}), and not after it"
    for name, begun, number in some:
        if begun < FIRST_CLOCK and not is_listed and len(some) > 1:
            yield f"the clocks of {name} say {date_of(begun)}, by which builds are ordered: give their order by --order"
