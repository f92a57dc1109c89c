"""The command that is next: `./view` of what was fetched."""

import os
import re

from viewer.files import quoted

MOST_TOGETHER = 1_073_741_824  # the most bytes that the auditor takes as one capture,
MOST_FILES = 256  # and the most files


def numbered(paths: list[str], ending: str) -> dict[int, str]:
    found = {int(match[1]): path for path in paths if (match := re.search(rf"-(\d+)\.{ending}\Z", path))}
    return dict(sorted(found.items()))


def together(captures: dict[int, str]) -> list[int]:
    """The newest captures that are taken as one."""
    chosen: list[int] = []
    size = 0
    for number, path in reversed(captures.items()):
        size += os.path.getsize(path)
        if chosen and (size > MOST_TOGETHER or len(chosen) == MOST_FILES):
            break
        chosen.insert(0, number)
    return chosen


def view_beside(record: str) -> str:
    """The viewer is in the folder of the script that was called. In a package both names begin with `binder-`."""
    return re.sub(r"record\Z", "view", record)


def view_words(paths: list[str]) -> list[str]:
    """The newest captures, and their side lists. Names that begin with a dash are not taken for options."""
    captures, sides = numbered(paths, "cap"), numbered(paths, "side")
    chosen = together(captures)
    whole = [path for path in paths if path.endswith(".side") and path not in sides.values()]
    words = [captures[number] for number in chosen]
    for side in whole or [sides[number] for number in chosen if number in sides]:
        words += ["--side", side]
    return [f"./{word}" if word in paths and word.startswith("-") else word for word in words]


def view_command(record: str, paths: list[str]) -> str:
    return " ".join(map(quoted, [view_beside(record), *view_words(paths)]))
