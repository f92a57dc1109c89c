"""What came of each session of a recording, as SERIES.txt has it beside the archive.

A session that the set expects and that is not in the archive has a line there too: `not recorded: WHY`, or `not kept:
WHY`, and is then left out of new archives too. So none leaves what is judged without a word."""

import pathlib
from typing import Iterator

from checks.recorder.blind.expected import blocks_of, expectations
from checks.recorder.blind.judged import Judged
from checks.recorder.blind.recordings import SUFFIX, stored_archives

# The lines of each session, by its name.
Came = dict[str, list[str]]

NOT_RECORDED, NOT_KEPT = "not recorded: ", "not kept: "
ABSENT = NOT_RECORDED, NOT_KEPT


def came_of(judged: list[Judged]) -> Came:
    return {one.expected.name: [*one.told(), *one.complaints()] for one in judged}


def file_beside(archive: pathlib.Path) -> pathlib.Path:
    return archive.with_name(archive.name.removesuffix(SUFFIX) + ".txt")


def stored_beside(archive: pathlib.Path) -> Came:
    blocks = blocks_of(beside) if (beside := file_beside(archive)).exists() else {}
    return {name: [line.strip() for line in lines] for name, lines in blocks.items()}


def text_of(came: Came) -> str:
    return "".join(f"{name}\n" + "".join(f"    {line}\n" for line in came[name]) for name in sorted(came))


def absent(stored: Came, why: str | tuple[str, ...] = ABSENT) -> Came:
    """The sessions of which a line says why they are not in the archive."""
    return {name: lines for name, lines in stored.items() if lines and lines[0].startswith(why)}


def names_of(archive: pathlib.Path) -> list[str]:
    """The sessions that the set expects, and those of which only something is stored."""
    expected = expectations(archive.with_name("expected.txt"))
    return sorted(expected.keys() | stored_beside(archive).keys())


def all_names() -> list[str]:
    """The names of all cases: a session in each recording."""
    return [f"{archive.parent.name}/{file_beside(archive).stem}/{name}"
            for archive in stored_archives() for name in names_of(archive)]


def unlike(of: str, names: list[str], came: Came, due: Came) -> Iterator[str]:
    """Which of these sessions another thing came of than is due, and which are neither recorded nor said not to be."""
    for name in sorted({*names, *came}):
        if name in came or name in due:
            was, is_now = (said(lines.get(name)) for lines in (due, came))
            if was != is_now and (name in came or name not in absent(due)):
                yield f"{of}/{name}: expected {was}, came {is_now}"
        else:
            yield f"{of}/{name}: it is expected, and neither is it recorded nor is it said why not"


def said(lines: list[str] | None) -> str:
    return "no session" if lines is None else "; ".join(lines) or "nothing"
