"""Stored edits of files of viewer/page: wrong versions, each of which a check must tell from the right one."""

import pathlib
import shutil
from typing import NamedTuple


class Edit(NamedTuple):
    """In a file the one `old`, or the first one at or after `at`, becomes `new`."""
    name: str
    file: str
    at: str
    old: str = ""
    new: str = ""


def edits_of(path: pathlib.Path, names: str) -> list[Edit]:
    """The edits of a list whose names have one of these parts, which are separated by commas. `in FILE`, or `in FILE at
    TEXT`, holds for the edits that follow. Each has its name, a line `- OLD` and a line `+ NEW`. `\\n` is the end of a
    line."""
    found: list[Edit] = []
    file = at = ""
    for line in path.read_text("utf-8").splitlines():
        word, _, rest = line.partition(" ")
        text = rest.replace("\\n", "\n")
        if word == "in":
            file, _, at = text.partition(" at ")
        elif field := {"-": "old", "+": "new"}.get(word):
            found[-1] = found[-1]._replace(**{field: text})
        elif word and word != "#":
            found.append(Edit(word, file, at))
    return [edit for edit in found if any(one in edit.name for one in names.split(","))]


def edited(edit: Edit, source: pathlib.Path, folder: pathlib.Path) -> None:
    """Copies a folder to a new one, with the edit."""
    shutil.copytree(source, folder, ignore=shutil.ignore_patterns("out", "__pycache__"))
    path = folder / edit.file
    text = path.read_text("utf-8")
    if not edit.at and text.count(edit.old) > 1:
        raise ValueError("what it replaces is in the file more than once")
    at = text.index(edit.old, text.index(edit.at))
    path.write_text(text[:at] + edit.new + text[at + len(edit.old):], "utf-8")
