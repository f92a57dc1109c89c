"""The commands that show a capture of a lab, which are to be run in the folder of the lab."""

import os
import pathlib
from typing import NamedTuple

from viewer.files import word_of
from viewer.program_names import called_anywhere


class Commands(NamedTuple):
    """What to type to see a place of a capture, and to make its page."""
    place: str | None
    page: str | None


def folder_of(path: str) -> pathlib.Path:
    """The folder of a lab, in which its captures are if lab/Makefile made it."""
    return pathlib.Path(os.path.dirname(os.path.abspath(path)))


def side_options(folder: pathlib.Path, at: str, files: list[str]) -> list[str]:
    """The side list of a session, or of each of its parts, as far as they are beside its files, as lab/many.py finds
    them."""
    stems = [name.removesuffix(".cap") for name in files]
    session = stems[0].rpartition("-")[0] if stems[0].rpartition("-")[2].isdigit() else stems[0]
    whole = [f"{at}/{session}.side"]
    sides = whole if (folder / whole[0]).exists() else [f"{at}/{stem}.side" for stem in stems]
    return [f"--side {word_of(side)}" for side in sides if (folder / side).exists()]


def commands_of(folder: pathlib.Path, at: str, file: str | None, place: int | None) -> Commands:
    """Those of a capture, whose files lie at BUILD/DEVICE in the folder of the lab."""
    if not file:
        return Commands(None, None)
    files = file.split(" ")
    words = " ".join(word_of(f"{at}/{name}") for name in files)
    listing, view = (word_of(called_anywhere(program)) for program in ("listing", "view"))
    return Commands(f"{listing} {words} --at {place}" if place is not None else None,
                    " ".join((view, words, *side_options(folder, at, files))))
