"""What the first fault of a malformed capture means: which of its files has the fault, and what that says of the
file."""

import contextlib
import re
from typing import NamedTuple

from viewer.zeros import Ended, ended

# The auditor's line.
LINE = r"malformed (\w+) at (\d+)(?: in part (\d+))?"

# What is wrong with a file that has a fault of this kind.
MEANINGS = {
    "HeaderShort": "is no capture: it has fewer bytes than the header of one",
    "HeaderMagic": "is no capture: it does not begin with BNDRCAP1 or BNDRCAP2",
    "HeaderProtocol": "is of another Binder protocol",
    "HeaderReserved": "has a wrong header",
    "FrameShort": "was cut there",
    "FrameSequence": "has a frame there whose number does not rise: frames are not sorted, or files are in the wrong"
                     " order or given twice",
    "FrameDirection": "has a wrong length before that, or a second capture there",
    "FrameReserved": "has a wrong length before that, or a second capture there",
    "FrameLength": "was cut there, or has a wrong length",
    "RecordShort": "has a wrong record there",
    "RecordDirection": "has a wrong record there",
    "RecordSize": "has a wrong record there",
    "AttachShort": "has a wrong attachment there",
    "AttachRecord": "has a wrong attachment there",
    "AttachSize": "has a wrong attachment there"}


class Fault(NamedTuple):
    """The first fault of a capture: the auditor's line, its kind and place in a file, and what is wrong with that."""
    line: str
    kind: str
    place: int
    file: str
    meaning: str

    def __str__(self) -> str:
        return f"{self.line}: {self.file} {self.meaning}"


def end_at(file: str, place: int) -> Ended | None:
    """How the file ends in zeros, if it does from before this place on, or from there."""
    with contextlib.suppress(OSError):
        if (end := ended(file)) and end.length <= place:
            return end
    return None


def fault_of(line: str, files: list[str]) -> Fault:
    """The fault that a line of the auditor names in a capture of these files."""
    found = re.fullmatch(LINE, line)
    assert found, line
    kind, place, part = found[1], int(found[2]), int(found[3] or 1)
    if end := end_at(files[part - 1], place):
        return Fault(line, kind, place, files[part - 1], end.meaning)
    shows_some = part > 1 or not kind.startswith("Header")
    return Fault(line, kind, place, files[part - 1],
                 MEANINGS[kind] + ("; what is shown comes before that" if shows_some else ""))
