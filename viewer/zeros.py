"""A capture that ends in zeros. A file system may have noted how long a file is, and not yet what the file holds, when
the system lost its power: from some block on there are only zeros."""

import os
import pathlib
import struct
from typing import BinaryIO, NamedTuple

from viewer.files import errors_of, for_owner

FILE_HEADER, FRAME_HEADER = 16, 32

# Of a frame header: the direction, what is reserved, and the lengths of commands and attachments.
FIELDS = struct.Struct("<16xB3s2I4x")

# The least bytes of a block of a file system. A frame may lack a block that is all zeros, as all is that follows.
BLOCK = 512

# The most bytes of a record's payload that is listed. After so many zeros a code word is zero, which none is.
LONGEST_PAYLOAD = 72

PIECE = 1 << 20


class Ended(NamedTuple):
    """A file that ends in zeros: how long it is without these, and without a frame of which they may be a part, 0 if it
    has nothing else; how many zeros there are, and how many bytes."""
    length: int
    zeros: int
    size: int

    @property
    def meaning(self) -> str:
        """What the file is, after its name."""
        if not self.length:
            return f"has only zeros, {self.size:,} of them, as a file may after a loss of power, and is left out"
        return (f"ends in {self.zeros:,} zero bytes, as a file may after a loss of power: of its {self.size:,} bytes"
                f" the last {self.size - self.length:,} are left out")


def length_without(file: BinaryIO, size: int) -> int:
    """How long a file is without the zeros at its end."""
    while size:
        begin = max(0, size - PIECE)
        file.seek(begin)
        if rest := file.read(size - begin).rstrip(b"\0"):
            return begin + len(rest)
        size = begin
    return 0


class Frame(NamedTuple):
    """Where a frame begins, and where its commands and its attachments end."""
    begin: int
    commands: int
    end: int


def last_frame(file: BinaryIO, size: int, until: int) -> Frame:
    """The last whole frame that begins before `until`; without one an empty frame behind the file's header."""
    last = Frame(FILE_HEADER, FILE_HEADER, FILE_HEADER)
    file.seek(last.end)
    while last.end < until and len(header := file.read(FRAME_HEADER)) == FRAME_HEADER:
        direction, reserved, commands, attachments = FIELDS.unpack(header)
        behind = last.end + FRAME_HEADER + commands
        if direction not in (1, 2) or any(reserved) or behind + attachments > size:
            break
        last = Frame(last.end, behind, behind + attachments)
        file.seek(commands + attachments, os.SEEK_CUR)
    return last


def ended(path: str | os.PathLike[str]) -> Ended | None:
    """How a capture ends in zeros behind its frames; None if it does not. What else may be wrong with it is not for
    here: a frame that goes on behind the file's end, or in which other bytes than the last ones are zeros."""
    with open(path, "rb") as file:
        size = file.seek(0, os.SEEK_END)
        until = length_without(file, size)
        if size - until < FRAME_HEADER:
            return None
        last = last_frame(file, size, until)
    if until == 0:
        return Ended(0, size, size)
    if until - last.end >= FRAME_HEADER:
        return None
    block = -(-until // BLOCK) * BLOCK
    lacks_some = block < last.end if last.end < size else last.commands - until > LONGEST_PAYLOAD
    if last.end == size and not lacks_some:
        return None
    return Ended(last.begin if lacks_some else last.end, size - until, size)


def ended_text(path: str | os.PathLike[str]) -> Ended | None:
    """How a text ends in zeros; None if it does not."""
    with open(path, "rb") as file:
        size = file.seek(0, os.SEEK_END)
        length = length_without(file, size)
    return Ended(length, size - length, size) if length < size else None


# The header of a capture, behind which no frame comes.
HEADER = b"BNDRCAP2" + struct.pack("<2I", 8, 0)


def copy_begin(path: str, to: pathlib.Path, length: int) -> None:
    """Copies so many bytes of a file; without any, the header of a capture."""
    with errors_of(to), open(path, "rb") as whole, open(to, "xb", opener=for_owner) as begin:
        if not length:
            begin.write(HEADER)
        while length and (piece := whole.read(min(PIECE, length))):
            begin.write(piece)
            length -= len(piece)


def without_zeros(files: list[str], parts: list[pathlib.Path]) -> dict[str, Ended]:
    """Puts copies in place of the links to files that end in zeros, which lack these. Returns how these files end. A
    file that has nothing else becomes a capture without frames, unless it is the only one."""
    ends = {name: end for name in files if (end := ended(name)) and (end.length or len(files) > 1)}
    for name, part in zip(files, parts):
        if name in ends:
            part.unlink()
            copy_begin(name, part, ends[name].length)
    return ends
