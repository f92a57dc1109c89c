"""Takes captures apart, without judging them: their frames, and the records and attachments of a frame."""

import struct
from typing import Iterator, NamedTuple

FILE_HEADER = 16  # bytes
HEADER = struct.Struct("<QIIIIII")


class Frame(NamedTuple):
    place: int
    sequence: int
    device: int
    process: int
    thread: int
    direction: int
    commands: bytes
    attached: bytes

    @property
    def end(self) -> int:
        return self.place + HEADER.size + len(self.commands) + len(self.attached)


def frames_of(capture: bytes, at: int = FILE_HEADER) -> list[Frame]:
    """The whole frames. The last frame of a recorder that was killed may be cut."""
    found: list[Frame] = []
    while len(capture) - at >= HEADER.size:
        sequence, process, thread, direction, size, more, device = HEADER.unpack_from(capture, at)
        middle = at + HEADER.size + size
        if len(capture) < middle + more:
            break
        found.append(Frame(at, sequence, device, process, thread, direction, capture[at + HEADER.size:middle],
                           capture[middle:middle + more]))
        at = middle + more
    return found


def end_of(frames: list[Frame]) -> int:
    """Where the last frame of a capture ends."""
    return frames[-1].end if frames else FILE_HEADER


def records_of(commands: bytes) -> Iterator[tuple[int, bytes]]:
    """The code word and the payload of each record."""
    at = 0
    while at < len(commands):
        word, = struct.unpack_from("<I", commands, at)
        end = at + 4 + (word >> 16 & 0x3fff)
        yield word, commands[at + 4:end]
        at = end


def entries_of(attached: bytes) -> Iterator[tuple[int, bytes, bytes]]:
    """Of each attachment the offset of its record, its data, and its list of offsets."""
    at = 0
    while at < len(attached):
        record, size, listed = struct.unpack_from("<III", attached, at)
        middle, end = at + 12 + size, at + 12 + size + listed
        yield record, attached[at + 12:middle], attached[middle:end]
        at = end
