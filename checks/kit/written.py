"""Captures that are too large to be held: they are written bit by bit."""

import pathlib
from itertools import chain
from typing import Iterable

from checks.kit.captures import BR_DEAD_REPLY, HEADER, frame_header, record, u64


def write_frames(path: pathlib.Path, *frames: Iterable[bytes], header: bytes = HEADER) -> None:
    """Writes a capture of these byte strings: whole frames, or the bytes of a frame in several strings."""
    with open(path, "wb") as out:
        out.write(header)
        out.writelines(chain(*frames))


def one_frame(path: pathlib.Path, direction: int, length: int, records: Iterable[bytes],
              attachments: tuple[int, Iterable[bytes]] = (0, ())) -> None:
    """Writes a capture of one frame. Its records and attachments are several byte strings, of these lengths
    together."""
    write_frames(path, [frame_header(direction, 1, 1, 1, length, attachments[0])], records, attachments[1])


def error_replies(path: pathlib.Path, count: int) -> None:
    """One frame of error replies that close nothing. Each has a row in the report."""
    one_frame(path, 2, 4 * count, (record(BR_DEAD_REPLY) for _ in range(count)))


def with_buffer(delivery: bytes, address: int) -> bytes:
    """The transaction or reply with its buffer at this address."""
    return delivery[:52] + u64(address) + delivery[60:]
