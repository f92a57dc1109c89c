"""The files that are beside a side list: they begin with the same name."""

import pathlib
import re
from typing import Iterator


def places_beside(side: str, ending: str) -> Iterator[pathlib.Path]:
    """Where a file of this ending may be, beside a side list OUT.side or, of a flight recorder, OUT-1.side."""
    out = side.removesuffix(".side")
    for base in dict.fromkeys((out, re.sub(r"-[0-9]+$", "", out))):
        yield pathlib.Path(base + ending)


def bytes_beside(sides: list[str], ending: str) -> tuple[pathlib.Path, bytes] | None:
    """The first such file that is there, and what it has."""
    for side in sides:
        for path in places_beside(side, ending):
            try:
                if path.is_file():  # a FIFO would keep us waiting
                    return path, path.read_bytes()
            except OSError:
                continue
    return None
