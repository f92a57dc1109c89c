"""The text of a note. What a note says is columns until it is shown: another record (`other`) or process, counts, times
and a way; `said` has the words, with the names of these in braces."""

import re
from typing import NamedTuple

from viewer.units import counted, duration_of


class Values(NamedTuple):
    """What the braces of a note may name. `who` and `name` are those of the other process."""
    other: int | None
    who: str | None
    name: str | None
    how_many: int | None
    of_how_many: int | None
    how_long: int | None
    usually: int | None
    way: str | None


# A value by its name, and of a number of things what is counted: `{how_many:call}`.
NAMED = r"\{(\w+)(?::(\w+))?\}"
TIMES = ("how_long", "usually")


def note_text(said: str | None, *values: object) -> str | None:
    """A note of these words and values."""
    if said is None:
        return None
    known = Values(*values)  # type: ignore[arg-type]

    def told(found: re.Match) -> str:
        value = getattr(known, found[1])
        if found[1] in TIMES:
            return duration_of(value)
        return counted(value, found[2]) if found[2] else str(value)
    return re.sub(NAMED, told, said)
