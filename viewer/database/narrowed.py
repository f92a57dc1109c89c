"""Which part of a system alone was recorded, by the side list."""

import shlex
from typing import Callable, NamedTuple

# The kinds of words. `more` counts words that had no room, of whatever kind.
PROCESSES, DEVICES, MORE = ("pid", "only"), ("device",), "more"


class Narrowed(NamedTuple):
    """What alone was recorded, as the options say it by which it was; and whether other processes, or other devices,
    were left out."""
    options: str
    processes: bool
    devices: bool

    def facts(self) -> dict[str, object]:
        return {"narrowed": self.options, "narrowed_processes": int(self.processes),
                "narrowed_devices": int(self.devices)}


def narrowed_of(text: str, unescaped: Callable[[str], str]) -> Narrowed:
    """The words `KIND:VALUE`, with commas between. Of a kind that is not known, only what it may leave out counts."""
    words = [word.split(":", 1) for word in text.split(",")]
    kinds = {kind for kind, _ in words}
    options = [f"--{kind} {shlex.quote(unescaped(value))}" for kind, value in words if kind in (*PROCESSES, *DEVICES)]
    options += [f"and {int(value)} more" for kind, value in words if kind == MORE]
    others = not kinds <= {*PROCESSES, *DEVICES}
    return Narrowed(" ".join(options) or "by other options", others or not kinds.isdisjoint(PROCESSES),
                    others or not kinds.isdisjoint(DEVICES))
