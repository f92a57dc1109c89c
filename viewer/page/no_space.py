"""What filled the space of receivers when sends of a group found none."""

from typing import NamedTuple

from viewer.page.capture import Capture
from viewer.rules.paths import call_words

# The most rows of a group.
MOST = 20


class Filling(NamedTuple):
    """Transactions of one sender and method, or replies, that waited or were held when a finding's send was refused."""
    place: int
    receiver: int
    sender: int
    call: str | None
    kind: str
    n: int
    bytes: int
    held: int
    largest: int


def kind_of(reply: int, oneway: int) -> str:
    return "reply" if reply else "oneway" if oneway else "call"


def filling_of(capture: Capture, group: int) -> tuple[list[Filling], int]:
    """The rows of a group, and how many there are."""
    rows = capture.asked("no_space", group, MOST)
    made = [Filling(place, receiver, sender, call_words(code, capture.names.short.get(interface), 0, method),
                    kind_of(reply, oneway), *numbers)
            for place, receiver, sender, code, interface, method, reply, oneway, *numbers, _ in rows]
    return made, rows[0][-1] if rows else 0
