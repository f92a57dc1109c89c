"""What is on the page at once, and what of a large page is packed: its script unpacks and draws that when it is
looked at."""

import base64
import zlib
from typing import Iterator, NamedTuple

# The most characters of the rows and cards of a page that are there at once, and of these of one table. A table has at
# least some of its first rows at once.
MOST, OF_TABLE, LEAST_ROWS = 1_400_000, 150_000, 25

# So many characters of cards are packed together.
OF_PACK = 400_000


class Packed(NamedTuple):
    """What of the page is packed: how many rows or cards it has, and their text."""
    amount: int
    text: str


def packed(amount: int, markup: str) -> Packed:
    """Packs what is made by the engine, in which all texts of a capture are escaped."""
    return Packed(amount, base64.b64encode(zlib.compress(markup.encode("utf-8", "replace"), 9)).decode())


class Rows(NamedTuple):
    """The rows of a table: those that are on the page at once, and the others."""
    drawn: str
    packed: Packed | None


class Pile:
    """Cards that come one after another."""

    def __init__(self, parts: "Parts"):
        self.parts = parts
        self.cards: list[str] = []
        self.size = 0
        self.done: list[Packed] = []

    def is_drawn(self, card: str) -> bool:
        """Whether a card is on the page at once. If not, it is packed with those beside it."""
        if not self.done and not self.cards and self.parts.take(len(card)):
            return True
        self.cards.append(card)
        self.size += len(card)
        if self.size > OF_PACK:
            self.pack()
        return False

    def pack(self) -> None:
        if self.cards:
            self.done.append(packed(len(self.cards), "".join(self.cards)))
        self.cards, self.size = [], 0

    def packs(self) -> Iterator[Packed]:
        self.pack()
        yield from self.done


class Parts:
    """The parts of a page, which share how much of it may be there at once."""

    def __init__(self, most: int = MOST):
        self.left = most

    def take(self, size: int) -> bool:
        """Whether so many characters more may be there at once."""
        if size > self.left:
            return False
        self.left -= size
        return True

    def pile(self) -> Pile:
        return Pile(self)

    def rows(self, markup: str, begin: str) -> Rows:
        """The rows of a table, each of which begins so. The first ones are on the page at once."""
        if len(markup) <= OF_TABLE and self.take(len(markup)):
            return Rows(markup, None)
        # Of plain text: what is added to markup of a template is escaped, which makes it longer.
        first, *others = (begin + one if at else one for at, one in enumerate(str(markup).split(begin)))
        kept, size = 0, len(first)
        most = min(OF_TABLE, max(self.left, 0))
        while kept < len(others) and (kept < LEAST_ROWS or size + len(others[kept]) <= most):
            size += len(others[kept])
            kept += 1
        self.left -= size
        left = len(others) - kept
        return Rows(markup[:size], packed(left, markup[size:]) if left else None)
