"""What is told once in a trace of Perfetto, and then named by a number: names, and the values of arguments."""

from viewer.timeline.events import ADDRESSES
from viewer.timeline.wire import message, number

# Fields of InternedData.
CATEGORY_NAMES, EVENT_NAMES, ARGUMENT_NAMES, ARGUMENT_TEXTS = 1, 2, 3, 29

# Fields of TrackEvent and of DebugAnnotation: the one that has the number of a text, and the one that has the text.
CATEGORY, EVENT_NAME, TEXT = (3, 22), (10, 23), (17, 6)
ARGUMENT, ARGUMENT_NAME, UNSIGNED, SIGNED, POINTER = 4, 1, 3, 4, 7

# So many texts of a kind get a number.
MOST = 2**16


class Interned:
    """What has a number. `new` is what the next packet has to tell."""

    def __init__(self) -> None:
        self.new: list[bytes] = []
        self.known: dict[tuple[int, bytes], int] = {}
        self.counts: dict[int, int] = {}

    def number_of(self, kind: int, data: bytes, is_text: bool = True) -> int:
        """The number of something in the list `kind`: of a text, or of a message, whose fields `data` are."""
        made = self.known.get((kind, data))
        if made is None:
            made = self.known[kind, data] = self.counts[kind] = self.counts.get(kind, 0) + 1
            self.new.append(message(kind, number(1, made), message(2, data) if is_text else data))
        return made

    def text(self, kind: int, fields: tuple[int, int], value: str) -> bytes:
        """A field with a text, by its number or whole: a reader keeps all that have a number."""
        data = value.encode(errors="replace")
        if self.counts.get(kind, 0) < MOST or (kind, data) in self.known:
            return number(fields[0], self.number_of(kind, data))
        return message(fields[1], data)

    # -- arguments

    def argument_head(self, name: str) -> bytes:
        """How an argument is called."""
        return number(ARGUMENT_NAME, self.number_of(ARGUMENT_NAMES, name.encode()))

    def argument(self, name: str, value: object) -> bytes:
        """An argument of an event."""
        head = self.argument_head(name)
        if isinstance(value, int):
            field = number(POINTER if name in ADDRESSES else UNSIGNED if value >= 0 else SIGNED, value)
        else:
            field = self.text(ARGUMENT_TEXTS, TEXT, str(value))
        return message(ARGUMENT, head, field)
