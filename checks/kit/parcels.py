"""The data of transactions and replies as libbinder writes them, by hand: a second reading of their form, from the
header files of libbinder and not from the viewer."""

import struct

from checks.kit.tokens import ended, marked, numbers, string16

BINDER, HANDLE, FD, FDA = 0x73622A85, 0x73682A85, 0x66642A85, 0x66646185
WEAK_BINDER, WEAK_HANDLE = 0x77622A85, 0x77682A85


class Parcel:
    """Data that grow, and the places of the objects in them. Since Android 11 the stability of an object follows it."""

    def __init__(self, begin: bytes = b"", has_stability: bool = True) -> None:
        self.data, self.offsets, self.has_stability = begin, list[int](), has_stability

    def raw(self, data: bytes) -> "Parcel":
        self.data += data
        return self

    def ints(self, *words: int) -> "Parcel":
        return self.raw(numbers(*(word % 2**32 for word in words)))

    def long(self, *words: int) -> "Parcel":
        return self.raw(struct.pack(f"<{len(words)}q", *words))

    def reals(self, single: float, double: float) -> "Parcel":
        return self.raw(struct.pack("<fd", single, double))

    def text(self, *texts: str | None) -> "Parcel":
        for text in texts:
            self.raw(numbers(2**32 - 1) if text is None else string16(text))
        return self

    def blob(self, data: bytes) -> "Parcel":
        return self.raw(ended(numbers(len(data)) + data))

    def object(self, sort: int, number: int, cookie: int = 0, is_listed: bool = True) -> "Parcel":
        if is_listed:
            self.offsets.append(len(self.data))
        return self.raw(struct.pack("<IIQQ", sort, 0, number, cookie))

    def binder(self, sort: int, number: int, is_listed: bool = True) -> "Parcel":
        self.object(sort, number, is_listed=is_listed)
        return self.ints(12) if self.has_stability else self

    def null_binder(self) -> "Parcel":
        return self.binder(BINDER, 0, False)

    def sized(self, inner: "Parcel") -> "Parcel":
        """A parcelable that is there: its marker, its size, and its fields."""
        self.ints(1, 4 + len(inner.data))
        self.offsets += [len(self.data) + offset for offset in inner.offsets]
        return self.raw(inner.data)


def call(interface: str) -> Parcel:
    """The begin of a call to an interface, as since Android 11."""
    return Parcel(marked(interface))
