"""The data of a transaction or reply, as libbinder writes them: numbers of four and eight bytes, texts and objects, one
after another, each from a multiple of four bytes on."""

import struct
from typing import NamedTuple, Sequence

# What an object in the list of offsets is, by its first four bytes, and how many bytes libbinder gives it.
SORTS = {0x73622A85: "BINDER", 0x77622A85: "WEAK_BINDER", 0x73682A85: "HANDLE", 0x77682A85: "WEAK_HANDLE",
         0x66642A85: "FD"}
OBJECT = struct.Struct("<IIQQ")


class Stop(Exception):
    """From here on the data can't be read: the byte of the data, and why."""

    def __init__(self, at: int, why: str) -> None:
        super().__init__(why)
        self.at, self.why = at, why


class Misfit(Stop):
    """The data are not what is declared."""


class Unknown(Stop):
    """The sources do not say what lies here."""


class Object(NamedTuple):
    """An object: its sort, and its number: the address of a BINDER, a handle, or a descriptor."""
    sort: str
    number: int

    def __str__(self) -> str:
        return f"{self.sort} 0x{self.number:x}" if self.sort.endswith("BINDER") else f"{self.sort} {self.number}"


class Parcel:
    """Data from a place on, with the places of the objects in them. Each byte is read once, and no byte of an object is
    read as something else."""

    def __init__(self, data: bytes, offsets: Sequence[int] = (), at: int = 0) -> None:
        self.data, self.at, self.end = data, at, len(data)
        self.offsets = sorted(set(offsets))
        self.next = 0
        self.pass_objects()

    def left(self) -> int:
        return self.end - self.at

    def pass_objects(self) -> None:
        """Passes the objects that begin before this place."""
        while self.next < len(self.offsets) and self.offsets[self.next] < self.at:
            self.next += 1

    def skip(self, end: int) -> None:
        """Goes on at a place that something in the data names."""
        self.at = end
        self.pass_objects()

    def take(self, count: int, what: str) -> bytes:
        """So many bytes, and what fills them up to a multiple of four."""
        begin, end = self.at, self.at + count + -count % 4
        if end > self.end:
            raise Misfit(begin, f"{what} of {count} bytes, and {self.left()} are left")
        if self.next < len(self.offsets) and self.offsets[self.next] < end:
            raise Misfit(self.offsets[self.next], f"an object within {what}")
        if any(self.data[begin + count:end]):
            raise Misfit(begin + count, f"bytes after {what} that are not 0")
        self.at = end
        return self.data[begin:begin + count]

    def int32(self, what: str) -> int:
        return int.from_bytes(self.take(4, what), "little", signed=True)

    def length(self, least: int, what: str) -> int | None:
        """The number of things that follow, of which each takes so many bytes at least; None for null."""
        begin = self.at
        count = self.int32(f"the length of {what}")
        if count == -1:
            return None
        if not 0 <= count * least <= self.left():
            raise Misfit(begin, f"{what} of length {count}, and {self.left()} bytes are left")
        return count

    def marker(self, what: str) -> bool:
        """Whether something that may be null is there."""
        begin = self.at
        found = self.int32(f"the marker of {what}")
        if found not in (0, 1):
            raise Misfit(begin, f"the marker of {what} is {found}")
        return bool(found)

    def size(self, what: str) -> int:
        """Where something ends that begins with its own size, this number included."""
        begin = self.at
        size = self.int32(f"the size of {what}")
        if not 4 <= size <= self.end - begin:
            raise Misfit(begin, f"the size of {what} is {size}, and {self.end - begin} bytes are left")
        return begin + size

    def string16(self) -> str | None:
        """A String16: the number of its units, the units, and a NUL."""
        begin = self.at
        units = self.length(2, "a String")
        if units is None:
            return None
        data = self.take(2 * units + 2, "a String")
        if data[-2:] != b"\0\0":
            raise Misfit(begin, f"a String of {units} units without a NUL after them")
        return data[:-2].decode("utf-16-le", "surrogatepass")

    def object(self, what: str) -> Object | None:
        """An object of the list of offsets. One that is no object of the list is null, or the handle 0: libbinder
        lists neither."""
        begin = self.at
        if self.left() < OBJECT.size:
            raise Misfit(begin, f"{what} of {OBJECT.size} bytes, and {self.left()} are left")
        word, _, number, cookie = OBJECT.unpack_from(self.data, begin)
        is_listed = self.next < len(self.offsets) and self.offsets[self.next] == begin
        sort = SORTS.get(word)
        if sort is None or not is_listed and (sort not in ("BINDER", "HANDLE") or number or cookie):
            raise Misfit(begin, f"no object where {what} should be")
        if is_listed:
            self.next += 1
        self.take(OBJECT.size, what)
        if not is_listed and sort == "BINDER":
            return None
        return Object(sort, number if sort.endswith("BINDER") else number & 0xFFFFFFFF)
