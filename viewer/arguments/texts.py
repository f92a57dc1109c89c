"""Texts: how one is shown, and those that are found in data without knowing what they are."""

import re
from array import array
from bisect import bisect_right
from typing import Iterable, Iterator

from viewer.terminal import is_sign

# The most characters of a text that are shown, and the fewest that a text has which is found.
SHOWN, FEWEST = 200, 3
# So many bytes libbinder gives an object.
OBJECT = 24

# Characters of UTF-8 as bytes: plain ones, and those of two, three and four bytes.
UTF8 = re.compile(rb"(?:[\x20-\x7e]|[\xc3-\xdf][\x80-\xbf]|[\xe1-\xef][\x80-\xbf]{2}|[\xf0-\xf4][\x80-\xbf]{3}){4,}")


def sign(character: str) -> str:
    if character in "\\\"":
        return f"\\{character}"
    return f"\\u{ord(character):04x}" if is_sign(character) else character


def quoted(text: str) -> str:
    """A text in quotes, whatever it has. Of a long one the begin, and how long it is."""
    begin = text[:SHOWN]
    shown = begin if begin.isprintable() and not {"\\", '"'} & set(begin) else "".join(map(sign, begin))
    return f'"{shown}"' if len(text) <= SHOWN else f'"{shown}".. ({len(text)} characters)'


def is_text(unit: int) -> bool:
    """Whether a unit of UTF-16 may be in a text: a character that can be printed, or a half of one."""
    return 0xD800 <= unit < 0xE000 or chr(unit).isprintable()


def ends_of_texts(data: bytes) -> list[int]:
    """For each second byte where the units of a text end that begin there."""
    units = array("H", data[:len(data) // 2 * 2])
    end = 2 * len(units)
    ends = [end]
    for at in range(len(units) - 1, -1, -1):
        if not is_text(units[at]):
            end = 2 * at
        ends.append(end)
    ends.reverse()
    return ends


def texts16_in(data: bytes) -> Iterator[tuple[int, int, str]]:
    """The String16 in data, each with its begin and its end: a number of units, so many, and a NUL."""
    ends = ends_of_texts(data)
    at = 0
    while at + 4 <= len(data):
        units = int.from_bytes(data[at:at + 4], "little")
        end = at + 4 + 2 * units
        if FEWEST <= units and end + 2 <= len(data) and ends[at // 2 + 2] >= end and data[end:end + 2] == b"\0\0":
            yield at, end + 2, data[at + 4:end].decode("utf-16-le", "replace")
            at = end + 2 + -(end + 2) % 4
        else:
            at += 4


def texts8_in(data: bytes, begin: int, end: int) -> Iterator[tuple[int, str]]:
    """The texts of four characters or more in UTF-8."""
    for found in UTF8.finditer(data, begin, end):
        text = found[0].decode("utf-8", "replace")
        if text.isprintable():
            yield found.start(), text


def texts_in(data: bytes, offsets: Iterable[int], begin: int = 0) -> list[tuple[int, str]]:
    """The texts in data from a byte on, each with its place, but for what lies in objects."""
    objects = sorted(offset for offset in offsets if offset < len(data))

    def has_object(first: int, last: int) -> bool:
        after = bisect_right(objects, first - OBJECT)
        return after < len(objects) and objects[after] < last

    found: list[tuple[int, str]] = []
    at = begin
    taken = [(first + begin, last + begin, text) for first, last, text in texts16_in(data[begin:])]
    known = [one for one in taken if not has_object(*one[:2])] + [(offset, offset + OBJECT, "") for offset in objects]
    for first, last, text in [*sorted(known), (len(data), len(data), "")]:
        found += texts8_in(data, at, first)
        if text:
            found.append((first, text))
        at = max(at, last)
    return found
