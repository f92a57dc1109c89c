"""Texts in columns of a terminal. A name may be a stranger's: whatever it has, it takes no more columns than it is
given, and changes no other one."""

import unicodedata
from typing import NamedTuple

from viewer.terminal import shown

GAP = 2
LEAST = 4  # columns of a text that is shortened


def plain(text: str) -> str:
    """A text of characters that each have a place of their own: marks that join others are written as their numbers."""
    return "".join(f"\\x{ord(one):02x}" if unicodedata.category(one) in ("Mn", "Me", "Mc") else one
                   for one in shown(text))


def width_of(text: str) -> int:
    return sum(2 if unicodedata.east_asian_width(one) in "WF" else 1 for one in text)


def cut(text: str, width: int) -> str:
    """The begin of a text."""
    while width_of(text) > width:
        text = text[:-1]
    return text


def shortened(text: str, width: int) -> str:
    """A text of at most so many columns: of a longer one the begin and the end, with a sign between."""
    if width_of(text) <= width:
        return text
    if width < 1:
        return ""
    head = cut(text, (width - 1) // 2)
    left = width - 1 - width_of(head)
    tail = text[len(text) - left:] if left else ""
    while width_of(tail) > left:
        tail = tail[1:]
    return f"{head}…{tail}"


def padded(text: str, width: int, to_right: bool) -> str:
    text = shortened(text, width)
    space = " " * (width - width_of(text))
    return space + text if to_right else text + space


class Column(NamedTuple):
    head: str
    is_number: bool = False


def widths(columns: list[Column], rows: list[list[str]], width: int) -> list[int]:
    """As wide as what is in them; if that is too much, the widest one is narrowed first."""
    found = [max(map(width_of, [column.head, *(row[at] for row in rows)])) for at, column in enumerate(columns)]
    while sum(found) + GAP * (len(found) - 1) > width:
        texts = [at for at, column in enumerate(columns) if not column.is_number and found[at] > LEAST]
        if not texts:
            break
        found[max(texts, key=lambda at: found[at])] -= 1
    return found


def laid_out(columns: list[Column], rows: list[list[str]], width: int) -> list[str]:
    """The heads, and the rows below them."""
    each = widths(columns, rows, width)
    heads = [column.head for column in columns]
    return [cut((" " * GAP).join(padded(text, wide, column.is_number)
                                 for text, wide, column in zip(row, each, columns)), width).rstrip()
            for row in [heads, *rows]]
