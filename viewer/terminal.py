"""What the programs write to standard output and standard error. A text may be a stranger's: a name in a capture, a
side list or a book, the name of a file, what another program says of one. So each sign that a terminal would obey, or
that turns or hides other signs, is written as its number, and no locale makes a text fail."""

import contextlib
import io
import sys
import unicodedata
from typing import Iterable, cast

from viewer.files import Stopped


def is_sign(character: str) -> bool:
    """Whether a character is invisible or changes others: controls, marks of direction, ends of lines, halves of
    surrogates, characters without a name."""
    return unicodedata.category(character) in ("Cc", "Cf", "Cs", "Co", "Cn", "Zl", "Zp")


def shown(text: str) -> str:
    """A text for a line. Whatever it has, it stays in its line."""
    if text.isprintable():  # so it has no such character
        return text
    return "".join(f"\\x{ord(one):02x}" if is_sign(one) else one for one in text)


def field_of(value: object) -> str:
    """A field of a line of fields. A backslash is written as its number too: so each text has a field of its own."""
    return "-" if value in (None, "") else shown(str(value).replace("\\", "\\x5c"))


def line_of(*values: object) -> str:
    """A line of fields, with tabs between."""
    return "\t".join(map(field_of, values)) + "\n"


def tell(program: str, line: str) -> None:
    """Writes a line to standard error, in the encoding of the locale: what that lacks is written as its number. If
    standard error takes nothing, nobody can be told."""
    if sys.stderr is not None:
        with contextlib.suppress(OSError):
            sys.stderr.write(f"{program}: {shown(line)}\n")


def tell_fault(kind: str) -> None:
    """Writes the line by which the proved programs name an error of a run."""
    if sys.stderr is not None:
        with contextlib.suppress(OSError):
            sys.stderr.write(f"fault {kind}\n")


def write(lines: Iterable[str]) -> None:
    """Writes lines to standard output, in UTF-8 whatever the locale is. A line may have tabs between its fields."""
    if sys.stdout is None:
        raise Stopped(4, "standard output is closed")
    cast(io.TextIOWrapper, sys.stdout).reconfigure(encoding="utf-8", newline="\n")
    for line in lines:
        sys.stdout.write("\t".join(map(shown, line.removesuffix("\n").split("\t"))) + "\n")
    sys.stdout.flush()
