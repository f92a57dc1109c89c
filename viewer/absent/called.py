"""Which calls `--absent` asks for: those of a method of an interface, or of a code."""

import argparse
import re
import sqlite3
from typing import NamedTuple

from viewer.files import Stopped
from viewer.methods.known import BINDER
from viewer.processes_asked import as_name
from viewer.rules.names import short_of
from viewer.terminal import shown

CODE = r"(?:(\S.*) )?code (\d{1,10})"


class Asked(NamedTuple):
    """The words, as an interface, a method and a code. There is a method or a code, and to a method an interface."""
    word: str
    interface: str | None
    method: str | None
    code: int | None


def called(word: str) -> Asked:
    """`IHello.sayHello`, `IHello code 7` or `code 7`, as the page writes calls; the interface with or without its
    package."""
    word = as_name(word)
    if (found := re.fullmatch(CODE, word, re.ASCII)) and int(found[2]) < 2**32:
        return Asked(word, found[1], None, int(found[2]))
    interface, _, method = word.rpartition(".")
    if interface and method and not re.search(r"\s", word):
        return Asked(word, interface, method, None)
    raise argparse.ArgumentTypeError(f"{word!r} is no call, as IHello.sayHello or 'IHello code 7'")


class Meant(NamedTuple):
    """What is meant in a capture: an interface by its whole name, and codes. Without an interface each call with one of
    the codes is meant; without codes each call of the interface, since no data of the capture name that."""
    word: str
    interface: str | None
    codes: frozenset[int] | None

    @property
    def names_itself(self) -> bool:
        """Whether the data of such a call begin with the name of its interface."""
        return self.interface not in (None, BINDER)


def meant_in(database: sqlite3.Connection, asked: Asked) -> Meant:
    if asked.interface is None:
        return Meant(asked.word, None, frozenset([asked.code or 0]))
    names = {name for name, in database.execute("SELECT name FROM interface")} | {BINDER}
    found = sorted(name for name in names if asked.interface in (name, short_of(name)))
    if len(found) > 1 and asked.interface not in found:
        raise Stopped(1, f"--absent: {shown(asked.interface)} may be {' or '.join(map(shown, found))}")
    whole = asked.interface if asked.interface in found or not found else found[0]
    if asked.code is not None:
        return Meant(asked.word, whole, frozenset([asked.code]))
    if not found:
        return Meant(asked.word, whole, None)
    codes = frozenset(code for code, in database.execute(
        "SELECT code FROM method WHERE (interface, method) = (?, ?)", (whole, asked.method)))
    if not codes:
        raise Stopped(1, f"--absent: no table of methods has {shown(asked.method or '')} of {shown(whole)}; --methods"
                         f" takes one, or name the code: '{shown(asked.interface)} code 7'")
    return Meant(asked.word, whole, codes)
