"""Whose a process is: the packages of its user, and whether it makes calls of 32 bits."""

import pathlib
import re

from checks.kit.checking import Fail, compare
from checks.viewer.page.common import stored, texts_of, texts_stored, view

LIST = ("package:org.example.z uid:10123\npackage:org.example.a uid:10123,1010123\npackage:org.example.b uid:10123\n"
        "package:org.example.c uid:10123\npackage:android uid:1000\n")
# How the user 10123 of `people` is shown, by what is beside the side list.
SHOWN = {"one": ("package:org.example.z uid:10123\n", "10123 u0_a123 org.example.z 1"),
         "many": (LIST, "10123 u0_a123 org.example.a, org.example.b, org.example.c and 1 more 1"),
         "of another user": ("package:org.example.z uid:1010123\n", "10123 u0_a123 1"),
         "of others": ("package:android uid:1000\n", "10123 u0_a123 1"),
         "none": ("", "10123 1")}
WRONG = {"a word": "Error: no package manager\n", "no user": "package:org.example\n", "half": LIST + "package:org.exam",
         "a long number": "package:org.example uid:12345678901\n", "bytes": "\0\xff\n"}


def shown(folder: pathlib.Path, room: pathlib.Path, side: str, packages: str, fail: Fail) -> tuple[str, str]:
    """What `view` says, and the texts of the page, of a copy of `people` with such a list beside it."""
    (room / f"{side}.side").write_text(texts_stored("people")[1], "utf-8", errors="surrogateescape")
    (room / "users.packages").write_text(packages, "utf-8")
    status, _, told = view(folder, room, stored("people")[0], "--side", f"{side}.side", "-o", "users.html")
    compare(f"the status with {packages!r}", status, 0, fail)
    return told, texts_of(room / "users.html")


def check_packages(folder: pathlib.Path, room: pathlib.Path, fail: Fail) -> None:
    """Beside the user is what Android calls it, with the names of its packages. Of a list that is none no package is
    taken, and a line says so, also on the page."""
    for name, (packages, due) in SHOWN.items():
        for side in "users", "users-1":
            told, texts = shown(folder, room, side, packages, fail)
            compare(f"packages, {name}, is shown", f" 369 {due} from-start " in texts, True, fail)
            compare(f"packages, {name}, what is said", told, "", fail)
    for name, packages in WRONG.items():
        told, texts = shown(folder, room, "users", packages, fail)
        line = f"line {packages.count(chr(10), 0, -1) + 1} of users.packages names no package with its user id"
        compare(f"packages, {name}, what is said", told, f"view: {line}\n", fail)
        compare(f"packages, {name}, the page says it", line in texts, True, fail)
        compare(f"packages, {name}, is shown", f" 369 {SHOWN['none'][1]} from-start " in texts, True, fail)


def check_bits(folder: pathlib.Path, room: pathlib.Path, fail: Fail) -> None:
    """The page counts the processes that make calls of 32 bits, and says which they are."""
    side = texts_stored("clean")[1]
    for name, due in ("client", "2 processes make"), ("service", "1 process makes"), ("nobody", None):
        (room / "bits.side").write_text(re.sub(f" name={name}\n", f" bits=32 name={name}\n", side), "utf-8")
        view(folder, room, stored("clean")[0], "--side", "bits.side", "-o", "bits.html")
        texts = texts_of(room / "bits.html")
        compare(f"bits of {name}, how many", f"{due} calls of 32 bits." in texts, due is not None, fail)
        which = set(re.findall(r" (\w+) \d+ binder \d+ 0 \d+, 32 bits ", texts))
        compare(f"bits of {name}, which", which, {name} if due else set(), fail)
