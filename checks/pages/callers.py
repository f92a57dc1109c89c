"""The code with which each crate's page begins: lines of a caller of the crate, which stand in a file of the
repository."""

import pathlib
import re
from typing import Iterator

from checks.kit.programs import ROOT

# A block of code, and the last link to a file of code before it.
BLOCK = re.compile(r"\]\(([^)\s]+\.rt)\)(?:(?!\.rt\)|```).)*?```rust\n(.*?)\n```", re.DOTALL)
# How many lines of code a caller has. Empty lines and comments do not count.
LEAST, MOST = 5, 10


def users() -> dict[str, set[str]]:
    """By crates.txt, the crates that use each crate."""
    text = (ROOT / "crates.txt").read_text("utf-8")
    lines = [line.partition(":") for line in text.splitlines() if not line.startswith("#")]
    return {name: {user for user, _, used in lines if name in used.split()} for name, _, _ in lines}


def plain(text: str) -> list[str]:
    """The lines without their indentation."""
    return [line.strip() for line in text.splitlines()]


def stands_in(code: str, file: pathlib.Path) -> bool:
    """Whether these lines stand in a file, one after another."""
    due, there = plain(code), plain(file.read_text("utf-8"))
    return any(there[at:at + len(due)] == due for at in range(len(there)))


def wrong(page: pathlib.Path) -> Iterator[tuple[int, str]]:
    """What is wrong with the caller of a crate's page, with its line."""
    if page.parent.parent != ROOT / "crates":
        return
    crate, beginning = page.parent.name, page.read_text("utf-8").partition("\n## ")[0]
    found = BLOCK.search(beginning)
    if not found:
        yield 1, "the page does not begin with a caller: a link to a file.rt, and then ```rust"
        return
    number, code = beginning.count("\n", 0, found.start(2)) + 1, found[2]
    lines = [line for line in plain(code) if line and not line.startswith("//")]
    if not LEAST <= len(lines) <= MOST:
        yield number, f"the caller has {len(lines)} lines of code, not {LEAST} to {MOST}"
    file = (page.parent / found[1]).resolve()
    if not file.is_file():
        return  # The link is wrong, which the check of links says.
    above = users()[crate] or {crate}
    if file.relative_to(ROOT / "crates").parts[0] not in above:
        yield number, f"{found[1]} is of no crate that uses {crate}"
    if not stands_in(code, file):
        yield number, f"the caller does not stand in {found[1]}"
