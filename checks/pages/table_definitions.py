"""The page docs/TABLE-DEFINITIONS.md: the definitions of listing_tables, as its files in specs/ have them.

Unlike docs/DEFINITIONS.md it is not followed from a contract, because the clauses on the tables stand on many
functions, of which none promises all: the page has each file whole, but for its imports, in the order of CHAPTERS.
"""

import re
import textwrap
from typing import Iterator

from checks.kit.programs import ROOT

PAGE = ROOT / "docs/TABLE-DEFINITIONS.md"
SPECS = ROOT / "crates/listing_tables/specs"
WIDTH = 120

# The files of each chapter, without their endings.
CHAPTERS = {
    "What is written": "Walk Columns Stream Tables BeforeFault",
    "Calls": "Steps Calls Followed",
    "The rows": "Messages Spans Buffers",
    "Generations of handles": "Generations Naming",
    "What is seen": "Gaps Keys Settling",
    "Pairs": "Turns Pairing Decisions Changes Guesses",
    "Which send a delivery came from": "Certainty OneHandle",
    "What waits": "Waiting Doubts",
    "What is learnt of nodes": "Meanings Learning",
    "General words": "Numbered",
}

INTRODUCTION = """# The definitions of the tables

The clauses on [the tables of the listing](PROMISES.md#tables-of-the-listing) rest on these definitions, on those of
[the page of the headline](DEFINITIONS.md), which explains the signs, and on the types that `listing_tables` declares in
`src/`. No proof shows that a definition has your meaning. `checks/run tables_again` compares each column of each table
with a second reading in Python, which uses none of them.

A heading names a file of `crates/listing_tables/specs`. The comment before a definition says the same in words, and the
text counts. `checks/run definitions` makes this page from the sources."""


def missing() -> set[str]:
    """The files that no chapter has, and those of chapters that are not there."""
    there = {path.stem for path in SPECS.glob("*.antt")} - {"Lib"}
    return there ^ set(" ".join(CHAPTERS.values()).split())


def section(name: str) -> Iterator[str]:
    """A file: its heading, what its first comment says, and its definitions."""
    head, _, rest = (SPECS / f"{name}.antt").read_text("utf-8").partition("\nuse ")
    said = " ".join(re.sub(r"^-- ?", "", line) for line in head.splitlines())
    yield from (f"### {name}", "")
    linked = re.sub(r"\bdocs/([\w-]+)\.md(?:#[\w-]+)?", r"[\1](\1.md)", said)
    yield from textwrap.wrap(linked, WIDTH, break_on_hyphens=False, break_long_words=False)
    yield ""
    text = re.sub(r"^((?:  )?)(?:abbrev |unfoldable )?pub ", r"\1", rest.partition("\n\n")[2], flags=re.MULTILINE)
    yield from textwrap.indent(text.rstrip(), "    ").splitlines()
    yield ""


def page() -> str:
    lines = [INTRODUCTION, ""]
    for title, names in CHAPTERS.items():
        lines += [f"## {title}", "", *(line for name in names.split() for line in section(name))]
    return "\n".join(lines).rstrip() + "\n"
