"""The tables of `./listing --tables` that docs/DATABASE.md names are those that the listing writes, in its order."""

import pathlib
import re
from typing import Iterator

from checks.kit.programs import ROOT

PAGE = ROOT / "docs/DATABASE.md"
TABLES = ROOT / "crates/listing_fields/src/table.rt"


def written() -> list[str]:
    """The names of the tables in the listing's own list."""
    listed = TABLES.read_text("utf-8").partition("pub const TABLES: ")[2].partition("];\n")[0]
    return re.findall(r'\("(\w+)", Table::', listed)


def wrong(page: pathlib.Path) -> Iterator[tuple[int, str]]:
    """The sentence of the page that names other tables, with its line."""
    if page == PAGE:
        text = page.read_text("utf-8")
        sentence = re.search(r"for each raw table: ([^.]*)\.", text)
        named = re.findall(r"\w+", sentence[1].replace(" and ", " ")) if sentence else []
        if named != written():
            number = text.count("\n", 0, sentence.start()) + 1 if sentence else 1
            yield number, f"the raw tables are {', '.join(written())}"
