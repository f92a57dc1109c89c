"""docs/DATABASE.md: its tables are those that viewer/database/about.sql says, with the columns that SQLite has of the
files that make them.

    checks/run database_page                says which lines of the page are not those that the files make
    checks/run database_page -- --print     writes the tables of the page anew, and prints what changed"""

import argparse
import difflib
import re
import textwrap
from typing import Iterable, Iterator

from checks.kit.checking import FLAG, check
from checks.kit.programs import ROOT
from checks.viewer.table_catalogue import Catalogue, Column, Columns, Wrong, catalogue

PAGE = ROOT / "docs/DATABASE.md"
# A section that has tables: the heading, what comes before them, and they, up to the next heading. And a list that goes
# to its end.
TABLES = re.compile(r"^(## (.*)\n(?:(?!## |<!-- ).*\n)*<!-- tables -->\n)(?:(?!## ).*\n)*", re.MULTILINE)
COMMON = re.compile(r"^(<!-- columns -->\n)(?:(?:- |  ).*\n)*", re.MULTILINE)


def wrapped(text: str) -> str:
    return textwrap.fill(text, 120, subsequent_indent="  " * text.startswith("- "), break_long_words=False,
                         break_on_hyphens=False) + "\n"


def names_of(columns: list[Column]) -> str:
    """The names of columns, with types. A type that all have stands after the last one."""
    types = [column.type for column in columns]
    is_one = len({*types}) == 1
    return ", ".join(f"**`{column.name}`**" if column.is_key else f"`{column.name}`" for column in columns) + (
        f" ({types[0]})" if types[0] else "") if is_one else ", ".join(
        names_of([column]) for column in columns)


def item_of(part: Columns) -> str:
    """The item of a list for some columns."""
    return wrapped(f"- {names_of(part.columns)}" + (f": {part.meaning}" if part.meaning else ""))


def lines_of(parts: Iterable[str | Columns]) -> Iterator[str]:
    """Sentences and columns, with a blank line between a paragraph and what is beside it."""
    was_item = True
    for part in parts:
        is_item = isinstance(part, Columns) or part.startswith("- ")
        if not (was_item and is_item):
            yield "\n"
        yield item_of(part) if isinstance(part, Columns) else wrapped(part)
        was_item = is_item


def section_of(told: Catalogue, name: str) -> str:
    """What the page has of a table."""
    line = wrapped(told.lines[name]) if name in told.lines else ""
    return f"### {name}\n\n{line}" + "\n" * bool(line) + "".join(lines_of(told.said[name])).lstrip("\n") + "\n"


def made(text: str, told: Catalogue) -> str:
    """The page with the tables that it has to have."""
    def tables_in(found: re.Match) -> str:
        return found[1] + "\n" + "".join(section_of(told, name) for name in told.sections.get(found[2], []))

    page = TABLES.sub(tables_in, text).rstrip("\n") + "\n"
    return COMMON.sub(lambda found: found[1] + "".join(map(item_of, told.common)), page)


def wrong(text: str, told: Catalogue) -> Iterator[str]:
    """The first line that is another one, and sections that the page has not, or that have no tables."""
    for number, (line, due) in enumerate(zip(text.splitlines(), [*made(text, told).splitlines(), ""]), 1):
        if line != due:
            yield f"{number}: checks/run database_page -- --print writes {due!r}"
            break
    placed = {name for names in told.sections.values() for name in names}
    yield from (f"nothing of {name}, which is in no section" for name in sorted(told.said.keys() - placed))
    headings = {found[2] for found in TABLES.finditer(text)}
    yield from (f"no section {heading}" for heading in told.sections if heading not in headings)
    yield from (f"no tables for {heading}" for heading in sorted(headings - told.sections.keys()))


def judge(given: argparse.Namespace, *_: object) -> Iterator[str]:
    text = PAGE.read_text("utf-8")
    try:
        told = catalogue()
    except Wrong as what:
        yield f"viewer/database/about.sql: {what}"
        return
    if given.print:
        new = made(text, told)
        PAGE.write_text(new, "utf-8")
        print("".join(difflib.unified_diff(text.splitlines(True), new.splitlines(True), "before", "docs/DATABASE.md")),
              end="")
    else:
        yield from (f"docs/DATABASE.md: {what}" for what in wrong(text, told))


if __name__ == "__main__":
    check(judge, print=FLAG)
