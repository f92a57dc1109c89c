"""What `./listing --arguments` adds to the records of its program: after each what its transaction or reply says."""

import pathlib
import re
import sqlite3
import tempfile
from typing import Iterator

from viewer.arguments.recorded import Arguments, Found
from viewer.arguments.sources import Declarations
from viewer.database import loading, raw_tables
from viewer.database.data_hash import Data
from viewer.database.programs import build_programs
from viewer.database.side_beside import side_beside
from viewer.database.side_list import SideList, joined_sides
from viewer.database.sqlite import open_database
from viewer.files import linked
from viewer.terminal import shown

# The line of a record, which begins with its place.
RECORD = re.compile(r"(\d+) \d+ \d+ \d+ \d+ B[CR]_")


def database_of(root: pathlib.Path, files: list[str], sides: list[str], room: pathlib.Path) -> sqlite3.Connection:
    """A database that has the tables of the listing, and what the side lists say of the recording."""
    made = room / "capture.db"
    build_programs(root)
    raw_tables.loader()
    made.with_suffix(".rows").mkdir()
    loading.tables_of(root, linked(files, made.with_suffix(".rows")), None, made, False, raw_tables.SCHEMA_FILE)
    database = open_database(made)
    if sides:
        taken = SideList(database)
        taken.load(joined_sides(sides, room / "joined.side"))
        database.executemany("INSERT INTO capture VALUES (?, ?)", taken.facts.items())
    return database


def lines_of(found: Found) -> Iterator[str]:
    """What a record says: by which method, and each value with its place."""
    said = found.said
    if said is None:
        yield f"arguments: {found.why}"
        return
    if said.doubt:
        yield f"arguments: {said.doubt}"
    elif said.method:
        yield f"arguments of {said.method}, {said.method.source}"
    else:
        yield "arguments, without a declaration" if said.parts else "arguments: none"
    for part in said.parts:
        value = f"{part.name} {part.text}" if part.name else part.text
        yield f"  {found.at + part.at:>14}  {value}"


def with_arguments(lines: list[str], arguments: Arguments) -> Iterator[str]:
    """The lines of the program, and after those of a record what it says."""
    place = None
    for line in [*lines, ""]:
        begun = RECORD.match(line)
        is_end = not line or begun or line.startswith("malformed ")
        if is_end and place is not None and (found := arguments.of(place)):
            yield from (f"{shown(one)}\n" for one in lines_of(found))
        if is_end:
            place = int(begun[1]) if begun else None
        if line:
            yield line


def listed(root: pathlib.Path, lines: list[str], files: list[str], sides: list[str], sources: list[str]
           ) -> Iterator[str]:
    """The lines of the program with what the records say, by these .aidl sources. Without side lists those beside the
    capture are taken: they say whether its data are redacted."""
    declarations = Declarations(sources)
    with tempfile.TemporaryDirectory(prefix="listing-") as room, Data(files) as data:
        database = database_of(root, files, sides or side_beside(files), pathlib.Path(room))
        yield from with_arguments(lines, Arguments(database, data, declarations))
        database.close()
