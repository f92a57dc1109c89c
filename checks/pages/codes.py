"""The tables of docs/COMMANDS.md: the code words, the sorts and the flags are those by which the second reading reads.
The recorder (codes.c) and the database (numbers.sql) have the same."""

import pathlib
import re
from typing import Iterator

from checks.kit.programs import ROOT
from checks.kit.second_reading import NAMES, NEWER, SORTS, TRANSACTIONS_AND_REPLIES, WRITE, Fault, kind_of

PAGE = ROOT / "docs/COMMANDS.md"
NUMBERS = ROOT / "viewer/database/numbers.sql"
RECORDER = ROOT / "recorder/codes.c"

Rows = set[tuple[str, ...]]

# Rows of the three tables: number, name, size and code word of a record; name, sort and size of an object; name and bit
# of a flag.
RECORD = re.compile(r" {4}(?:(?:write|read) )? *(\d+)  (B[CR]_\w+) +(\d+)  (0x[0-9a-f]{8})")
SORT = re.compile(r" {4}([A-Z_]+) +(0x[0-9a-f]{8})  (\d+)  .*")
FLAG = re.compile(r" {4}(TF_\w+) +(0x[0-9a-f]{2})")
# How the page says that a code word is judged.
JUDGED = re.compile(r" {4}(0x[0-9a-f]{8})  a write frame  (\w+).*")
# A row of the recorder: code word, whether the record carries a transaction or a reply, name.
RECORDED = re.compile(r"\t\{ (0x[0-9a-f]{8}), ([01]) \}, /\* (\w+) \*/")


def records() -> Iterator[tuple[str, ...]]:
    """The rows that are due for records: those that a report names, and those of a newer header."""
    for word, name in NAMES.items():
        yield str(word & 0xff), name, str(word >> 16 & 0x3fff), f"0x{word:08x}"


def inserted(table: str) -> Rows:
    """The numbers and names of a table of the database."""
    rows = re.search(rf"INSERT INTO {table} VALUES([^;]*);", NUMBERS.read_text("utf-8"))
    return set(re.findall(r"\((\w+), '(\w+)'\)", rows[1] if rows else ""))


def sorts() -> Iterator[tuple[str, str, str]]:
    for sort, (name, size) in SORTS.items():
        yield name.upper(), f"0x{sort:08x}", str(size)


def recorded() -> Iterator[tuple[str, ...]]:
    """The rows that are due in the recorder."""
    for word, name in NAMES.items():
        if word not in NEWER:
            yield f"0x{word:08x}", str(int(name in TRANSACTIONS_AND_REPLIES)), name


def kinds() -> Iterator[tuple[str, ...]]:
    """The rows that are due for kinds in the database. The numbers of returns follow those of commands, and a second
    name of a number follows both; the last number of each is that of opaque records."""
    yield from (("255", "OPAQUE"), ("511", "OPAQUE"))
    named: set[int] = set()
    for word, name in NAMES.items():
        number = word & 0xff | (0 if chr(word >> 8 & 0xff) == "c" else 256)
        yield str(number + 256 if number in named else number), name
        named.add(number)


def judged(word: int) -> str:
    """What a code word in a write frame is judged as: the name of a record, or of a fault."""
    try:
        return kind_of(word, WRITE, 0)
    except Fault as fault:
        return str(fault.args[0])


def wrong_examples(lines: list[str]) -> Iterator[tuple[int, str]]:
    for number, line in enumerate(lines, 1):
        if (example := JUDGED.fullmatch(line)) and example[2] != (due := judged(int(example[1], 16))):
            yield number, f"{example[1]} is judged as {due}"


def wrong_rows(lines: list[str], row: re.Pattern[str], due: Rows) -> Iterator[tuple[int, str]]:
    """The rows of a table that are not due, each with its line; and those that it lacks."""
    lacking = set(due)
    for number, line in enumerate(lines, 1):
        if found := row.fullmatch(line):
            lacking.discard(found.groups())
            if found.groups() not in due:
                yield number, f"{found[0].strip()} is not so"
    for cells in sorted(lacking):
        yield 1, f"no row {' '.join(cells)}"


def wrong_elsewhere() -> Iterator[tuple[int, str]]:
    """The rows of the recorder and of the database that are not as on the page."""
    for path, rows, due in ((RECORDER, set(RECORDED.findall(RECORDER.read_text("utf-8"))), set(recorded())),
                            (NUMBERS, inserted("kind"), set(kinds())),
                            (NUMBERS, inserted("sort"), {(sort, name) for name, sort, _ in sorts()})):
        for cells in sorted(due ^ rows):
            yield 1, f"{path.name} {'lacks' if cells in due else 'has'} {' '.join(cells)}"


def wrong(page: pathlib.Path) -> Iterator[tuple[int, str]]:
    """What is wrong with the tables, each with its line."""
    if page == PAGE:
        lines = page.read_text("utf-8").splitlines()
        flags = {(name, bit) for bit, name in inserted("flag")}
        for row, due in (RECORD, set(records())), (SORT, set(sorts())), (FLAG, flags):
            yield from wrong_rows(lines, row, due)
        yield from wrong_examples(lines)
        yield from wrong_elsewhere()
