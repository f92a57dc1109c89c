"""What is wrong with the words of `./listing`. Its programs say it without a name."""

import errno
import os
import pathlib
import re
import stat
from typing import Iterator

from commands.listing import LISTING
from commands.reading import Given
from viewer.files import quoted

OPTIONS = {option.name: option for option in LISTING.options()}
PLACES, TIMES, TABLES = (tuple(name for name, option in OPTIONS.items() if option.one_of == group)
                         for group in ("place", "time", "table"))
# With --form a record is not shown whole, and has no lines of objects.
NO_COLUMNS = ("--at", "--objects")
NUMBERS = (*PLACES, "--process", "--thread", "--device", "--from", "--to", "--handle", "--cookie", "--node",
           "--address", "--larger")
# In which table of numbers.sql the names of an option stand. A code may also be a number.
NAMED = {"--code": "kind", "--flag": "flag"}
DATABASE = pathlib.Path(__file__).resolve().parent / "database"
# The numbers of the programs have so many bits.
BITS = 64


# ---- options


def number_of(word: str) -> int:
    """A number in decimal, or in hexadecimal after 0x."""
    digits, base = (word[2:], 16) if word[:2] in ("0x", "0X") else (word, 10)
    return int(digits, base)


def is_number(word: str) -> bool:
    """Whether it is a number as the programs read it."""
    try:
        return word.isascii() and word.isalnum() and number_of(word) < 2**BITS
    except ValueError:
        return False


def names_of(table: str) -> list[str]:
    """The names in a table of numbers.sql."""
    _, _, after = (DATABASE / "numbers.sql").read_text("utf-8").partition(f"INSERT INTO {table} VALUES ")
    return re.findall(r"'(\w+)'", after.partition(";")[0])


def why_no_value(name: str, value: str) -> str | None:
    """What an option takes, if it does not take this value."""
    if name in NUMBERS and not is_number(value):
        return "a number"
    if name in NAMED and value not in names_of(NAMED[name]) and not (name == "--code" and is_number(value)):
        return "the name of a record, or its code word" if name == "--code" else "the name of a flag"
    offers = OPTIONS[name].offers
    if isinstance(offers, tuple) and value not in offers:
        return " or ".join(offers)
    return None


def doubts_of_options(given: Given) -> Iterator[str]:
    """What is wrong with the options that are given."""
    return doubts_of_tables(given) if given.asks(*TABLES) else doubts_of_lines(given)


def doubts_of_group(given: Given, group: tuple[str, ...]) -> Iterator[str]:
    """Of the options of a group one is taken."""
    first, *others = [name for name, _ in given.options if name in group] or [""]
    for other in others:
        if other != first:
            yield f"{other} does not go with {first}"
        elif not OPTIONS[other].many:
            yield f"{other} is there twice"


def doubts_of_lines(given: Given) -> Iterator[str]:
    for group in (PLACES, TIMES, ("--side",), ("--objects",), ("--names",)):
        yield from doubts_of_group(given, group)
    yield from (f"--form does not go with {name}" for name in NO_COLUMNS if given.asks("--form") and given.asks(name))
    for name, values in given.options:
        for value in values:
            if takes := why_no_value(name, value):
                yield f"{name} takes {takes}, not {quoted(value)}"


def doubts_of_tables(given: Given) -> Iterator[str]:
    """A table is written whole, so no option narrows it."""
    yield from doubts_of_group(given, TABLES)
    table = next(name for name, _ in given.options if name in TABLES)
    yield from (f"{name} does not go with {table}" for name, _ in given.options if name not in TABLES)
    schema = (DATABASE / "schema.sql").read_text("utf-8")
    for table in given.values("--table"):
        if f"CREATE TABLE raw_{table}(" not in schema:
            yield f"there is no table {quoted(table)}"


def is_text(word: str) -> bool:
    """Whether a word is UTF-8. The programs take no other, not even as the name of a file."""
    try:
        word.encode()
    except UnicodeEncodeError:
        return False
    return True


# ---- files


def why_not(file: str) -> str | None:
    """Why a file can't be opened and read. What can be is not opened, so that nothing is taken from a pipe."""
    try:
        mode = os.stat(file).st_mode
        if stat.S_ISDIR(mode):
            return os.strerror(errno.EISDIR)
        if stat.S_ISFIFO(mode) or os.access(file, os.R_OK) and not stat.S_ISSOCK(mode):
            return None
        os.close(os.open(file, os.O_RDONLY | os.O_NONBLOCK))
    except OSError as error:
        return os.strerror(error.errno or errno.EIO)
    return None


def doubts_of_files(given: Given) -> Iterator[str]:
    """Which files and folders can't be opened, or can't be read."""
    for folder in given.values("--tables"):
        if not os.path.isdir(folder):
            yield f"{quoted(folder)} is no folder"
    for file in [*([] if given.asks(*TABLES) else given.values("--side")), *given.files]:
        if why := why_not(file):
            yield f"{quoted(file)}: {why}"
