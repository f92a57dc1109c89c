"""The raw tables: from the rows of `./listing --tables` into a new database, by a loader in C. Without a database to
keep, the longest tables are packed: they stay rows in files, in which SQLite finds them."""

import functools
import os
import pathlib
import re
import sqlite3
from contextlib import closing
from typing import Iterable

from viewer.database.sqlite import UNLISTED, named_numbers
from viewer.files import Stopped
from viewer.kept import kept
from viewer.program_names import LIBRARY, PACKED, called
from viewer.started import Started, Word, other

FOLDER = pathlib.Path(__file__).resolve().parent

# The files that make the tables and the views of a new database, in order.
SCHEMA = ("schema.sql", "numbers.sql", "views.sql", "joined_views.sql", "time_views.sql", "about.sql")

# The bytes of a page of a database.
PAGE = 8192

# The layout of the raw tables in schema.sql. `./listing` writes that of its rows into the table `capture`.
LAYOUT = 5

# ---- the schema


@functools.cache
def spellings() -> dict[str, str]:
    """The named numbers, as views have them."""
    with closing(sqlite3.connect(":memory:")) as database:
        database.executescript((FOLDER / "numbers.sql").read_text("utf-8"))
        return {**{name: str(number) for name, number in named_numbers(database).items()}, **UNLISTED}


def with_numbers(text: str) -> str:
    """Statements in which numbers stand for their names: a view can't have parameters."""
    return re.sub(r":([A-Z_]+)", lambda found: spellings()[found[1]], text)


def schema_of(name: str) -> str:
    """The statements of a file of the schema."""
    return with_numbers((FOLDER / name).read_text("utf-8"))


@functools.cache
def schema() -> str:
    """The statements that make a new database."""
    return "".join(map(schema_of, SCHEMA))


# The file that has them for the loader, a database that they made, one that also has the tables of the rules, and one
# for a side list without its capture.
SCHEMA_FILE, MADE_FILE, RULED_FILE, SIDE_FILE = "schema", "schema.db", "ruled.db", "side.db"


def write_schema(path: pathlib.Path) -> None:
    path.write_text(schema(), "utf-8")


def write_made(path: pathlib.Path) -> None:
    path.unlink(missing_ok=True)
    with closing(sqlite3.connect(path, isolation_level=None)) as database:
        database.executescript(f"PRAGMA page_size={PAGE}; PRAGMA journal_mode=OFF; BEGIN; {schema()} COMMIT;")


def write_ruled(path: pathlib.Path) -> None:
    from viewer.rules import ruled
    ruled.write(path)


def write_side(path: pathlib.Path) -> None:
    write_made(path)
    with closing(sqlite3.connect(path)) as database:
        tables = database.execute(
            "SELECT name FROM sqlite_schema WHERE type = 'table' AND name GLOB 'raw_*'").fetchall()
        database.executescript("".join(f"DROP TABLE {table};" for table, in tables))


EMPTY = {SCHEMA_FILE: write_schema, MADE_FILE: write_made, RULED_FILE: write_ruled, SIDE_FILE: write_side}


def empty_database(name: str) -> pathlib.Path:
    """The file of this name."""
    return kept(name, (FOLDER, FOLDER.with_name("rules")), EMPTY[name])


# ---- the loader


def said_by(program: Word, status: int, told: bytes) -> str:
    """The lines of a program on why it failed, as one. Names of files in them may have any bytes."""
    said = os.fsdecode(told).strip().replace("\n", "; ")
    return said or f"{os.path.basename(program)} ended with status {status}"


# What walks through a capture for a timeline.
WALKER = "walker"

# What reads packed tables, and what is built, each of the sources that follow, in C.
PACKED_C = ("packed.c", "packed_index.c", "packed_rows.c", "packed_keys.c", "sums.c")
BUILT = {
    "load": ("load.c", "side_lines.c", "side_reader.c", "pack_rows.c", "packer.c", *PACKED_C),
    "packed.so": PACKED_C,
    WALKER: (*(f"../timeline/{name}.c" for name in ("orders", "walk", "rows", "packets", "json_events", "growing")),
             *PACKED_C)}

# How all are built, as Debian's programs are, and how each.
HARDENED = ("-D_FORTIFY_SOURCE=2", "-Wl,-z,relro,-z,now")
HOW = {"load": ("-pthread",), "packed.so": ("-shared", "-fPIC"), WALKER: ()}


def need_compiler() -> None:
    """Says what is missing to build programs in C."""
    import subprocess
    asked: list[Word] = [FOLDER.parents[1] / "packager/needs", "--as", "view", "loader"]
    needs = subprocess.run(asked, capture_output=True)
    if needs.returncode:
        raise Stopped(1, said_by(asked[0], needs.returncode, needs.stderr).removeprefix("view: "))


def compile_c(made: pathlib.Path, folder: pathlib.Path, sources: Iterable[str], *how: str) -> None:
    """Builds a program of its sources. Its bytes do not depend on the folder of these."""
    import subprocess
    words = ["cc", "-O2", "-std=gnu11", "-Wall", "-Wextra", *HARDENED, "-o", str(made), *sources, *how]
    built = subprocess.run(words, cwd=folder, capture_output=True)
    if built.returncode:
        raise Stopped(1, f"{made.name} could not be built: {said_by(words[0], built.returncode, built.stderr)}")


def build_loader(folder: pathlib.Path) -> None:
    """Builds the loader, the library for packed tables, and the walker."""
    need_compiler()
    for name, sources in BUILT.items():
        compile_c(folder / name, FOLDER, sources, *HOW[name], "-lsqlite3")


def is_built(folder: pathlib.Path) -> bool:
    """Whether all is there, and none older than a source."""
    made = [folder / name for name in BUILT]
    sources = [path for folder in (FOLDER, FOLDER.with_name("timeline")) for path in folder.glob("*.[ch]")]
    return all(map(pathlib.Path.exists, made)) and (
        min(it.stat().st_mtime for it in made) >= max(it.stat().st_mtime for it in sources))


@functools.cache
def loader() -> pathlib.Path:
    """The loader, beside the library and the walker. They are built if one is missing or older than a source."""
    if PACKED:
        return LIBRARY / "load"
    out = FOLDER / "out"
    if not is_built(out):
        import tempfile
        out.mkdir(exist_ok=True)
        with tempfile.TemporaryDirectory(prefix="new-", dir=out) as new:
            build_loader(pathlib.Path(new))
            for name in BUILT:
                (pathlib.Path(new) / name).replace(out / name)
    return out / "load"


# ---- packed tables

# The longest tables, and the columns by which their rows are asked for beside the first one.
PACKED_TABLES = {"raw_record": (), "raw_frame": ("utid",), "raw_delivery": (), "raw_send": ("generation", "refused"),
                 "raw_call": ("utid", "closer"), "raw_object": ("binder",), "side_time": ()}

# Of which columns of these the loader makes the index, once for all who ask: while the listing is at work, or where few
# rows have the column. Others are made by who asks, in memory.
MADE = {("raw_frame", "utid"), ("raw_call", "utid"), ("raw_send", "refused")}

# Of which of them a column is told: statements that look for rare values of it pass over all other rows.
TOLD = {"raw_record": "kind"}

# Of these, those whose rows the listing writes.
STREAMED = tuple(name.removeprefix("raw_") for name in PACKED_TABLES if name.startswith("raw_"))


@functools.cache
def can_pack() -> bool:
    """Whether the SQLite of this Python reads packed tables. From now on it does so in each database that it opens;
    but not if it is built into Python itself."""
    import ctypes
    try:
        ctypes.CDLL(str(loader().with_name("packed.so"))).packed_module_add_to_all()
    except (OSError, AttributeError):
        return False
    with closing(sqlite3.connect(":memory:")) as database:
        return database.execute("SELECT 1 FROM pragma_module_list WHERE name = 'packed'").fetchone() is not None


def refuse_other_layout(rows: pathlib.Path) -> None:
    """Refuses rows of another layout, which may mean something else. That a row is cut is told by the loader."""
    capture = rows / "capture.rows"
    with open(capture, "rb") as row:
        begin = row.read(16)
    layout = int.from_bytes(begin[8:], "little")
    if len(begin) == 16 and layout != LAYOUT:
        raise Stopped(4, f"{capture} has the layout {layout} and not {LAYOUT}: {called('listing')} and "
                         f"{called('view')} are of different versions")


def packed_words(table: str) -> list[str]:
    """The words by which the loader packs a table."""
    told = ("--tell", TOLD[table]) if table in TOLD else ()
    by = (("--index" if (table, column) in MADE else "--by", column) for column in PACKED_TABLES[table])
    return ["--pack", table, *told, *(word for words in by for word in words)]


class Loading:
    """A loader at work on a new database."""

    @staticmethod
    def words(database: pathlib.Path, rows: pathlib.Path, side: str | None, others: pathlib.Path | None,
              packs: bool, empty: str = MADE_FILE) -> list[Word]:
        """What the loader is called with: for the `.rows` files of a folder, and a side list. If tables are packed,
        `others` gets the lines of the list that are not loaded. The database begins as the file `empty` says."""
        packed = [word for table in PACKED_TABLES for word in packed_words(table)] if packs else []
        sides = (it for it in (side, others) if it is not None)
        return [loader(), *packed, database, rows, empty_database(empty), *sides]

    def __init__(self, words: list[Word], rows: pathlib.Path) -> None:
        self.rows, self.name = rows, words[0]
        waits, self.all_there = map(other, os.pipe())
        self.told, tells = map(other, os.pipe())
        try:
            self.program = Started(words, {0: waits, 1: None, 2: tells})
        finally:
            os.close(waits)
            os.close(tells)

    def __enter__(self) -> "Loading":
        return self

    def __exit__(self, *_: object) -> None:
        self.program.end()
        for file in {self.all_there, self.told} - {-1}:
            os.close(file)

    def end(self) -> None:
        """Waits until all is loaded. All files are there."""
        if not self.program.look():  # a loader that has failed says why
            refuse_other_layout(self.rows)
        os.close(self.all_there)
        self.all_there = -1
        with open(self.told, "rb") as lines:
            self.told = -1
            told = lines.read()
        if status := self.program.wait():
            raise Stopped(4, said_by(self.name, status, told).removeprefix("load: "))


def load_rows(database: pathlib.Path, rows: pathlib.Path, side: str | None, empty: str = SCHEMA_FILE) -> None:
    """Makes a new database from the `.rows` files of a folder, with the times of frames in a side list."""
    with Loading(Loading.words(database, rows, side, None, False, empty), rows) as loading:
        loading.end()


def load_side(database: pathlib.Path, side: str | None, others: pathlib.Path) -> None:
    """Makes a new database of a side list alone, with the times of frames; `others` gets the lines that are not loaded.
    Without a list it is empty."""
    import subprocess
    words: list[Word] = [loader(), database, database.parent, kept(SIDE_FILE, (FOLDER,), write_side)]
    words += [] if side is None else [side, others]
    ended = subprocess.run(words, capture_output=True)
    if ended.returncode:
        raise Stopped(4, said_by(words[0], ended.returncode, ended.stderr).removeprefix("load: "))


def load_as_it_comes(database: pathlib.Path, rows: pathlib.Path, side: str | None,
                     others: pathlib.Path | None) -> Loading:
    """Begins to make a new database that is not kept, of rows that are not there yet. For those that come first there
    are named pipes from now on."""
    for name in STREAMED:
        os.mkfifo(rows / f"{name}.rows", 0o600)
    return Loading(Loading.words(database, rows, side, others, True), rows)
