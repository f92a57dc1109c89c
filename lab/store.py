"""A lab: one file of SQLite, which results are loaded into."""

import contextlib
import hashlib
import json
import os
import pathlib
import sqlite3
import stat
import time
from collections.abc import Iterator, Sequence
from typing import NamedTuple

from lab.form import CAPTURE, ROWS, Kind, Rows, unfolded
from lab.result import LARGEST
from lab.rows_in import Numbered, insert
from viewer.files import Stopped

FOLDER = pathlib.Path(__file__).resolve().parent

# The columns of each table, with the fields of a result that fill them. The lab gives the number of a capture.
TABLES = {
    "capture": {name: name for name in CAPTURE},
    "defect": {"id": "key", "kind": "kind", "who": "who", "path": "path", "call": "call"},
    "found": {"defect": "key", "path": "own_path",
              **{name: name for name in ("verdict", "n", "n_all", "waiting", "rules", "age", "place", "note")}},
    "held": {name: name for name in ROWS["held"]}}


class Split(NamedTuple):
    """A list of results whose rows have much in common: `once` is the table that has this once, in the columns
    `common`, and `table` has the rest of each row, with its number in a column that is called as `once`."""
    once: str
    table: str
    common: tuple[str, ...]

    def rest(self, name: str) -> list[str]:
        return [column for column in ROWS[name] if column not in self.common]


SPLIT = {"talk": Split("exchange", "sent", ("caller", "server", "interface", "method", "code", "call", "oneway")),
         "times": Split("method", "took", ("server", "call"))}

# The tables with rows of a capture.
OF_CAPTURE = ("found", "held", *(split.table for split in SPLIT.values()))

# How many results are loaded at a time: what is being loaded when a loader is killed is loaded again.
AT_A_TIME = 500

# The layout of a lab. One of an earlier layout can be read, and is changed to this one when results are loaded.
LAYOUT = 2

# How many seconds a loader waits for its turn.
PATIENCE = 600


def may_be_read_while_written(lab: sqlite3.Connection) -> None:
    """Makes the lab one with a write-ahead log, because others may read such a file while one writes. SQLite refuses
    this at once, and doesn't wait, while another loader does the same."""
    until = time.monotonic() + PATIENCE
    while True:
        try:
            lab.execute("PRAGMA journal_mode=WAL")
            return
        except sqlite3.OperationalError as error:
            is_busy = error.sqlite_errorcode & 0xff == sqlite3.SQLITE_BUSY
            if not is_busy or time.monotonic() > until:
                raise
            time.sleep(0.01)


def is_new(lab: sqlite3.Connection) -> bool:
    """Whether a database has nothing yet."""
    layout, = lab.execute("PRAGMA user_version").fetchone()
    return layout == 0 and not lab.execute("SELECT 1 FROM sqlite_schema").fetchone()


def lacks_basis(lab: sqlite3.Connection) -> bool:
    """Whether it is a lab of before results said on what they rest."""
    return not lab.execute("SELECT 1 FROM pragma_table_info('capture') WHERE name = 'basis'").fetchone()


def strange_rows(table: str, kinds: dict[str, Kind], but: str | None) -> str:
    """The query for rows of a table that no result has: a value is of another type."""
    return f"SELECT 1 FROM {table} WHERE " + " OR ".join(
        f"typeof({column}) NOT IN ({', '.join(map(repr, kinds[name].types))})"
        for column, name in TABLES[table].items() if column != but)


def is_lab(lab: sqlite3.Connection, layout: int) -> bool:
    """Whether a database has the tables of a lab, and in its captures and defects what results have."""
    there = {name for name, in lab.execute("SELECT name FROM sqlite_schema WHERE type = 'table'")}
    due = {*TABLES, *({"talk"} if layout == 1 else {name for split in SPLIT.values() for name in split[:2]})}
    but = "basis" if lacks_basis(lab) else None
    return due <= there and not any(
        lab.execute(strange_rows(table, kinds, but)).fetchone()
        for table, kinds in (("capture", CAPTURE), ("defect", ROWS["found"])))


def refuse_other(lab: sqlite3.Connection, path: str) -> None:
    """Refuses a database that is no lab, so that nothing is put into one that is another program's."""
    layout, = lab.execute("PRAGMA user_version").fetchone()
    if not 0 < layout <= LAYOUT or not is_lab(lab, layout):
        raise Stopped(4, f"{path}: not a lab of this version")


def make(lab: sqlite3.Connection) -> None:
    """Makes what a lab has, but for what is there already."""
    may_be_read_while_written(lab)
    lab.execute("PRAGMA synchronous=NORMAL")
    lab.execute("BEGIN IMMEDIATE")
    is_first, = lab.execute("SELECT count(*) FROM sqlite_schema WHERE (type, name) = ('table', 'talk')").fetchone()
    if is_first:
        lab.execute("ALTER TABLE talk RENAME TO talk_before")
    for statement in (FOLDER / "lab.sql").read_text("utf-8").split(";\n"):
        lab.execute(statement)
    if is_first:
        split_talk(lab)
    if lacks_basis(lab):
        lab.execute("ALTER TABLE capture ADD COLUMN basis TEXT")
    lab.execute("COMMIT")


def split_talk(lab: sqlite3.Connection) -> None:
    """Changes a lab of the first layout, which had who talks to whom as the results have it."""
    into, names = Into(lab), [*ROWS["talk"]]
    rows = lab.execute(f"SELECT capture, {', '.join(names)} FROM talk_before ORDER BY capture, rowid")
    while some := rows.fetchmany(10_000):
        captures, *columns = zip(*some)
        into.put_split("talk", Rows(dict(zip(names, columns)), len(some)), captures)
    lab.execute("DROP TABLE talk_before")


def open_lab(path: str, may_make: bool = False) -> sqlite3.Connection:
    """The lab, which others may read while one writes. A text in it that is no UTF-8 fails nothing."""
    if os.path.exists(path) and not os.path.isfile(path):
        raise Stopped(4, f"{path}: it is no file")
    mode = "rwc" if may_make else "rw"
    try:
        with contextlib.ExitStack() as closed_if_refused:
            lab = sqlite3.connect(f"{pathlib.Path(path).absolute().as_uri()}?mode={mode}", uri=True,
                                  isolation_level=None, timeout=PATIENCE)
            closed_if_refused.callback(lab.close)
            lab.text_factory = lambda text: text.decode("utf-8", "replace")
            if not (may_make and is_new(lab)):
                refuse_other(lab, path)
            if may_make:
                make(lab)
            lab.executescript((FOLDER / "builds.sql").read_text("utf-8"))
            closed_if_refused.pop_all()
    except (sqlite3.Error, UnicodeError) as error:
        raise Stopped(4, f"{path}: {error}") from error
    return lab


class Made(NamedTuple):
    """A result: when it was made, whether that failed, and of which build and device its capture is."""
    made: float
    failed: int
    build: str
    device: str

    def is_better(self, other: "Made") -> bool:
        """Whether it takes the place of another one of its capture: one that did not fail comes first, then the later
        one. So the order in which both are loaded does not matter."""
        return (not self.failed, self.made) > (not other.failed, other.made)

    def is_of(self, other: "Made") -> bool:
        return (self.build, self.device) == (other.build, other.device)


def made_of(capture: dict) -> Made:
    return Made(capture["made"], int(capture.get("failed") is not None), capture["build"], capture["device"])


def there(lab: sqlite3.Connection, digest: str) -> Made | None:
    """The result that the lab has of a capture."""
    row = lab.execute("SELECT made, failed NOTNULL, build, device FROM capture WHERE digest = ?", (digest,)).fetchone()
    return row and Made(*row)


def columns_of(given: Sequence[dict], names: dict[str, str]) -> dict[str, Sequence[object]]:
    """Columns of a list of a result, by the fields that fill them."""
    if isinstance(given, Rows):
        return {column: given.column(name) for column, name in names.items()}
    return {column: [row.get(name) for row in given] for column, name in names.items()}


class Into:
    """A lab that results are put into, in a transaction that `begin` begins."""

    def __init__(self, lab: sqlite3.Connection):
        self.lab = lab
        self.once = {name: Numbered(lab, split.once, split.common) for name, split in SPLIT.items()}

    def begin(self) -> None:
        self.lab.execute("BEGIN IMMEDIATE")
        self.read()

    def read(self) -> None:
        for table in self.once.values():
            table.read()

    def put_split(self, name: str, given: Sequence[dict], captures: Sequence[object]) -> None:
        """Puts rows of a list that is split, of these captures."""
        split = SPLIT[name]
        common = columns_of(given, {column: column for column in split.common})
        rest = columns_of(given, {column: column for column in split.rest(name)})
        insert(self.lab, split.table, {"capture": captures, split.once: self.once[name].of(zip(*common.values())),
                                       **rest})

    def put(self, result: dict) -> None:
        """Puts a result into the lab, in the place of another one of its capture."""
        digest = result["capture"]["digest"]
        for before in self.lab.execute("SELECT id FROM capture WHERE digest = ?", (digest,)).fetchall():
            for table in OF_CAPTURE:
                self.lab.execute(f"DELETE FROM {table} WHERE capture = ?", before)
            self.lab.execute("DELETE FROM capture WHERE id = ?", before)
        insert(self.lab, "capture", columns_of([result["capture"]], TABLES["capture"]))
        number, = self.lab.execute("SELECT id FROM capture WHERE digest = ?", (digest,)).fetchone()
        insert(self.lab, "defect", columns_of(result["found"], TABLES["defect"]), "INSERT OR IGNORE")
        for name in "found", "held":
            given = result[name]
            insert(self.lab, name, {"capture": [number] * len(given), **columns_of(given, TABLES[name])})
        for name in SPLIT:
            given = result.get(name, ())
            self.put_split(name, given, [number] * len(given))


def put(lab: sqlite3.Connection, result: dict) -> None:
    """Puts a single result into a lab."""
    into = Into(lab)
    into.read()
    into.put(result)


def text_in(path: pathlib.Path) -> bytes:
    """What a file has, if it can be a result. A pipe is not waited for."""
    try:
        if not stat.S_ISREG(os.stat(path).st_mode):
            raise Stopped(4, f"{path}: it is no file")
        with open(path, "rb") as file:
            text = file.read(LARGEST + 1)
    except OSError as error:
        raise Stopped(4, f"{path}: {error.strerror}") from error
    if len(text) > LARGEST:
        raise Stopped(4, f"{path}: it is no result of `one`: it has more than {LARGEST:,} bytes")
    return text


def read(path: pathlib.Path, text: bytes) -> dict:
    """The result that a file has."""
    try:
        result, why = unfolded(json.loads(text.decode("utf-8")))
    except (ValueError, RecursionError) as error:
        raise Stopped(4, f"{path}: it is no result of `one`: it is no JSON") from error
    if why:
        raise Stopped(4, f"{path}: it is no result of `one`: {why}")
    return result


def results_in(paths: list[str], unread: list[str]) -> Iterator[pathlib.Path]:
    """The files, and those of the folders. A folder that can't be read is told."""
    def tell(error: OSError) -> None:
        unread.append(f"{error.filename}: {error.strerror}")

    for path in paths:
        found = [os.path.join(folder, name) for folder, _, names in os.walk(path, onerror=tell) for name in names
                 if name.endswith(".json")] if os.path.isdir(path) else [path]
        yield from map(pathlib.Path, sorted(found))


# What a lab knows of the text of a result. A lab may come from anywhere, and two times are compared.
KNOWN = "SELECT digest, made, failed, build, device FROM loaded WHERE text = ? AND typeof(made) IN ('real', 'integer')"


class Given(NamedTuple):
    """A result that is to be loaded: its file, the digest of its text and of its capture. `result` is None if the lab
    knows the text, which then need not be read."""
    path: pathlib.Path
    text: bytes
    digest: str
    made: Made
    result: dict | None


def given_by(lab: sqlite3.Connection, path: pathlib.Path) -> Given:
    text = text_in(path)
    name = hashlib.blake2b(text, digest_size=16).digest()
    known = lab.execute(KNOWN, (name,)).fetchone()
    if known:
        digest, made = known[0], Made(*known[1:])
        has = there(lab, digest)
        if has is not None and not made.is_better(has):
            return Given(path, name, digest, made, None)
    result = read(path, text)
    return Given(path, name, result["capture"]["digest"], made_of(result["capture"]), result)


class Loaded:
    """What was done with results: how many were added, how many were there already, what is wrong with others, and
    which are of a capture that the lab had as one of another build or device."""

    def __init__(self) -> None:
        self.added = self.there = 0
        self.unread: list[str] = []
        self.moved: list[str] = []

    def take(self, into: Into, one: Given) -> None:
        """Loads a result, if the lab has no better one of its capture."""
        lab = into.lab
        has = there(lab, one.digest)
        if has is not None and not one.made.is_of(has):
            self.moved.append(f"{one.path} (build {has.build}, device {has.device})")
        is_new = one.result is not None and (has is None or one.made.is_better(has))
        self.added, self.there = self.added + is_new, self.there + (not is_new)
        if one.result is not None:
            if is_new:
                into.put(one.result)
            lab.execute("INSERT OR REPLACE INTO loaded(text, digest, made, failed, build, device)"
                        " VALUES (?, ?, ?, ?, ?, ?)", (one.text, one.digest, *one.made))


def load(lab: sqlite3.Connection, paths: list[str]) -> Loaded:
    """Loads results, some at a time."""
    loaded, into = Loaded(), Into(lab)
    files = list(results_in(paths, loaded.unread))
    for begin in range(0, len(files), AT_A_TIME):
        some = []
        for path in files[begin:begin + AT_A_TIME]:
            try:
                some.append(given_by(lab, path))
            except Stopped as stopped:
                loaded.unread.append(str(stopped))
        into.begin()
        for one in some:
            loaded.take(into, one)
        lab.execute("COMMIT")
    return loaded
