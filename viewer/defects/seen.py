"""The defects of a capture, as its database has them."""

import pathlib
import sqlite3
from typing import Any, NamedTuple

from viewer.defects.times import Timed, times_of
from viewer.files import Stopped, state_of
from viewer.rules import verdicts

QUERY = pathlib.Path(__file__).resolve().parents[1] / "page/queries/defects.sql"

# The verdicts of defects: what is normal is none.
RANKS = {verdict: rank for verdict, rank in verdicts.RANKS.items() if verdict != "normal"}

# The version of the database's layout.
LAYOUT = 11


class Defect(NamedTuple):
    """A defect in one capture; the columns of the query."""
    key: str
    kind: str
    who: str
    path: str
    call: str | None
    verdict: str
    n: int
    n_all: int | None
    waiting: int
    rules: str
    age: int | None
    place: int | None
    own_path: str
    note: str | None

    @property
    def rank(self) -> int:
        return RANKS[self.verdict]

    @property
    def counts(self) -> bool:
        """Whether something may be wrong."""
        return self.rank <= RANKS["maybe"]


def defects_of(database: sqlite3.Connection) -> dict[str, Defect]:
    """The defects by their keys."""
    database.create_function("rank_of", -1, verdicts.RANKS.get, deterministic=True)  # as the rules do
    return {row[0]: Defect(*row) for row in database.execute(QUERY.read_text("utf-8"))}


# The facts of a capture on which a comparison rests, and those that say when and on which kernel it was recorded.
FACTS: dict[str, Any] = {"prints": int, "methods": int, "side_list": int, "first_ts": int | None,
                         "until_ts": int | None, "malformed": str | None, "realtime": int | None,
                         "kernel": str | None, "machine": str | None}


def facts_of(database: sqlite3.Connection) -> dict[str, object]:
    return dict(database.execute("SELECT key, value FROM capture"))


def seconds_of(facts: dict) -> float | None:
    """How long a capture was recorded; None without times."""
    first, until = facts.get("first_ts"), facts.get("until_ts")
    return None if first is None or until is None else (until - first) / 1e9


def text_of(text: bytes) -> str:
    """A text of a database, also if it is no UTF-8."""
    return text.decode("utf-8", "replace")


def kept_database(path: str) -> sqlite3.Connection:
    """A database that `./view --database` kept, to read."""
    state_of(path)
    try:
        database = sqlite3.connect(f"{pathlib.Path(path).absolute().as_uri()}?mode=ro", uri=True)
        layout, = database.execute("PRAGMA user_version").fetchone()
    except sqlite3.DatabaseError as error:
        raise Stopped(4, f"{path}: {error}") from error
    if layout != LAYOUT:
        raise Stopped(4, f"{path}: its layout is {layout} and not {LAYOUT}: rebuild it with --database")
    database.text_factory = text_of
    return database


class Seen(NamedTuple):
    """What a comparison takes of a capture."""
    facts: dict[str, object]
    defects: dict[str, Defect]
    times: list[Timed]


def are_ours(seen: Seen) -> bool:
    """Whether facts and defects have the types that `./view` gives them."""
    return (all(isinstance(seen.facts.get(name), kind) for name, kind in FACTS.items())
            and all(isinstance(value, kind) for defect in seen.defects.values()
                    for value, kind in zip(defect, Defect.__annotations__.values()))
            and all(defect.verdict in RANKS for defect in seen.defects.values())
            and all(isinstance(value, kind) for timed in seen.times
                    for value, kind in zip(timed, Timed.__annotations__.values())))


def seen_in(path: str) -> Seen:
    """What a database has that was kept. A file may have been changed since, or be a stranger's."""
    database = kept_database(path)
    try:
        seen = Seen(facts_of(database), defects_of(database), times_of(database))
    except sqlite3.Error as error:
        raise Stopped(4, f"{path}: {error}: rebuild it with --database") from error
    finally:
        database.close()
    if not are_ours(seen):
        raise Stopped(4, f"{path}: it has what ./view does not write: rebuild it with --database")
    return seen
