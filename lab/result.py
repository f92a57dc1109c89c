"""What is kept of a capture: a result, a JSON file of at most 64 KB once it is packed, whatever the size of the
capture."""

import json
import os
import pathlib
import sqlite3
import tempfile
import zlib

from lab.form import folded
from viewer.defects.seen import defects_of, facts_of, seconds_of
from viewer.defects.times import TIMES
from viewer.files import Stopped, errors_of

# The most bytes that a file of a result has, and that it has when it is packed; and the most characters of a text in
# it, since names may be long.
LARGEST, MOST, LONGEST = 2**20, 2**16, 512

# What each process of a program holds at most, and in the end. What had ended when the recording did holds nothing.
HELD = """
SELECT p.program || ' on ' || p.device AS process, sum(b.buffers) AS buffers, sum(l.buffers) AS buffers_most,
  sum(b.bytes) AS bytes, sum(l.bytes) AS bytes_most, sum(g.refs) AS refs, sum(l.refs) AS refs_most,
  sum(l.calls) AS calls_most
FROM program p
  JOIN (SELECT upid, max(buffers) AS buffers, max(bytes) AS bytes, max(refs) AS refs, max(calls) AS calls FROM level
    GROUP BY upid) l USING (upid)
  LEFT JOIN (SELECT upid, count(*) AS buffers, sum(data_size) AS bytes FROM delivery WHERE freed_by IS NULL
    GROUP BY upid) b USING (upid)
  LEFT JOIN (SELECT upid, sum(strong) AS refs FROM handle GROUP BY upid) g USING (upid)
GROUP BY 1 ORDER BY buffers_most + refs_most DESC
"""
TALK = "SELECT * FROM talk ORDER BY sends DESC, caller, server, call"


def short(value: object) -> object:
    return f"{value[:LONGEST]}…" if isinstance(value, str) and len(value) > LONGEST else value


def rows(database: sqlite3.Connection, query: str) -> list[dict]:
    """The rows of a query, by the names of its columns."""
    cursor = database.execute(query)
    names = [name for name, *_ in cursor.description]
    return [dict(zip(names, map(short, row))) for row in cursor]


# How the doubt of a capture begins that has only a part of a system.
OF_PART = "only a part was recorded"


def doubt_of(facts: dict) -> str | None:
    """Why a capture may tell less than others, or something else."""
    part = facts.get("narrowed") and f"{OF_PART}: {facts['narrowed']}"
    return "; ".join(filter(None, (part, facts["side_doubt"] or facts["books_doubt"]))) or None


def about(facts: dict) -> dict:
    """What the row of a capture says of it."""
    return {"file": short(facts["file"]), "begun": facts.get("realtime"), "seconds": seconds_of(facts),
            "side": facts["side_list"], "doubt": short(doubt_of(facts)),
            **{name: short(facts.get(name)) for name in ("bytes", "frames", "records", "missing", "lost", "malformed",
                                                         "kernel", "prints", "methods")}}


def summary(database: sqlite3.Connection) -> dict:
    """The result of a database of `./view`, without what only the caller knows."""
    found = [{name: short(value) for name, value in it._asdict().items()} for it in defects_of(database).values()]
    return bounded({"capture": about(facts_of(database)), "found": found, "talk": rows(database, TALK),
                    "held": rows(database, HELD), "times": rows(database, TIMES)})


def text_of(result: dict) -> str:
    return json.dumps(folded(result), separators=(",", ":")) + "\n"


def fits(result: dict) -> bool:
    """Whether a result is short enough. Packed it is some ten times shorter, as a lab is best sent and kept."""
    text = text_of(result).encode()
    return len(text) <= LARGEST and len(zlib.compress(text)) <= MOST


# The lists of a result, in the order in which their rows are left out last.
LISTS = ("found", "held", "times", "talk")


def first_rows(result: dict, count: int) -> dict:
    """The result with so many rows of all lists. `left_out` counts the others."""
    kept, left = {}, count
    for name in LISTS:
        kept[name] = result.get(name, [])[:left]
        left -= len(kept[name])
    left_out = sum(len(result.get(name, [])) for name in LISTS) - count + left
    return {**result, **kept, "capture": {**result["capture"], "left_out": left_out}}


def bounded(result: dict) -> dict:
    """The result without its last rows, if it is too long: who talks to whom goes first, then times of methods, then
    what is held, then the weakest defects."""
    fewest, most = 0, sum(len(result.get(name, [])) for name in LISTS)
    if fits(whole := first_rows(result, most)):
        return whole
    while most - fewest > 1:
        middle = (fewest + most) // 2
        fewest, most = (middle, most) if fits(first_rows(result, middle)) else (fewest, middle)
    return first_rows(result, fewest)


def failed(why: str) -> dict:
    """The result of a capture that can't be viewed."""
    return {"capture": {"failed": short(why), "left_out": 0}, **{name: [] for name in LISTS}}


def write(result: dict, path: pathlib.Path) -> None:
    """Writes a result whole or not at all, so that a job that is killed leaves no half of one. It takes the place of an
    earlier one only: a link, as /dev/stdout is, stays."""
    if path.is_symlink() or path.exists() and not path.is_file():
        raise Stopped(4, f"{path} is there, and is no file")
    with errors_of(path):
        path.parent.mkdir(parents=True, exist_ok=True)
        made, name = tempfile.mkstemp(prefix=f".{path.name}.", dir=path.parent)
        try:
            with open(made, "w", encoding="utf-8") as file:
                file.write(text_of(result))
                file.flush()
                os.fsync(file.fileno())
            os.replace(name, path)
        except BaseException:
            os.unlink(name)
            raise
