"""Why a set of files was kept of a recording that went on, by the line `kept` of its side list."""

import pathlib
import sqlite3
from collections.abc import Container
from typing import NamedTuple

from viewer.clocks import SECOND
from viewer.rules.names import Names
from viewer.terminal import line_of

QUERIES = pathlib.Path(__file__).resolve().parent / "queries"
GROUP, KEYS = ((QUERIES / f"{name}.sql").read_text("utf-8") for name in ("kept_group", "group_keys"))

# Of a send its code, the process and the node that it is to or, if that is not known, its own process and the handle,
# and the interface that it names.
CALL = ("SELECT r.code, coalesce(n.upid, -t.upid), coalesce(n.ptr, r.handle), r.interface FROM raw_send s"
        " JOIN raw_record r USING (place) JOIN raw_thread t ON t.utid = s.utid LEFT JOIN node_of n USING (generation)"
        " WHERE s.place = ?")

# The bytes of a frame before its commands.
HEADER = 32


class Kept(NamedTuple):
    """The word of the side list, and a sentence; the process, if it has a number there; the place of the record on
    account of which it was kept; and the group that is about it. Any of these may not be in the capture."""
    why: str
    text: str
    upid: int | None
    place: int | None
    group: int | None


def seconds(nanoseconds: int) -> str:
    return f"{nanoseconds / SECOND:.1f} s"


def place_of(database: sqlite3.Connection, facts: dict) -> int | None:
    row = database.execute("SELECT r.place FROM raw_frame f JOIN raw_record r ON r.place = f.place + ? + ?"
                           " WHERE f.seq = ?", (HEADER, facts.get("kept_at", 0), facts.get("kept_frame"))).fetchone()
    return row and row[0]


def process_of(database: sqlite3.Connection, pid: int | None) -> tuple[int | None, str]:
    """The process that had this number last, and what it is called."""
    row = pid is not None and database.execute(
        "SELECT upid, who FROM process JOIN who USING (upid) WHERE pid = ? ORDER BY upid DESC", (pid,)).fetchone()
    return row or (None, "a process" if pid is None else f"process {pid}")


def call_at(database: sqlite3.Connection, place: int | None) -> str | None:
    """What the call at a place is called."""
    row = database.execute(CALL, (place,)).fetchone()
    if row is None:
        return None
    names = Names(database)
    text, has_method = names.named(*row) or ("", False)
    return text if has_method else names.call(*row)


def sentence(facts: dict, call: str | None, who: str) -> str:
    """Why it was kept. Of a word of a later recorder only the word is known."""
    name, limit = facts["kept_name"], facts.get("kept_limit", 0)
    lasted = seconds(facts["kept_ts"] - facts.get("kept_since", facts["kept_ts"]))
    return "kept because " + {
        "asked": "somebody asked for it",
        "file": f"{name} was there",
        "hang": f"{call or f'a call of {who}'} has been open for {lasted}",
        "pool": f"all threads of {who} have served for {lasted}, and calls wait",
        "refused": f"{limit:,} sends of {who} were refused within a second",
        "death": f"{name or who} ended",
        "logcat": f"the log said: {name}"}.get(facts["kept"], f"of {facts['kept']} {name}".rstrip())


def kept_of(database: sqlite3.Connection, groups: Container[int]) -> Kept | None:
    """Why the capture was kept, of which these groups are shown; None if it is a whole recording."""
    facts = dict(database.execute("SELECT key, value FROM capture WHERE key GLOB 'kept*'"))
    if "kept" not in facts:
        return None
    place, (upid, who) = place_of(database, facts), process_of(database, facts.get("kept_pid"))
    call = call_at(database, place)
    group, = database.execute(GROUP, (place,)).fetchone() or (None,)
    return Kept(facts["kept"], sentence(facts, call, who), upid, place, group if group in groups else None)


def kept_line(database: sqlite3.Connection, kept: Kept) -> str:
    """The line of --groups: the fields of a group, with the process that the side list names, and the path and the keys
    of the group that is about it."""
    device, process, name = database.execute("SELECT device, process, name FROM process WHERE upid = ?",
                                             (kept.upid,)).fetchone() or (None, None, None)
    path, = database.execute("SELECT path FROM finding_group WHERE grp = ?", (kept.group,)).fetchone() or (None,)
    keys = ",".join(key for key, in database.execute(KEYS, (kept.group,)))
    return line_of("kept", kept.why, None, None, device, process, path, None, kept.text, name, keys or None)
