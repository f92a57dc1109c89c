"""Writes a timeline of a capture, by the suffix of its file: in Perfetto's own format, or as JSON."""

import pathlib
import sqlite3
from typing import Callable

from viewer.database.raw_tables import WALKER, loader
from viewer.files import for_owner
from viewer.program_names import commit
from viewer.timeline.android_names import AndroidNames
from viewer.timeline.events import Events, Out
from viewer.timeline.json_events import JsonEvents
from viewer.timeline.packed import File, Gzip, Packing, Pieces
from viewer.timeline.packets import Packets, compressed
from viewer.timeline.suffixes import NATIVE
from viewer.timeline.tracks import OF_AXIS, Axis, Tracks, Window
from viewer.timeline.walk import Walk
from viewer.timeline.walker import Walker


def facts_of(database: sqlite3.Connection) -> dict[str, object]:
    """What a timeline says of the capture."""
    names = ("file", "malformed", "side_doubt", "realtime", "begin_ts", "boottime", "kernel", "machine")
    known = dict(database.execute("SELECT key, value FROM capture"))
    hidden, = database.execute("SELECT count(*) FROM finding f JOIN rule u ON u.id = f.rule"
                               " WHERE u.verdict <> 'normal' AND (f.place IS NULL OR f.utid IS NULL)").fetchone()
    return {**{name: known[name] for name in names if known.get(name) is not None}, "findings_without_place": hidden}


def packing_of(name: str) -> Packing:
    if name.endswith(".gz"):
        return Gzip()
    return Pieces(compressed)


def events_of(name: str, is_android: bool, database: sqlite3.Connection, axis: Axis, tracks: Tracks
              ) -> tuple[str, Callable[[Out], Events]]:
    """What the walk calls the format, and the format."""
    if not name.endswith(NATIVE):
        return JsonEvents.form, lambda out: JsonEvents(out, axis, tracks)
    return Packets.form, lambda out: (AndroidNames if is_android else Packets)(out, axis, tracks, database)


def write_file(database: sqlite3.Connection, file: File, window: Window, name: str, is_android: bool, axis: Axis,
               tracks: Tracks) -> None:
    made = next(file for _, schema, file in database.execute("PRAGMA database_list") if schema == "main")
    walk = Walk(database, axis, tracks, window)
    form, events = events_of(name, is_android, database, axis, tracks)
    with Walker(loader().with_name(WALKER), form, pathlib.Path(made).as_uri(), file.add, walk.answer) as walker:
        out = events(walker)
        walk.begin(out, walker)
        counts = walk.walk()
        told: dict[str, object] = {"tool": "binder_audit: ./view --trace", "commit": commit(),
                                   **axis.facts(out.clock, counts), **facts_of(database), **window.facts(),
                                   **{count: number for count, number in counts.items() if count not in OF_AXIS}}
        out.finish({name: value for name, value in told.items() if value is not None})


def write(database: sqlite3.Connection, path: pathlib.Path, window: Window, name: str, is_android: bool = False
          ) -> bool:
    """Writes the timeline into a new file, for its owner only, in the format of files that are called `name`. Returns
    whether any thread is in it. A program in C reads the rows and makes the events, and this one packs them."""
    for setting in ("cache_size=-16384", "temp_store=FILE"):
        database.execute(f"PRAGMA {setting}")
    axis, tracks = Axis(database, window), Tracks(database, window)
    file = File(open(path, "xb", opener=for_owner), packing_of(name))
    try:
        file.begin()
        write_file(database, file, window, name, is_android, axis, tracks)
        file.end()
    finally:
        file.close()
    return bool(tracks.shown)
