"""The groups as lines of fields, for --groups."""

import pathlib
import sqlite3
from typing import TYPE_CHECKING, Iterator

from viewer.page.groups_within import groups_within
from viewer.terminal import line_of

if TYPE_CHECKING:
    from viewer.malformed import Fault
    from viewer.window import Window

KEYS = (pathlib.Path(__file__).resolve().parent / "queries/group_keys.sql").read_text("utf-8")


def group_lines(database: sqlite3.Connection, window: "Window | None" = None) -> Iterator[str]:
    """A line for each group, its fields separated by tabs: verdict, kind, n, all, device, process, path, rule, note,
    the names of the processes, which are those that cause it, and the keys of the defects."""
    shown = set(groups_within(database, window))
    for number, *fields in database.execute(
            "SELECT grp, verdict, title, n, n_all, path, rules, note FROM finding_group ORDER BY nth").fetchall():
        if number not in shown:
            continue
        verdict, title, n, n_all, path, rules, note = fields
        of = database.execute("SELECT DISTINCT p.device, p.process, p.name FROM finding_head h JOIN finding f"
                              " USING (id) JOIN process p ON p.upid = coalesce(f.culprit, f.upid)"
                              " WHERE h.grp = ? AND f.lead IS NULL"
                              " ORDER BY 1, 2", (number,)).fetchall()
        devices = ",".join(map(str, dict.fromkeys(device for device, *_ in of)))
        processes = ",".join(map(str, dict.fromkeys(process for _, process, _ in of)))
        names = ",".join(dict.fromkeys(name for *_, name in of if name))
        keys = ",".join(key for key, in database.execute(KEYS, (number,)))
        yield line_of(verdict, title, n, n_all, devices, processes, path, rules, note, names, keys)


def lines_of(database: sqlite3.Connection, fault: "Fault | None", window: "Window | None") -> Iterator[str]:
    """What --groups prints. If the capture is malformed, or was kept of a recording that went on, a line comes first
    that has the fields of a group, but no verdict: so nobody takes the groups for those of a whole capture, or the line
    for a group."""
    if fault:
        yield line_of("malformed", fault.kind, None, None, None, None, fault.file, None,
                      f"at {fault.place}: {fault.meaning}", None, None)
    if database.execute("SELECT 1 FROM capture WHERE key = 'kept'").fetchone():
        from viewer.page.why_kept import kept_line, kept_of
        if kept := kept_of(database, set(groups_within(database, window))):
            yield kept_line(database, kept)
    yield from group_lines(database, window)
