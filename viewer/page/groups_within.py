"""The groups that a page and --groups show: all of a capture, or those of some frames and processes."""

import pathlib
import sqlite3
from typing import TYPE_CHECKING

if TYPE_CHECKING:
    from viewer.window import Window


def groups_within(database: sqlite3.Connection, window: "Window | None") -> list[int]:
    """The groups that are shown, in their order: those that have a finding in the window, or a call that was open
    then; and of processes, what these have or cause."""
    if window is None:
        return [group for group, in database.execute("SELECT grp FROM finding_group ORDER BY nth")]
    within = (pathlib.Path(__file__).resolve().parent / "queries/within.sql").read_text("utf-8")
    return [group for group, in database.execute(within, window.values())]
