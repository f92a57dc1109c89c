"""Whether a side list itself is wrong, so that no other run says more of the capture until the list is another one."""

import pathlib
import sqlite3
from contextlib import closing

from viewer.database import raw_tables
from viewer.database.side_list import SideList, joined_sides
from viewer.files import Stopped

# As the loader says it.
LONG_LINE = " has a line of more than "


def why_wrong(sides: list[str], told: list[str], room: pathlib.Path) -> str | None:
    """What is wrong in the side lists of a capture that `./view` has refused with these lines; None if nothing is, and
    it refused the capture for another reason. The lists are read once more, alone."""
    if told and told[-1].startswith(tuple(f"view: {side}{LONG_LINE}" for side in sides)):
        return told[-1].removeprefix("view: ")
    if not sides:
        return None
    try:
        with closing(sqlite3.connect(":memory:")) as database:
            database.executescript(raw_tables.schema())
            SideList(database).load(joined_sides(sides, room / "joined.side"))
    except Stopped as stopped:
        # What the system refuses is no fault of the list.
        return None if isinstance(stopped.__cause__, OSError) else str(stopped)
    except (OSError, sqlite3.Error):
        return None
    return None
