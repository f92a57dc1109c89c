"""The packages of a device, and the user ids of their processes, as `pm list packages -U` tells them there: in the file
OUT.packages beside the side list OUT.side."""

import re
import sqlite3

from viewer.database.beside import bytes_beside
from viewer.files import shown_name

# A package has a user id for each user of the device.
LINE = r"package:(?P<name>\S{1,256}) uid:(?P<users>[0-9]{1,10}(,[0-9]{1,10})*)"


def load(database: sqlite3.Connection, sides: list[str]) -> str | None:
    """Fills the table `package`. Returns why none is taken, if the file is there and is no such list."""
    found = bytes_beside(sides, ".packages")
    if not found:
        return None
    path, data = found
    rows: list[tuple[int, str]] = []
    for at, line in enumerate(data.decode(errors="replace").splitlines(), 1):
        told = re.fullmatch(LINE, line)
        if not told:
            return f"line {at} of {shown_name([str(path)])} names no package with its user id"
        rows += [(int(user), told["name"]) for user in told["users"].split(",")]
    database.executemany("INSERT OR IGNORE INTO package VALUES (?, ?)", rows)
    return None
