"""From a small session to its database, as `view` makes it, and to the rules that its findings get. The report of a
session is that of the second reading, its tables are those of `./listing`."""

import pathlib
import sqlite3
import subprocess
import tempfile

from checks.kit.programs import TABLES
from checks.kit.second_reading import reading
from checks.viewer.heads import keep_raw
from checks.viewer.sessions.session import Session
from viewer.database import loading, raw_tables
from viewer.database.sqlite import open_database
from viewer.rules import judging


def base_of(room: pathlib.Path, session: Session) -> bytes:
    """The database of a session before it is judged."""
    with tempfile.TemporaryDirectory(dir=room) as folder:
        capture, side, rows, report = (pathlib.Path(folder) / f"s.{what}" for what in ("cap", "side", "rows", "report"))
        capture.write_bytes(session.capture())
        side.write_text(session.side(), "utf-8")
        for name, text in session.copies.items():
            side.with_suffix(f".{name}").write_bytes(text.encode() if isinstance(text, str) else text)
        rows.mkdir()
        subprocess.run([TABLES, "--tables", rows, capture], check=True, stdout=subprocess.DEVNULL)
        status, lines = reading(session.capture())
        if status:
            raise ValueError(lines[0])
        report.write_text("".join(f"{line}\n" for line in lines), "utf-8")
        base = side.with_suffix(".db")
        raw_tables.load_rows(base, rows, str(side) if session.has_side else None)
        database = open_database(base)
        database.set_authorizer(keep_raw)
        loading.fill(database, [str(capture)], str(side) if session.has_side else None, report, None)
        database.close()
        return base.read_bytes()


def judged(base: bytes, folder: pathlib.Path = judging.FOLDER) -> sqlite3.Connection:
    """A copy of the database, judged by the rules of a folder."""
    database = sqlite3.connect(":memory:", isolation_level=None)
    database.deserialize(base)
    judging.judge(database, folder)
    return database
