"""Packed tables: rows that stay in files, in which SQLite finds them."""

import itertools
import pathlib
import re
import sqlite3
from typing import Callable, Iterator

from checks.kit.checking import Fail, compare
from checks.kit.programs import DRIVER
from checks.viewer.page.common import view
from checks.viewer.page.sides import ODD_SIDE
from viewer.database import loading, programs, raw_tables, side_list
from viewer.database.sqlite import open_database
from viewer.files import Stopped

# What is asked of a table, with the name of its first column: all rows, one, some, the last one, those that fall, and
# what is no number; and by another column.
ASKED = ("SELECT * FROM {table}", "SELECT * FROM {table} WHERE {key} = {middle}",
         "SELECT * FROM {table} WHERE {key} > {middle} AND {key} <= {middle} + 500",
         "SELECT * FROM {table} WHERE {key} IN ({middle}, 1, -1)", "SELECT max({key}), min({key}) FROM {table}",
         "SELECT * FROM {table} ORDER BY {key} DESC",
         "SELECT * FROM {table} WHERE {key} < {middle} ORDER BY {key} DESC",
         "SELECT count(*) FROM {table} WHERE {key} = '{middle}'", "SELECT count(*) FROM {table} WHERE {key} > 'a'",
         "SELECT count(*) FROM {table} WHERE {key} = {middle} + 0.5",
         "SELECT count(*) FROM {table} WHERE {key} >= {middle} + 0.5",
         "SELECT count(*) FROM {table} WHERE {key} = NULL",
         "SELECT count(*) FROM {table} WHERE {key} < NULL", "SELECT a.{key}, b.* FROM {table} a LEFT JOIN {table} b"
         " ON b.{key} = a.{key} + 4 ORDER BY a.{key}",
         "SELECT * FROM {table} WHERE {other} = {value}",
         "SELECT * FROM {table} WHERE {other} IN (-1, {value}, NULL, 'a')",
         "SELECT * FROM {table} WHERE {other} IN (-1, {value}) ORDER BY {key} DESC",
         "SELECT * FROM {table} WHERE {other} = {value} AND {key} < {middle}",
         "SELECT * FROM {table} WHERE {other} IN (SELECT {other} FROM {table} ORDER BY {other} LIMIT 3)",
         "SELECT * FROM {table} WHERE {other} IN (SELECT {other} FROM {table})",
         "SELECT count(*) FROM {table} WHERE {other} = '{value}'",
         "SELECT count(*) FROM {table} WHERE {other} = {value}.0",
         "SELECT count(*) FROM {table} WHERE {other} = NULL", "SELECT * FROM {table} WHERE {other} IS NULL",
         "SELECT a.{key}, b.{other} FROM {table} a LEFT JOIN {table} b ON b.{key} = a.{key} AND b.{other} = {value}",
         "SELECT a.{key}, b.{key} FROM {table} a JOIN {table} b ON b.{other} = a.{other} WHERE a.{key} = {middle}")

# By which other column: one that only some rows have, if there is one.
OTHER = {"raw_record": ("handle", "kind"), "raw_frame": ("direction", "utid"), "raw_delivery": ("call", "utid"),
         "raw_send": ("generation", "refused", "delivery"), "raw_call": ("utid", "closer"),
         "raw_object": ("binder", "sort"), "side_time": ("ts",)}


def both_of(folder: pathlib.Path, room: pathlib.Path, capture: pathlib.Path, side: pathlib.Path | None) \
        -> Iterator[sqlite3.Connection]:
    """The raw tables of a capture, as tables and packed."""
    for name in "tables", "packed":
        made = room / f"{name}-{capture.parent.name}.db"
        made.with_suffix(".rows").mkdir()
        _, others = loading.tables_of(folder, [capture], str(side) if side else None, made, name == "packed")
        database = open_database(made)
        if side:
            side_list.SideList(database).load(str(side), others)
        yield database


def check_packed(folder: pathlib.Path, room: pathlib.Path, fail: Fail) -> None:
    """Whatever is asked of a packed table, the answer is that of a table; also of a side list with an odd order."""
    compare("this SQLite reads packed tables", raw_tables.can_pack(), True, fail)
    odd = room / "odd.side"
    odd.write_text(ODD_SIDE, "utf-8")
    for scenario, side in ("objects", None), ("hello-11", DRIVER / "hello-11/capture.side"), ("threads", odd):
        real, packed = both_of(folder, room, DRIVER / scenario / "capture-1.cap", side)
        for table in raw_tables.PACKED_TABLES:
            key, = real.execute(f"SELECT name FROM pragma_table_info('{table}') WHERE cid = 0").fetchone()
            middle, = real.execute(f"SELECT {key} FROM {table} LIMIT 1 OFFSET (SELECT count(*) / 2 FROM {table})"
                                   ).fetchone() or (0,)
            for statement, other in itertools.product(ASKED, OTHER[table]):
                value, = real.execute(f"SELECT {other} FROM {table} WHERE {other} NOTNULL AND {key} >= {middle}"
                                      ).fetchone() or (0,)
                asked = statement.format(table=table, key=key, middle=middle, other=other, value=value)
                same = packed.execute(asked).fetchall() == real.execute(asked).fetchall()
                compare(f"{scenario}: {asked}", same, True, fail)
        is_packed, = packed.execute("SELECT count(*) FROM sqlite_schema WHERE sql GLOB '* USING packed(*'").fetchone()
        ordered = len(raw_tables.PACKED_TABLES) - (side is None or side == odd)
        compare(f"{scenario}: how many tables are packed", is_packed, ordered, fail)
        for table in "side_call", "side_process", "side_thread", "side_missed", "book":
            asked = f"SELECT * FROM {table} ORDER BY 1, 2"
            compare(f"{scenario}: {table}", packed.execute(asked).fetchall(), real.execute(asked).fetchall(), fail)


def told_by(do: Callable[[], object]) -> str:
    """With which line something ends; "" if it does not."""
    try:
        do()
    except Stopped as stopped:
        return str(stopped)
    except sqlite3.Error as error:
        return f"SQLite: {error}"
    return ""


def check_broken(folder: pathlib.Path, room: pathlib.Path, fail: Fail) -> None:
    """Rows that are cut are refused, and so is a file of packed rows that is none; the listing is not left waiting."""
    capture, made = DRIVER / "objects/capture-1.cap", room / "broken.db"
    rows = made.with_suffix(".rows")
    rows.mkdir()
    programs.answer(folder, room / "told", "listing", "--tables", rows, capture)
    record = (rows / "record.rows").read_bytes()
    for number, (bad, due) in enumerate(((record[:-3], "ends within a row"),
                                         (record + b"\0" * 7 + b"\x80", "has a row with more than 21 columns: it has"
                                          " another layout"))):
        (rows / "record.rows").write_bytes(bad)
        words = raw_tables.Loading.words(room / f"bad-{number}.db", rows, None, None, True)
        with raw_tables.Loading(words, rows) as loaded:
            told = told_by(loaded.end)
        compare(f"broken rows {number}", told.removeprefix(f"{rows}/"), f"record.rows {due}", fail)
    # The database is there already, so the loader ends at once.
    taken = room / "taken.db"
    taken.touch()
    taken.with_suffix(".rows").mkdir()
    told = told_by(lambda: loading.tables_of(folder, [capture], None, taken, True))
    compare("a loader that fails", told, f"{taken}: File exists", fail)
    _, packed = both_of(folder, room, capture, None)
    packed.close()
    compare("this SQLite reads packed tables", raw_tables.can_pack(), True, fail)
    file = room / "packed-objects.db.raw_record"
    whole = file.read_bytes()
    none, malformed = f"SQLite: {file}: it holds no packed rows", "SQLite: database disk image is malformed"
    for number, (bad, due) in enumerate(((b"", none), (whole[:-8], none), (whole[:-9] + b"\xff" + whole[-8:], none),
                                         (whole[:100] + b"\xff" * 40 + whole[140:], malformed))):
        file.write_bytes(bad)
        database = open_database(room / "packed-objects.db")
        told = told_by(lambda: database.execute("SELECT sum(seq), sum(kind) FROM raw_record").fetchall())
        compare(f"a wrong file {number}", told, due, fail)
        database.close()


def check_timing(folder: pathlib.Path, room: pathlib.Path, fail: Fail) -> None:
    """--timing names the phases in their order, and then all, which is what they sum up to."""
    told = view(folder, room, DRIVER / "objects/capture-1.cap", "--groups", "--timing", "--no-side")[2]
    lines = re.findall(r"^view: +([0-9]+\.[0-9]{3}) s  (.+)$", told, re.MULTILINE)
    compare("--timing: the phases", [what for _, what in lines[:5]], [
        "reading the capture", "taking the side list and the report", "applying the rules", "writing", "all"], fail)
    seconds = [float(number) for number, _ in lines]
    compare("--timing: all", abs(sum(seconds[:4]) - seconds[4]) < 0.5, True, fail)
    compare("--timing: statements", all(re.match(r"[a-z_]+\.sql: [A-Z]", what) for _, what in lines[5:]), True, fail)
