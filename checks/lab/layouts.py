"""Labs of the layout that came first, in which who talks to whom was as the results have it: they can be read, and what
they have is the same when results are loaded into them."""

import pathlib
import random
import sqlite3
from collections.abc import Iterator
from contextlib import closing

from checks.kit.checking import Fail, compare
from checks.lab.models import capture, finding, put_all
from lab.compare import Comparison
from lab.store import open_lab

# What turns a lab into one of the first layout.
FIRST = """
CREATE TABLE before AS SELECT * FROM talk;
DROP VIEW talk; DROP VIEW method_time; DROP TABLE exchange; DROP TABLE sent; DROP TABLE method; DROP TABLE took;
ALTER TABLE before RENAME TO talk;
CREATE INDEX talk_of_capture ON talk(capture);
PRAGMA user_version = 1;"""

TALK = "SELECT c.digest, t.caller, t.server, t.call, t.oneway, t.sends, t.longest FROM talk t JOIN capture c" \
       " ON c.id = t.capture ORDER BY 1, 2, 3, 4, 6"


def results(seed: str) -> Iterator[dict]:
    """Of two builds, whose calls are partly the same."""
    random_ = random.Random(seed)
    for number in range(20):
        talk = [{"caller": f"app{random_.randrange(3)}", "server": None if code == 3 else "server", "code": code,
                 "call": f"code {code}", "oneway": code % 2, "sends": random_.randrange(9),
                 "longest": random_.choice((None, 5))} for code in range(90)]
        yield {"capture": capture(random_, f"b{number % 2}", number), "found": [finding("leaky")],
               "talk": talk, "held": [{"process": "leaky on binder"}]}


def check_first_layout(_: pathlib.Path, room: pathlib.Path, fail: Fail) -> None:
    path = str(room / "first.db")
    with closing(open_lab(path, may_make=True)) as lab:
        put_all(lab, results("there"))
        due = lab.execute(TALK).fetchall()
    with closing(sqlite3.connect(path)) as lab:
        lab.executescript(FIRST)
    with closing(open_lab(path)) as lab:
        compare("a lab of the first layout is read", (lab.execute(TALK).fetchall() == due,
                                                      Comparison(lab, ["b0"], "b1").counts()["same"]), (True, 1), fail)
    with closing(open_lab(path, may_make=True)) as lab:
        compare("it is changed to the layout of today", lab.execute(TALK).fetchall() == due, True, fail)
        put_all(lab, results("later"))
        rows = lab.execute("SELECT (SELECT count(*) FROM talk), (SELECT count(*) FROM exchange),"
                           " (SELECT count(DISTINCT format('%s %s %s', caller, server, call)) FROM talk)").fetchone()
        compare("results that are loaded then: rows, sorts of them", (rows[0], rows[1]), (2 * len(due), rows[2]), fail)
        tables = {name for name, in lab.execute("SELECT name FROM sqlite_schema WHERE type = 'table'")}
        compare("what is left of the first layout", [name for name in tables if "talk" in name], [], fail)
