"""The walker in C: with sanitizers, of databases with harmed rows, and where it or its caller is killed."""

import contextlib
import os
import pathlib
import random
import shutil
import signal
import sqlite3
import subprocess
import sys
from typing import Callable, Iterator
from unittest import mock

from checks.kit.checking import Fail, compare
from checks.kit.programs import ROOT
from checks.listing.printed import SANITIZED
from viewer.database.raw_tables import BUILT, FOLDER, WALKER, compile_c
from viewer.database.sqlite import open_database
from viewer.timeline import trace

# So many databases are harmed, each in up to so many places.
DATABASES, PLACES = 20, 6

# The tables of which the walk reads rows. What an interface is called is not looked up by the walk.
TABLES = "raw_send", "raw_delivery", "raw_call", "raw_record", "side_time", "node_of", "side_call"
LEFT = "interface", "kind"
VALUES = None, 0, 1, 2, 7, -1, 2**31, 2**32 + 1, 2**63 - 1, -2**63

Written = Callable[[sqlite3.Connection, pathlib.Path], pathlib.Path]


@contextlib.contextmanager
def by(folder: pathlib.Path) -> Iterator[None]:
    """The walker of a folder walks."""
    with mock.patch.object(trace, "loader", lambda: folder / "load"):
        yield


@contextlib.contextmanager
def sanitized(room: pathlib.Path, fail: Fail) -> Iterator[None]:
    """A walker with sanitizers walks. What they find is a failure."""
    folder = room / "sanitized"
    folder.mkdir(exist_ok=True)
    if not (folder / WALKER).exists():
        compile_c(folder / WALKER, FOLDER, BUILT[WALKER], *SANITIZED, "-lsqlite3")
    told = {name: f"log_path={folder}/found" for name in ("ASAN_OPTIONS", "UBSAN_OPTIONS")}
    with mock.patch.dict(os.environ, told), by(folder):
        yield
    found = [path.read_text("utf-8", "replace")[:2000] for path in folder.glob("found*")]
    compare("what sanitizers found", found, [], fail)


def has_child() -> bool:
    try:
        os.waitpid(-1, os.WNOHANG)
        return True
    except ChildProcessError:
        return False


def harm(database: sqlite3.Connection, seed: int) -> None:
    """Puts numbers that may be of anything into rows of a database."""
    some = random.Random(seed)
    for _ in range(some.randrange(1, PLACES + 1)):
        table = some.choice(TABLES)
        columns = [name for _, name, *_ in database.execute(f"PRAGMA table_info({table})") if name not in LEFT]
        column, other = some.choice(columns), some.choice(columns)
        share = some.choice((2, 17, 1000))
        value = some.choice((*VALUES, other))
        with contextlib.suppress(sqlite3.IntegrityError):  # of a column that is always there
            database.execute(f"UPDATE OR IGNORE {table} SET {column} = {'NULL' if value is None else value}"
                             f" WHERE rowid % {share} = {some.randrange(share)} OR rowid = (SELECT min(rowid) FROM"
                             f" {table})")


def check_harmed(path: pathlib.Path, room: pathlib.Path, written: Written, fail: Fail) -> None:
    """Of a database with harmed rows a timeline is made, or it is said that they can't be read. No process is left."""
    came = set[str]()
    for seed in range(DATABASES):
        shutil.copy(path, room / "harmed.db")
        database = open_database(room / "harmed.db")
        harm(database, seed)
        for name in ("harmed.json.gz", "harmed.pftrace"):
            try:
                written(database, room / name)
                came.add("a timeline")
            except sqlite3.Error as error:
                came.add(str(error))
            compare(f"{name}, {seed}: a process", has_child(), False, fail)
        database.close()
    compare("what came of harmed rows", came, {"a timeline", "its rows can't be read"}, fail)


def check_walker_ends(database: sqlite3.Connection, room: pathlib.Path, written: Written, fail: Fail) -> None:
    """A walker that ends too early is an error of the timeline. No process is left."""
    (room / "ends").mkdir()
    for script in ("exit 0", "exit 1", "kill -9 $$", "head -c 100 > /dev/null; echo 0123456789abcdefghijkl"):
        (room / "ends" / WALKER).write_text(f"#!/bin/sh\n{script}\n", "utf-8")
        (room / "ends" / WALKER).chmod(0o755)
        came = "a timeline"
        with by(room / "ends"):
            try:
                written(database, room / "ends.pftrace")
            except sqlite3.Error as error:
                came = str(error)
        compare(f"a walker that does {script}", (came, has_child()), ("its rows can't be read", False), fail)


# Is killed while the walker goes on without end, and has written.
KILLED = """
import os, pathlib, signal, sys, threading, time
from viewer.database.sqlite import open_database
from viewer.timeline import rows, trace
from viewer.timeline.tracks import Window
rows.SENDS = "WITH RECURSIVE c(n) AS (SELECT 1 UNION ALL SELECT n + 1 FROM c) SELECT n, n, NULL, 1, 1, 1, 1" \\
    + 13 * ", NULL" + " FROM c"
path = pathlib.Path(sys.argv[2])
def kill():
    while not path.exists() or path.stat().st_size < 2**16:
        time.sleep(0.01)
    os.kill(os.getpid(), signal.SIGKILL)
threading.Thread(target=kill).start()
trace.write(open_database(sys.argv[1]), path, Window(), "out.pftrace")
"""


def check_walker_killed(database: pathlib.Path, room: pathlib.Path, fail: Fail) -> None:
    """SIGKILL leaves no process: a walker whose caller is gone ends."""
    killed = subprocess.Popen([sys.executable, "-Bc", KILLED, database.resolve(), room / "killed.pftrace"], cwd=ROOT,
                              start_new_session=True, stderr=subprocess.PIPE)
    try:
        killed.communicate(timeout=60)  # its errors end when no process has them any more
        is_left = False
    except subprocess.TimeoutExpired:
        os.killpg(killed.pid, signal.SIGKILL)
        is_left = True
    compare("what was killed: its status, and whether a process is left", (killed.wait(), is_left),
            (-signal.SIGKILL, False), fail)
