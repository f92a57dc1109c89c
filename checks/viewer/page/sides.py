"""Side lists, and how a capture is loaded."""

import contextlib
import os
import pathlib
import random
import re
import sqlite3
import subprocess
import time
from typing import Callable
from unittest import mock

from checks.kit.checking import Fail, compare
from checks.kit.frames import frames_of
from checks.kit.programs import DRIVER
from checks.kit.rows import columns_of_tables, rows_of
from checks.kit.side_lists import packed, unpacked
from checks.viewer.page.common import loaded, texts_of, texts_stored, view
from viewer.database import finders, loading, programs, raw_tables, side_list
from viewer.database.sqlite import open_database
from viewer.files import Stopped
from viewer.units import signed


def renumbered(scenario: str, other: str) -> str:
    """The side list of a scenario, with the numbers of the processes of another one that has as many."""
    sides = [texts_stored(name)[1] for name in (scenario, other)]
    numbers = dict(zip(*(re.findall(r" process 0 (\d+) ", side) for side in sides)))
    return re.sub(r"(?<=[ =])\d+(?= )", lambda found: numbers.get(found[0], found[0]), sides[0])


def doubt_if_packed(folder: pathlib.Path, made: pathlib.Path, capture: pathlib.Path, side: pathlib.Path) -> str:
    """What is said of a side list where tables are packed and other processes look at them, as of a large capture."""
    with mock.patch.object(finders, "LEAST_RECORDS", 0), mock.patch.object(loading, "LEAST_PACKED", 0):
        try:
            loading.database_of(folder, [str(capture)], str(side), made, lambda _: None, kept=False)
        except Stopped as stopped:
            return stopped.line
    with contextlib.closing(open_database(made)) as database:
        return database.execute("SELECT value FROM capture WHERE key = 'side_doubt'").fetchone()[0] or ""


def check_side(folder: pathlib.Path, room: pathlib.Path, fail: Fail) -> None:
    """A side list of another capture is refused. If one may belong to another, a line says so, also on the page."""
    capture, side = texts_stored("leaks")
    frames = frames_of(capture)
    cuts = {"whole": capture, "begin": capture[:frames[40][0]], "end": capture[:16] + capture[frames[40][0]:],
            "gap": capture[:frames[30][0]] + capture[frames[50][0]:]}
    # A word that the list may have in time is passed over.
    side = side.replace("\n", "\n1 lines 0 a=b\n2 line\n", 1)
    stopped = side[:side.index(" frame 50\n")].rpartition("\n")[0] + "\n"
    lists = {"whole": side, "stopped": stopped, "none": side[:side.index(" frame 1\n")].rpartition("\n")[0] + "\n",
             "short": stopped + "9 end recording after=49 frames=49 lost=0\n",
             "lost": side.replace(" frame 30\n", " lost 30 why=call-unreadable\n"),
             "later": re.sub(r"^((?:.* (?:process|command|thread) 0 176 .*\n){3})(.* frame 25\n)", r"\2\1", side,
                             flags=re.MULTILINE)}
    for name, data in cuts.items():
        (room / f"{name}.cap").write_bytes(data)
    for name, text in lists.items():
        (room / f"{name}.side").write_text(text, "utf-8")
    (room / "replies.side").write_text(texts_stored("replies")[1], "utf-8")
    (room / "weak-refs.cap").write_bytes(texts_stored("weak-refs")[0])
    (room / "renumbered.side").write_text(renumbered("replies", "weak-refs"), "utf-8")
    more = ("the side list has frames that are not in the capture, {}: the capture is only a part of the recording, or"
            " the list belongs to another one")
    other = "the side list belongs to another capture: {}"
    due = [("whole", "whole", 0, ""), ("begin", "whole", 0, more.format("45 after the last")),
           ("end", "whole", 0, more.format("40 before the first")), ("gap", "whole", 0, more.format("20 between")),
           ("weak-refs", "renumbered", 0, more.format("35 after the last")),
           ("whole", "stopped", 0, "the side list ends with frame 49, before the capture does: it was cut, or belongs"
            " to another capture"),
           ("whole", "none", 0, "the side list ends with frame 0, before the capture does: it was cut, or belongs to"
            " another capture"),
           ("whole", "short", 1, other.format("it ends with frame 49, and the capture has frame 50")),
           ("whole", "lost", 1, other.format("it does not have frame 30 of the capture")),
           ("whole", "later", 1, other.format("thread 176 of process 176 on device 0 makes a call in frame 25 of the"
                                              " capture, and the list has not named that thread by then")),
           ("whole", "replies", 1, other.format("thread 173 of process 173 on device 0 makes a call in frame 1 of the"
                                                " capture, and the list has not named that thread by then"))]
    for number, (cap, list_, status, line) in enumerate(due):
        shown = room / f"side-{number}.html"
        ended, _, told = view(folder, room, f"{cap}.cap", "--side", f"{list_}.side", "-o", shown.name)
        what = f"{cap}.cap with {list_}.side"
        compare(what, (ended, told), (status, f"view: {line}\n" if line else ""), fail)
        came = doubt_if_packed(folder, room / f"side-{number}.db", room / f"{cap}.cap", room / f"{list_}.side")
        compare(f"{what}, packed", came, line, fail)
        compare(f"{what}, the page is there", shown.exists(), status == 0, fail)
        if shown.exists():
            compare(f"{what}, the page says it", "The side list " in shown.read_text("utf-8"), bool(line), fail)


def check_late(folder: pathlib.Path, room: pathlib.Path, fail: Fail) -> None:
    """Of a recording that goes on after its end, as those of earlier recorders do, the page says how many frames are
    later."""
    here = DRIVER / "hung"
    side = unpacked((here / "capture.side").read_text("utf-8"))
    times = sorted(int(time) for time in re.findall(r"^(\d+) frame ", side, re.MULTILINE))
    for late in 0, 1, 3:
        (room / "late.side").write_text(re.sub(r"^\d+ end recording", f"{times[-1 - late]} end recording", side,
                                               flags=re.MULTILINE), "utf-8")
        shown = room / f"late-{late}.html"
        view(folder, room, here / "capture-1.cap", "--side", "late.side", "-o", shown.name)
        came = re.findall(r"(\d+ frames?) (?:is|are) later than the end of the recording", texts_of(shown))
        compare(f"{late} late frames", came, ["1 frame"] if late == 1 else ["3 frames"] if late else [], fail)


# Side lists, and why ./view refuses them; "" if it reads them. Each has `begin` at 5.
OLD_BEGIN = "realtime=1 kernel=6.1 machine=x86_64"
FORMS = (
    (1, OLD_BEGIN, ""),
    *((version, f"{OLD_BEGIN} boottime=1 payloads=whole drivers=", "") for version in (2, 3)),
    *((version, f"{OLD_BEGIN} {lacking}", "the line 'begin' at 5 is not valid") for version in (2, 3) for lacking in (
        "payloads=whole drivers=10:1:C", "boottime=1 drivers=10:1:C", "boottime=1 payloads=whole")),
    (4, OLD_BEGIN, "is not a side list of version 1, 2 or 3"))


def check_forms(_: pathlib.Path, room: pathlib.Path, fail: Fail) -> None:
    """A side list is of one of three versions, and since the second one `begin` has all its fields."""
    for number, (version, begin, due) in enumerate(FORMS):
        list_ = room / f"form-{number}.side"
        list_.write_text(f"binder side list {version}\n5 begin {begin}\n", "utf-8")
        taken = side_list.SideList(empty_database())
        came = refusal(lambda: taken.load(str(list_)))
        compare(f"side list {number}", (due in came, bool(came)), (True, bool(due)), fail)
        compare(f"the version of side list {number}", taken.facts.get("side_list"), version if version < 4 else None,
                fail)


# What `begin` says was recorded alone, and the facts that come of it; none if such a list is refused.
PARTS = (
    ("pid:412,pid:7", ("--pid 412 --pid 7", 1, 0)),
    ("only:my\\x20app,only:a\\x2cb\\x07", ("--only 'my app' --only 'a,b\x07'", 1, 0)),
    ("device:binder", ("--device binder", 0, 1)),
    ("pid:1,device:hwbinder,more:3", ("--pid 1 --device hwbinder and 3 more", 1, 1)),
    ("cgroup:apps", ("by other options", 1, 1)),
    ("", None), ("412", None), ("pid:1,,pid:2", None), ("more:many", None))


def check_narrowed(_: pathlib.Path, room: pathlib.Path, fail: Fail) -> None:
    """What alone was recorded, as a side list says it."""
    keys = "narrowed", "narrowed_processes", "narrowed_devices"
    for number, (narrowed, due) in enumerate(PARTS):
        list_ = room / f"part-{number}.side"
        list_.write_text("binder side list 3\n5 begin " + OLD_BEGIN + " boottime=1 payloads=whole narrowed=" + narrowed
                         + " drivers=\n", "utf-8")
        taken = side_list.SideList(empty_database())
        refused = refusal(lambda: taken.load(str(list_)))
        compare(f"narrowed={narrowed} is refused", bool(refused), due is None, fail)
        compare(f"narrowed={narrowed}", tuple(taken.facts.get(key) for key in keys), due or (None,) * 3, fail)


def as_files(side: str, first: int) -> list[str]:
    """The side lists of a recorder that keeps the newest files, and whose second file begins with frame `first`."""
    head, begun, lines = side.partition("\n")[0] + "\n", "", [[], []]
    met: list[str] = []
    for line in side.splitlines(keepends=True)[1:]:
        time, word, *rest = line.split()
        if word == "begin":
            begun = line
        if word == "frame" and int(rest[0]) == first:
            lines.append([])
        if len(lines) == 2 and word in ("device", "process", "thread"):
            met.append(re.sub(" met=\\S+ ", " met=before-file ", line))
        lines[-1].append(line)
    met += ["5 calls 0 1 1 made=2 served=1\n", "5 handle 0 1 7\n"]
    return [head + "".join(lines[1]), head + begun + "".join(met) + "6 file 2\n" + "".join(lines[2])]


def check_files(folder: pathlib.Path, room: pathlib.Path, fail: Fail) -> None:
    """The files of a flight recorder together are the whole capture; the last one alone knows that more came before."""
    capture, side = texts_stored("threads")
    place, sequence, *_ = frames_of(capture)[len(frames_of(capture)) // 2]
    (room / "whole.cap").write_bytes(capture)
    (room / "whole.side").write_text(side, "utf-8")
    for number, (data, list_) in enumerate(zip((capture[:place], capture[:16] + capture[place:]),
                                               as_files(side, sequence)), 1):
        (room / f"part-{number}.cap").write_bytes(data)
        (room / f"part-{number}.side").write_text(list_, "utf-8")
    _, whole, _ = view(folder, room, "whole.cap", "--side", "whole.side", "--groups")
    status, came, told = view(folder, room, "part-1.cap", "part-2.cap", "--side", "part-1.side", "--side",
                              "part-2.side", "--groups")
    compare("the files of a flight recorder", (status, came, told), (0, whole, ""), fail)
    came = view(folder, room, "part-1.cap", "part-2.cap", "--groups")
    due = "view: takes part-1.side part-2.side beside the capture; --no-side leaves it out\n"
    compare("the files of a flight recorder with the side lists beside them", came, (0, whole, due), fail)
    for list_ in room / "part-1.side", room / "part-2.side":
        list_.write_text(packed(list_.read_text("utf-8")), "utf-8")
    came = view(folder, room, "part-1.cap", "part-2.cap", "--groups")
    compare("the files of a flight recorder of today", came, (0, whole, due), fail)
    status, _, told = view(folder, room, "part-2.cap", "--side", "part-2.side", "-o", "part-2.html")
    compare("the last file of a flight recorder", (status, told), (0, ""), fail)
    text = texts_of(room / "part-2.html")
    for due in ("Already open when the recording began, so what came before is not known: ",
                "in files that were removed: 3 calls that went on, and 1 handle that a process had met.",
                "In these calls were: process 1 thread 1 (2 made, 1 served)."):
        compare(f"the page of the last file says {due!r}", due in text, True, fail)
    status, came, _ = view(folder, room, "part-2.cap", "--side", "part-2.side", "--groups")
    compare("the last file: real", [line for line in came.splitlines() if line.startswith("real")], [], fail)


def renamed(side: str, after: int, *lines: str) -> str:
    """A side list in which threads change their names after a frame."""
    at = re.search(rf"^(\d+) frame {after}\n", side, re.MULTILINE)
    told = "".join(f"{at[1]} name {line.format(after=after)}\n" for line in lines)
    return side[:at.end()] + told + side[at.end():]


# A scenario, the frame after which threads change their names, the lines that say so, and the rows with new names: a
# process number, a thread number, and the names of both. Of two new names the last one counts. In `reuse` process 965
# has ended, and its id was given again.
RENAMES = (
    ("threads", 200, ("pid=309 tid=309 after={after} name=old", "pid=309 tid=309 after={after} name=new client",
                      "pid=309 tid=312 after={after} name=new worker"),
     [(309, 309, "new client", "new client"), (309, 311, "new client", "client"),
      (309, 312, "new client", "new worker"), (309, 313, "new client", "client")]),
    ("reuse", 16, ("pid=965 tid=965 after={after} name=new second",), [(4194304, 965, "new second", "new second")]))


def check_renames(folder: pathlib.Path, room: pathlib.Path, fail: Fail) -> None:
    """A thread has its last name in the side list, and a process has the name of its first thread."""
    for scenario, after, lines, due in RENAMES:
        list_ = room / f"{scenario}.side"
        list_.write_text(renamed(texts_stored(scenario)[1], after, *lines), "utf-8")
        database = loaded(folder, room / f"{scenario}.db", [DRIVER / scenario / "capture-1.cap"], list_)
        came = database.execute("SELECT p.process, thread, p.name, t.name FROM thread t JOIN process p USING (upid)"
                                " WHERE p.name || t.name LIKE '%new%' ORDER BY 1, 2").fetchall()
        compare(f"new names in {scenario}", came, due, fail)
        database.close()


# ---- the last names

WHOLE_BEGIN = f"binder side list 2\n5 begin {OLD_BEGIN} boottime=1 payloads=whole drivers=\n"


class Row:
    """A process or a thread of a side list, by the lines that came for it."""

    def __init__(self, number: int, name: str):
        self.number, self.name, self.has_ended = number, name, False


class Named:
    """What the lines of a side list name, line by line: a line `name` is for all that has not ended."""

    def __init__(self) -> None:
        self.lines: list[str] = []
        self.processes: dict[int, Row] = {}
        self.threads: dict[int, Row] = {}

    def tell(self, line: str) -> None:
        self.lines.append(f"{6 + len(self.lines)} {line}\n")

    def comes(self, key: int, pid: int, tid: int) -> None:
        name = f"first-{len(self.lines)}"
        self.tell(f"process 0 {key} pid={pid} start=1 opening={key} met=from-start name={name}")
        self.tell(f"thread 0 {key} 1 pid={pid} tid={tid} start=1 name={name}")
        self.processes[key], self.threads[key] = Row(pid, name), Row(tid, name)

    def is_called(self, pid: int, tid: int) -> None:
        name = f"later-{len(self.lines)}"
        self.tell(f"name pid={pid} tid={tid} after=0 name={name}")
        for number, rows in ((tid, self.threads), (pid if pid == tid else -1, self.processes)):
            for row in rows.values():
                if row.number == number and not row.has_ended:
                    row.name = name

    def ends(self, what: str, key: int, pid: int) -> None:
        self.tell(f"end {what} " + {"thread": f"0 {key} 1 after=0 why=ended", "opening": f"0 {key} after=0",
                                    "pid": f"{pid} after=0"}[what])
        ended = {"thread": [self.threads.get(key)], "opening": [self.processes.get(key)],
                 "pid": [row for row in self.processes.values() if row.number == pid]}[what]
        for row in filter(None, ended):
            row.has_ended = True

    def names(self) -> list[list[tuple[int, str]]]:
        return [sorted((key, row.name) for key, row in rows.items()) for rows in (self.processes, self.threads)]


def loaded_names(list_: pathlib.Path) -> tuple[list[list[tuple[int, str]]], int]:
    """The names of the processes and of the threads of a side list, and how many thousands of its instructions SQLite
    took for the list."""
    database, thousands = empty_database(), [0]

    def count() -> None:
        thousands[0] += 1

    database.set_progress_handler(count, 1000)
    side_list.SideList(database).load(str(list_))
    database.set_progress_handler(None, 0)
    return [database.execute(f"SELECT process, name FROM side_{table} ORDER BY 1").fetchall()
            for table in ("process", "thread")], thousands[0]


def check_last_names(_: pathlib.Path, room: pathlib.Path, fail: Fail) -> None:
    """Each row has the last name that came before it ended, in lists of made-up lines. And a line costs the same,
    however many openings its thread or its process has."""
    chance, list_ = random.Random(1), room / "names.side"
    for number in range(30):
        named = Named()
        for _ in range(chance.choice((10, 100, 300))):
            key, pid, tid = chance.randrange(12), chance.randrange(3), chance.randrange(4)
            chance.choice((lambda: named.comes(key, pid, tid), lambda: named.is_called(pid, tid),
                           lambda: named.ends(chance.choice(("thread", "opening", "pid")), key, pid)))()
        list_.write_text(WHOLE_BEGIN + "".join(named.lines), "utf-8")
        compare(f"the names of list {number}", loaded_names(list_)[0], named.names(), fail)
    many = Named()
    for key in range(300):
        many.comes(key, 7, 7)
    for _ in range(1000):
        many.tell("name pid=7 tid=7 after=0 name=other")
    for key in range(1000, 1300):
        many.comes(key, 7, 7)
        many.tell("end pid 7 after=0")
    list_.write_text(WHOLE_BEGIN + "".join(many.lines), "utf-8")
    _, thousands = loaded_names(list_)
    compare(f"{thousands} thousand instructions for {len(many.lines)} lines, at most 100 a line",
            10 * thousands <= len(many.lines), True, fail)


# ---- lists that are none, and lines that mean harm

CAPTURE = (DRIVER / "objects/capture-1.cap").read_bytes()

# What is no side list, and why it is refused.
NO_LISTS = ((b"", "is empty, and no side list of version 1, 2 or 3"),
            (CAPTURE, "is a capture, and no side list of version 1, 2 or 3"),
            (b"\xff\x1b[2J a text\n", "is not a side list of version 1, 2 or 3"),
            (b"binder side list 2", "is not a side list of version 1, 2 or 3"))

# Lines of a side list, and why it is refused; "" if it is read.
BAD_LINES = (
    ("9" * 5000 + " frame 1", f"has a line without a time: '{'9' * 80}'"),
    (f"6 frame {'9' * 5000}", "the line 'frame' at 6 is not valid"),
    (f"6 lost {2**63 - 1} why=ring-full\n7 thread 0 1 1 pid=1 tid=1 start=1 name=a",
     "the line 'thread' at 7 is not valid"),
    (f"6 lost {2**64} why=ring-full", "the line 'lost' at 6 is not valid"),
    ("6 books begin\0 state from=0 after=0 bytes=0", "the line 'books' at 6 is not valid"),
    ("6 books begin\x1b]0;a\x07 state from=0 after=0 bytes=0", "the line 'books' at 6 is not valid"),
    ("6 books begin ../state from=0 after=0 bytes=0", "the line 'books' at 6 is not valid"),
    ("6 books begin state from=0 after=0 bytes=0", ""),
    (f"6 descriptors 0 1 open={2**64} limit=9 why=end", "the line 'descriptors' at 6 is not valid"),
    ("6 descriptors 0 open=3 limit=9 why=end", "the line 'descriptors' at 6 is not valid"),
    ("6 descriptors 0 1 open=-3 limit=9 why=end", "the line 'descriptors' at 6 is not valid"),
    ("6 descriptors 0 1 open=3 why=end", "the line 'descriptors' at 6 is not valid"),
    (f"6 descriptors 0 1 open=3 limit={2**64 - 1} why=later name=a", ""))

# What may follow the time 6 and the word `frames`, and what not. The first lines have the highest number, and the first
# and the last time.
FRAMES = (f"{2**64 - 2} 1", "1 -6", f"1 {2**63 - 7}", f"1 {2**63 - 7} -{2**63 - 1}", "1", "1 0 5 -5", "01 007")
NO_FRAMES = ("", "1 x", "x 1", "1 2 ", "1  2", "1 --2", "1 +2", "1 2-", "1 -", "1 2 a=3", "1 2 name=a", "-1 2",
             f"{2**64} 2", f"{2**64 - 2} 1 1", "1 -7", f"1 {2**63 - 6}", f"1 -6 {2**63}", f"1 {'9' * 5000}")


def refusal(do: Callable[[], object]) -> str:
    """The line with which this is refused, or what else ends it; "" if it is not."""
    try:
        do()
    except Exception as error:
        return str(error) if isinstance(error, Stopped) and error.status == 4 else repr(error)
    return ""


def empty_database() -> sqlite3.Connection:
    database = sqlite3.connect(":memory:")
    database.executescript(raw_tables.schema())
    return database


def check_no_lists(_: pathlib.Path, room: pathlib.Path, fail: Fail) -> None:
    """What is no side list is refused before anything is read, also as the second of two; and a list with a line that
    is none."""
    good = room / "good.side"
    good.write_text(WHOLE_BEGIN, "utf-8")
    for number, (data, due) in enumerate(NO_LISTS):
        list_ = room / f"none-{number}.side"
        list_.write_bytes(data)
        for lists in ([list_], [good, list_]):
            came = refusal(lambda: side_list.joined_sides(list(map(str, lists)), room / "joined.side"))
            compare(f"what is no side list, {number} of {len(lists)}", came, f"{list_} {due}", fail)
    frames = "the line 'frames' at 6 is not valid"
    bad_lines = (*BAD_LINES, *((f"6 frames {words}", "") for words in FRAMES),
                 *((f"6 frames {words}", frames) for words in NO_FRAMES), ("6 frames", frames))
    for number, (line, due) in enumerate(bad_lines):
        list_ = room / f"bad-{number}.side"
        list_.write_text(f"{WHOLE_BEGIN}{line}\n", "utf-8")
        came = refusal(lambda: side_list.SideList(empty_database()).load(str(list_)))
        compare(f"a bad line, {number}", (due in came, bool(came)), (True, bool(due)), fail)


# Lines of frames: one that comes twice, one with a number of 19 digits, one within a name, one of several frames, of
# which the last one comes again, and a last line that is cut.
ODD_SIDE = """binder side list 1
100 frame 1
200 frame 2
250 frame 2
260 process 0 5 pid=5 start=1 opening=1 met=from-start name=a 270 frame 4
300 frame 3
400 frames 4 7 0 -9
999999999999999999 frame 7
700 frame 1000000000000000000
800 frame 8"""


def check_times(folder: pathlib.Path, room: pathlib.Path, fail: Fail) -> None:
    """The times of frames are those of the last lines that have them."""
    list_, rows = room / "odd.side", room / "odd.rows"
    list_.write_text(ODD_SIDE, "utf-8")
    rows.mkdir()
    programs.answer(folder, room / "told", "listing", "--tables", rows, DRIVER / "objects/capture-1.cap")
    raw_tables.load_rows(room / "odd.db", rows, str(list_))
    made = open_database(room / "odd.db")
    side_list.SideList(made).load(str(list_))
    compare("times of frames", made.execute("SELECT seq, ts FROM side_time").fetchall(),
            [(1, 100), (2, 250), (3, 300), (4, 400), (5, 407), (6, 407), (7, 999999999999999999), (10**18, 700)], fail)
    made.close()


def is_reading(process: int, path: pathlib.Path) -> bool:
    """Whether a process has a file open, or mapped."""
    here = pathlib.Path(f"/proc/{process}")
    with contextlib.suppress(OSError):  # it has ended
        return str(path) in (here / "maps").read_text("utf-8") or any(
            os.readlink(link) == str(path) for link in (here / "fd").iterdir())
    return False


def no_rows(room: pathlib.Path) -> tuple[pathlib.Path, pathlib.Path]:
    """What the loader gets of no capture: a folder of empty tables, and their schema."""
    rows = room / "rows"
    rows.mkdir()
    for table in columns_of_tables():
        (rows / f"{table}.rows").touch()
    (rows / "schema.sql").write_text(raw_tables.schema(), "utf-8")
    return rows, rows / "schema.sql"


def check_list_of_loader(_: pathlib.Path, room: pathlib.Path, fail: Fail) -> None:
    """The loader does not crash if a side list is cut while it reads it, and refuses a line that would take all memory
    of who reads it next."""
    list_ = room / "long.side"
    list_.write_text("binder side list 2\n" + "".join(f"{5 + at} frame {at}\n" for at in range(1, 300_000)), "utf-8")
    words = *no_rows(room), list_
    loading = subprocess.Popen([raw_tables.loader(), room / "cut.db", *words])
    while loading.poll() is None and not is_reading(loading.pid, list_):
        time.sleep(0.001)
    os.truncate(list_, 0)
    compare("the loader, of a list that is cut meanwhile", loading.wait(60), 0, fail)
    for longer, due in (0, (0, b"")), (1, (1, f"load: {list_} has a line of more than 4194304 bytes\n".encode())):
        list_.write_text("binder side list 2\n6 " + "a" * (2**22 - 2 + longer), "utf-8")
        ended = subprocess.run([raw_tables.loader(), room / f"long-{longer}.db", *words], capture_output=True)
        compare(f"the loader, of a long line, {longer}", (ended.returncode, ended.stderr), due, fail)


def loaded_list(words: tuple[pathlib.Path, pathlib.Path], list_: pathlib.Path, is_split: bool) \
        -> tuple[dict[str, object], dict[str, list[tuple[object, ...]]]]:
    """What a side list has in a database, without a capture: its facts, and its tables. If it is split, the loader
    leaves some lines in a file, as it does for a large capture."""
    made, others = list_.with_suffix(".db"), list_.with_suffix(".others") if is_split else None
    subprocess.run([raw_tables.loader(), made, *words, list_, *([others] if others else [])], check=True)
    database = open_database(made)
    taken = side_list.SideList(database)
    taken.load(str(list_), others)
    names = [name for name, in database.execute("SELECT name FROM sqlite_schema WHERE name GLOB 'side_*' AND"
                                                " type = 'table'")]
    tables = {name: database.execute(f"SELECT * FROM {name}").fetchall() for name in names}
    facts: dict[str, object] = {**taken.facts, "last": taken.last(), "side_list": None}
    database.close()
    for path in filter(None, (made, others)):
        path.unlink()
    return facts, tables


def check_packed_lists(_: pathlib.Path, room: pathlib.Path, fail: Fail) -> None:
    """The stored side lists have the same in the database with a line for each frame and with lines of many, also short
    ones, and also if the loader takes the frames alone. Of lines that are no lines of frames it takes none."""
    words, before, today = no_rows(room), room / "before.side", room / "today.side"
    for number, stored in enumerate(sorted(DRIVER.glob("*/capture*.side"))):
        side = unpacked(stored.read_text("utf-8", errors="surrogateescape"))
        for list_, text in (before, side), (today, packed(side, (4095, 40)[number % 2])):
            list_.write_text(text, "utf-8", errors="surrogateescape")
        compare(f"{stored} with other lines", before.read_bytes() != today.read_bytes(), True, fail)
        due, *came = (loaded_list(words, *it) for it in ((before, False), (today, False), (today, True)))
        compare(f"{stored} with lines of many frames", [one == due for one in came], [True, True], fail)
    wrong = [f"6 frames {words}\n" for words in NO_FRAMES]
    today.write_text(WHOLE_BEGIN + "".join([*(f"6 frames {words}\n" for words in FRAMES), *wrong]), "utf-8")
    others = today.with_suffix(".others")
    subprocess.run([raw_tables.loader(), room / "wrong.db", *words, today, others], check=True)
    compare("lines that are none of frames", others.read_text("utf-8"), f"{WHOLE_BEGIN}13 frame 2\n{''.join(wrong)}",
            fail)


def loaded_rows(database: sqlite3.Connection, table: str) -> list[dict[str, object]]:
    """The rows of a raw table, without the columns that are NULL."""
    asked = database.execute(f"SELECT * FROM raw_{table} ORDER BY rowid")
    names = [name for name, *_ in asked.description]
    return [{name: value for name, value in zip(names, row) if value is not None} for row in asked]


def check_loader(folder: pathlib.Path, room: pathlib.Path, fail: Fail) -> None:
    """The loader puts each row as it is into its table, and refuses rows that are not whole."""
    for scenario in "objects", "hello-11":
        rows = room / f"{scenario}.rows"
        rows.mkdir()
        programs.answer(folder, room / "told", "listing", "--tables", rows, DRIVER / scenario / "capture-1.cap")
        raw_tables.load_rows(room / f"{scenario}.db", rows, None)
        database = open_database(room / f"{scenario}.db")
        for table in columns_of_tables():
            due = [{name: value if isinstance(value, str) else signed(value) for name, value in row.items()}
                   for row in rows_of(rows / f"{table}.rows")]
            compare(f"{scenario}: raw_{table}", loaded_rows(database, table) == due, True, fail)
        database.close()
    send = (rows / "send.rows").read_bytes()
    for number, bad in enumerate((send[:-8], send[:-3], send + b"\0" * 7 + b"\x80", send[:3])):
        (rows / "send.rows").write_bytes(bad)
        try:
            raw_tables.load_rows(room / f"bad-{number}.db", rows, None)
            told = (0, "")
        except Stopped as stopped:
            told = stopped.status, str(stopped).removeprefix(f"{rows}/")
        why = "has a row with more than 9 columns: it has another layout" if number == 2 else "ends within a row"
        compare(f"bad rows {number}", told, (4, f"send.rows {why}"), fail)
    check_layout(rows, room, fail)


def check_layout(rows: pathlib.Path, room: pathlib.Path, fail: Fail) -> None:
    """Rows of another layout are refused."""
    capture = (rows / "capture.rows").read_bytes()
    other = raw_tables.LAYOUT + 1
    (rows / "capture.rows").write_bytes(capture[:8] + other.to_bytes(8, "little") + capture[16:])
    told = refusal(lambda: raw_tables.load_rows(room / "other-layout.db", rows, None))
    compare("rows of another layout", f"has the layout {other} and not {raw_tables.LAYOUT}" in told, True, fail)
