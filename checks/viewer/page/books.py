"""The driver's books beside a side list: what is read of them, that they are compared with the report, and books that
mean harm. And what processes are called by their command lines."""

import html
import os
import pathlib
import re
import sqlite3
import time
from typing import Iterator

from checks.kit.captures import (BC_ACQUIRE_DONE, BC_DEAD_BINDER_DONE, BC_INCREFS_DONE, BC_RELEASE,
                                 BC_REQUEST_DEATH_NOTIFICATION, BR_ACQUIRE, BR_DEAD_BINDER, BR_INCREFS, ENTER, each,
                                 each_long, node, watch)
from checks.kit.checking import Fail, compare
from checks.kit.frames import frames_of
from checks.viewer.page.common import texts_of, view, written
from checks.viewer.sessions.book_cases import buffer, call_of, own, ref, thread, transaction_of
from checks.viewer.sessions.session import Session
from viewer.database import load_books, raw_tables
from viewer.database.books import state, stats
from viewer.database.side_list import Copy

# ---- a session that ends with one of each thing that is compared, and the book of that


def asking(reference: str) -> str:
    """The line of a handle whose death is asked for."""
    return reference.replace(" d 0000000000000000", " d ff49ec2a01bc3840")


REQUESTED = asking(ref(1))
CLIENT = thread(200, transaction_of("outgoing")) + REQUESTED
SERVICE = (thread(100, transaction_of("incoming")) + own(0x100) + buffer(0x7238).replace("size 28", "size 4")
           + "  buffer 102: 0000000000007300 size 0:0:0 active\n")
# The same if the call waits for a thread.
WAITING = SERVICE.removeprefix(thread(100, transaction_of("incoming"))) + f"  {transaction_of('pending')}\n"

# The same by the driver in Rust. It ends no line of a handle, and tells of no request.
RUST_CALL = "outgoing transaction 102: from 200:200 to 100 code 3 flags 0 elapsed 5ms node 82 size 4:0"
RUST_CLIENT = f"  thread 200: l 12 need_return false\n    {RUST_CALL}\n  ref 87: desc 1 node 82 s 1 w 0\n"
RUST_SERVICE = (f"  thread 100: l 12 need_return false\n    {RUST_CALL.replace('outgoing', 'incoming')}\n"
                "  node 82: u0000000000000100 c0000000000000000 hs true hw true cs 1 cw 1 proc 200\n"
                "  buffer 0: 568 size 8 pid 200 oneway false allocated\n"
                "  buffer: 768 size 8 pid 200 allocated\n\n")

# A buffer of a oneway send that came while the driver wrote the book.
ACTIVE = "  buffer 103: 0000000000007400 size 0:0:0 active\n"

AGREED = "The report agrees with the driver's debugfs at the end on 2 openings."
NOT_COMPARED = "The report is not compared with the driver's debugfs at the end"


def play(s: Session, client: str = CLIENT, service: str = SERVICE, later: int = 0, had: bool = False,
         ended: bool = False, absent: bool = False, waits: bool = False, asked: bool = False,
         restarted: bool = False, driver: str = "", held: str | None = None, busy: bool = False,
         lost: bool = False) -> None:
    """What the book of the end has. `later`: so many of both go on after it; `had`: the client was met with two more
    references; `ended`: both have ended before; `absent`: the book has neither; `waits`: no thread got the call;
    `asked`: with `had`, the client had asked for the death of the handle before; `restarted`: the handle meant an
    object of another process before, whose death was told; `driver`: that of the device, by the side list; `held`: with
    `had`, the lines of the client then; `busy`: with `had`, both go on at once; `lost`: a frame of the client is."""
    if driver:
        s.lines[0] = s.lines[0].replace("\n", f" drivers=10:1:{driver}\n")
    if had:
        s.books("begin", of_200=held or (asking if asked else str)(ref(1, 2)), of_100="")
        s.wait(0 if busy else 200)
    ours, theirs = s.two("in-mid-life" if had else "from-start")
    s.loses(theirs, lost)
    if restarted:
        old = s.process(300, "old")
        theirs.main.is_given(old.main, 1, node=0x900)
        theirs.main.writes(watch(BC_REQUEST_DEATH_NOTIFICATION, 1, 0xC))
        old.ends()
        theirs.main.reads(*each_long(BR_DEAD_BINDER, 0xC))
        theirs.main.writes(*each_long(BC_DEAD_BINDER_DONE, 0xC), *each(BC_RELEASE, 1))
    theirs.main.is_given(ours.main, 1)
    ours.main.reads(node(BR_INCREFS, 0x100, 0), node(BR_ACQUIRE, 0x100, 0))
    ours.main.writes(node(BC_INCREFS_DONE, 0x100, 0), node(BC_ACQUIRE_DONE, 0x100, 0))
    theirs.main.writes(watch(BC_REQUEST_DEATH_NOTIFICATION, 1, 0xD))
    ours.main.gets(theirs.main.sends(0, 2, body=b"data"))
    theirs.main.answered(ours.main.replies())
    call = theirs.main.sends(0, 3)
    if not waits:
        ours.main.gets(call)
    s.wait(200)
    if ended:
        ours.ends()
        theirs.ends()
    s.books("end", **({} if ended or absent else {"of_200": client, "of_100": service}))
    for one in (theirs, ours)[:later]:
        one.main.writes(ENTER)
    s.wait(10)


def differ(told: str) -> str:
    return f"The report differs from the driver's debugfs at the end on 2 openings: {told}."


# What the book has instead, and what the line says then.
LINES: list[tuple[dict, str]] = [
    ({}, AGREED),
    ({"client": CLIENT.replace(" s 1 ", " s 2 ")},
     differ("client 200: handle 1 1 by the report and 2 by debugfs")),
    ({"client": CLIENT.replace(" w 0 ", " w 1 ")},
     differ("client 200: handle 1, weakly 0 by the report and 1 by debugfs")),
    ({"client": CLIENT + ref(5)}, differ("client 200: handle 5 0 by the report and 1 by debugfs")),
    ({"client": CLIENT.replace(REQUESTED, ref(1))},
     differ("client 200: request for handle 1 1 by the report and 0 by debugfs")),
    ({"client": CLIENT.replace("outgoing", "incoming")}, differ(
        "client 200: calls made 1 by the report and 0 by debugfs; client 200: calls served 0 by the report and 1 by"
        " debugfs")),
    ({"client": CLIENT.replace("outgoing", "pending").replace(" r1", " r0")}, AGREED),
    ({"client": CLIENT.replace("outgoing", "pending").replace(" r1", " a0 r1")}, AGREED),
    ({"waits": True, "service": WAITING}, AGREED),
    ({"waits": True, "service": WAITING.replace(" r1", " a0 r0")}, AGREED),
    ({"client": CLIENT.replace(transaction_of("outgoing"), "transaction error: 29189")}, AGREED),
    ({"client": CLIENT + "  has delivered dead binder\n"},
     differ("client 200: deaths not acknowledged 0 by the report and 1 by debugfs")),
    ({"service": SERVICE.replace(" hs 1 ", " hs 0 ")},
     differ("service 100: node 0x100 1 by the report and 0 by debugfs")),
    ({"service": SERVICE + own(0, local=1, number=1)}, AGREED),
    ({"service": SERVICE.replace("size 4:", "size 12:")},
     differ("service 100: bytes in buffers 4 by the report and 12 by debugfs")),
    ({"service": SERVICE + buffer(0x7400, 103).replace("size 28", "size 0")},
     differ("service 100: buffers 2 by the report and 3 by debugfs")),
    ({"service": SERVICE + buffer(0x7400, 103) + "  " + transaction_of("pending async").replace("102", "103") + "\n"},
     AGREED),
    ({"service": SERVICE + ACTIVE}, AGREED),
    ({"service": SERVICE + ACTIVE.replace("active", "delivered")},
     differ("service 100: buffers 2 by the report and 3 by debugfs")),
    ({"later": 1}, "The report agrees with the driver's debugfs at the end on 1 opening; 1 other cannot be compared: 1"
                   " had frames after the copy."),
    ({"later": 2}, f"{NOT_COMPARED}: of 2 openings it is not certain what was held then: 2 had frames after the copy."),
    ({"lost": True}, "The report agrees with the driver's debugfs at the end on 1 opening; 1 other cannot be compared:"
                     " 1 without all frames in the capture."),
    ({"had": True, "busy": True}, f"{NOT_COMPARED}: of 2 openings it is not certain what was held then: 2 had frames"
                                  " when debugfs was copied at the beginning, or are not in that copy."),
    ({"ended": True}, f"{NOT_COMPARED}: all processes had ended before the copy."),
    ({"absent": True}, f"{NOT_COMPARED}: it is not certain which of the openings in them are those of the capture."),
    ({"had": True, "client": CLIENT.replace(" s 1 ", " s 3 ")}, AGREED),
    ({"had": True}, differ("client 200: handle 1 3 by the report and 1 by debugfs")),
    ({"had": True, "asked": True, "client": CLIENT.replace(" s 1 ", " s 3 ")}, AGREED),
    ({"restarted": True}, AGREED),
    ({"restarted": True, "client": CLIENT.replace(REQUESTED, ref(1))},
     differ("client 200: request for handle 1 1 by the report and 0 by debugfs")),
    ({"driver": "C"}, AGREED)]

# The same of the driver in Rust, where the book of the client or the service has something instead.
RUST_LINES: list[tuple[str, str, str, str]] = [
    ("", "", "", AGREED),
    ("client", " s 1 ", " s 2 ", differ("client 200: handle 1 1 by the report and 2 by debugfs")),
    ("client", " w 0", " w 0  ref 89: desc 5 node 90 s 1 w 1",
     differ("client 200: handle 5 0 by the report and 1 by debugfs; client 200: handle 5, weakly 0 by the report and"
            " 1 by debugfs")),
    ("client", " w 0", " w 0  has delivered dead binder",
     differ("client 200: deaths not acknowledged 0 by the report and 1 by debugfs")),
    ("client", "outgoing", "incoming", differ(
        "client 200: calls made 1 by the report and 0 by debugfs; client 200: calls served 0 by the report and 1 by"
        " debugfs")),
    ("client", RUST_CALL, RUST_CALL.replace("outgoing", "pending").replace(" node 82", ""), AGREED),
    ("client", RUST_CALL, "transaction error: 29189", AGREED),
    ("service", "hs true", "hs false", differ("service 100: node 0x100 1 by the report and 0 by debugfs")),
    ("service", "568 size 8", "568 size 80", AGREED),
    ("service", "  buffer 0: 568 size 8 pid 200 oneway false allocated\n", "",
     differ("service 100: buffers 2 by the report and 1 by debugfs")),
    ("service", "768 size 8 pid 200 allocated", "768 size 8 pid 200 allocated\n  buffer: 900 size 8 pid 200 reserved",
     AGREED)]


def says(page: pathlib.Path, due: str) -> bool:
    """Whether a page has a text. Its names are set off, with a space on either side here."""
    return due in re.sub(r" ([,;.]|$)", r"\1", html.unescape(texts_of(page)))


def rust_lines() -> Iterator[tuple[dict, str]]:
    for which, old, new, due in RUST_LINES:
        texts = {"client": RUST_CLIENT, "service": RUST_SERVICE}
        texts.update({which: texts[which].replace(old, new)} if which else {})
        yield {"driver": "Rust", **texts}, due
    yield ({"driver": "Rust", "had": True, "client": RUST_CLIENT.replace(" s 1 ", " s 3 "), "service": RUST_SERVICE,
            "held": RUST_CLIENT.replace(" s 1 ", " s 2 ").replace(f"    {RUST_CALL}\n", "")}, AGREED)
    yield ({"driver": "C", "client": RUST_CLIENT, "service": RUST_SERVICE},
           f"{NOT_COMPARED}: it is not certain which of the openings in them are those of the capture.")


def check_agreement(folder: pathlib.Path, room: pathlib.Path, fail: Fail) -> None:
    for number, (given, due) in enumerate([*LINES, *rust_lines()]):
        session = Session()
        play(session, **given)
        words = written(session, room, f"agree-{number}")
        status, _, told = view(folder, room, *words, "-o", f"agree-{number}.html")
        line = f"view: {due}\n" if "differ" in due else ""
        compare(f"books, {given}: told", (status, told), (0, line), fail)
        compare(f"books, {given}: the page says {due!r}", says(room / f"agree-{number}.html", due), True, fail)


def check_copies(folder: pathlib.Path, room: pathlib.Path, fail: Fail) -> None:
    """A copy that is missing, or is another file, is left out, and a line says so. A flight recorder's first file has
    copies with the names of the recording. A capture that was cut in front is not what followed the first copy."""
    session = Session()
    play(session, had=True, client=CLIENT.replace(" s 1 ", " s 3 "))
    capture, _, side = written(session, room, "copies")
    begin, end = room / "copies.begin.state", room / "copies.end.state"
    texts = begin.read_text("utf-8"), end.read_text("utf-8")
    huge = texts[1].replace(" s 3 ", f" s {10**20} ")
    (room / "huge.side").write_text(session.side().replace(f"bytes={len(texts[1])}", f"bytes={len(huge)}"), "utf-8")
    (room / "huge.begin.state").write_text(texts[0], "utf-8")
    (room / "huge.end.state").write_text(huge, "utf-8")
    for name, change, list_, due in (
            ("whole", lambda: None, side, ""),
            ("other", lambda: end.write_text(texts[1] + "\n", "utf-8"), side,
             f"copies.end.state has {len(texts[1]) + 1} bytes, and the side list names {len(texts[1])}"),
            ("missing", end.unlink, side, "copies.end.state is not beside the side list"),
            ("both", begin.unlink, side, "copies.begin.state, copies.end.state are not beside the side list"),
            ("huge", lambda: None, "huge.side",
             "the copy of state at the end has numbers that are none of the driver's")):
        change()
        status, _, told = view(folder, room, capture, "--side", list_, "-o", f"copies-{name}.html")
        compare(f"books, {name}", (status, told), (0, f"view: {due}\n" if due else ""), fail)
        compare(f"books, {name}, the page", says(room / f"copies-{name}.html", due), True, fail)
    for due in ("Already open when the recording began; by the driver's debugfs they then had: service 100 0 handles, 0"
                " objects, 0 buffers, 0 calls made and 0 served; client 200 1 handle, 0 objects, 0 buffers, 0 calls"
                " made and 0 served.",
                AGREED):
        compare(f"books, the page says {due!r}", says(room / "copies-whole.html", due), True, fail)
    begin.write_text(texts[0], "utf-8")
    end.write_text(texts[1], "utf-8")
    for name in ("copies-1.cap", "copies-1.side"):
        (room / name).write_bytes((room / name.replace("-1", "")).read_bytes())
    view(folder, room, "copies-1.cap", "--side", "copies-1.side", "-o", "copies-1.html")
    compare("books of a flight recorder", says(room / "copies-1.html", AGREED), True, fail)
    whole = session.capture()
    (room / "cut.cap").write_bytes(whole[:16] + whole[frames_of(whole)[1].place:])
    view(folder, room, "cut.cap", "--side", side, "-o", "cut.html")
    for due in ("Already open when the recording began, so what came before is not known: client 200, service 100.",
                f"{NOT_COMPARED}: the capture was cut."):
        compare(f"books of a capture that was cut: {due!r}", says(room / "cut.html", due), True, fail)


# ---- command lines

# The name of a process in the side list, its command line there, and what it is called then.
NAMES = [("service", "/system/bin/other\\x00--now", "service"),
         ("ndroid.systemui", "com.android.systemui", "com.android.systemui"),
         ("android.hardwar", "/vendor/bin/hw/android.hardware.nfc@1.2-service\\x00",
          "android.hardware.nfc@1.2-service"),
         ("main", "zygote64", "zygote64"), ("main", "<pre-initialized>", "main"), ("service", "", "service"),
         ("service", "\\x00a", "service"), ("service", "com.example.mail:remote\\x00", "com.example.mail:remote"),
         ("chromium", "/usr/lib/chromium --type=a", "chromium"), ("a", "x" * 300, "x" * 256 + "…"),
         ("a", "<script>alert(1)</script>", "<script>alert(1)</script>"),
         ("a", "\\x0a\\x1b[0m \\x5cx41", "\x1b[0m \\x41")]


def check_commands(folder: pathlib.Path, room: pathlib.Path, fail: Fail) -> None:
    """The names of processes, of which a command line may say more; the last line counts."""
    for number, (name, command, due) in enumerate(NAMES):
        session = Session()
        service, client = session.two()
        client.main.asks(service.main)
        side = session.side().replace(" name=service\n", f" name={name}\n")
        told = f"9 command 0 100 after=0 uid=7 name=first\n9 command 0 100 after=1 uid=10123 name={command}\n"
        (room / f"named-{number}.cap").write_bytes(session.capture())
        (room / f"named-{number}.side").write_text(
            re.sub(r"(\d+ process 0 100 .*\n)", lambda found: found[1] + told, side), "utf-8")
        status, _, _ = view(folder, room, f"named-{number}.cap", "--side", f"named-{number}.side", "-o",
                            f"named-{number}.html", "--database", f"named-{number}.db")
        database = sqlite3.connect(room / f"named-{number}.db")
        row = database.execute("SELECT name, uid, (SELECT who FROM who w WHERE w.upid = p.upid) FROM process p"
                               " WHERE process = 100").fetchone()
        compare(f"the name {name!r} with {command[:40]!r}", (status, row), (0, (due, 10123, f"{due} 100")), fail)
        page = (room / f"named-{number}.html").read_text("utf-8")
        compare("a name runs nothing", "<script>alert" in page, False, fail)
        command_shown, = database.execute("SELECT command FROM process WHERE process = 100").fetchone()
        compare("a command line has spaces", "\0" in command_shown, False, fail)
    (room / "bad.cap").write_bytes(session.capture())
    (room / "bad.side").write_text(side.replace("end recording", "command 0 100 after=0 name=x\n9 end recording", 1),
                                   "utf-8")
    status, _, _ = view(folder, room, "bad.cap", "--side", "bad.side", "--groups")
    compare("a command line without a user", status, 4, fail)


# ---- books that mean harm

LONG, WIDE = "9" * 5000, str(2**70)
THREADS = "binder stats:\nproc 100\ncontext binder\n  requested threads: 0+{}/15\n"
NO_NUMBERS = "the copy of {} at the begin has numbers that are none of the driver's"

# What a book of the beginning has, and what is said of it.
BAD_BOOKS = (
    ("state", f"binder state:\nproc 100\ncontext binder\n{own(0x100, local=LONG)}", NO_NUMBERS.format("state")),
    ("state", f"binder state:\nproc 100\ncontext binder\n{own(0x100, local=WIDE)}", NO_NUMBERS.format("state")),
    ("state", f"binder state:\nproc {LONG}\n", NO_NUMBERS.format("state")),
    ("stats", THREADS.format(LONG), NO_NUMBERS.format("stats")),
    ("stats", THREADS.format(WIDE), NO_NUMBERS.format("stats")),
    ("stats", f"{THREADS.format(1)}BC_REPLY: {LONG}\n", NO_NUMBERS.format("stats")),
    ("stats", THREADS.format(1), None))


def with_an_opening() -> sqlite3.Connection:
    """The database of a capture with a process that was there when the recording began."""
    database = sqlite3.connect(":memory:")
    database.executescript(raw_tables.schema())
    database.execute("INSERT INTO raw_capture VALUES (5, 1, 0, 1, 0, 1, 9, 0, NULL, NULL, NULL)")
    database.execute("INSERT INTO raw_process VALUES (1, 0, 100, 1, 9, 1)")
    database.execute("INSERT INTO side_device VALUES (0, 'binder', 'C')")
    database.execute("INSERT INTO side_process(device, process, pid, opening, met) VALUES (0, 100, 100, 1,"
                     " 'in-mid-life')")
    return database


def check_bad_books(_: pathlib.Path, room: pathlib.Path, fail: Fail) -> None:
    """A book with numbers that no driver writes is left out, and a line says so. One that two lines name is read once,
    and what is no file is not waited for."""
    for number, (what, text, due) in enumerate(BAD_BOOKS):
        side = room / f"bad-{number}.side"
        side.with_suffix(f".begin.{what}").write_text(text, "utf-8")
        copy, database = Copy("begin", what, 0, 0, 5, len(text)), with_an_opening()
        try:
            came = load_books.load(database, [copy, copy], [str(side)], {})
        except Exception as error:
            came = repr(error)
        compare(f"a bad book, {number}", came, due, fail)
        rows = [database.execute(f"SELECT count(*) FROM {table}").fetchone()[0]
                for table in ("book_stats", "book_opening", "book_node")]
        compare(f"what is kept of a bad book, {number}", rows, [0, 0, 0] if due else [1, 0, 0], fail)
    os.mkfifo(room / "fifo.begin.state")
    came = load_books.load(with_an_opening(), [Copy("begin", "state", 0, 0, 5, 0)], [str(room / "fifo.side")], {})
    compare("a book that is no file", came, "fifo.begin.state is not beside the side list", fail)


def silent_calls(count: int) -> str:
    """The book `state` of so many calls, each by a process of its own to another one."""
    lines = ["binder state:\n"]
    for at in range(1, count + 1):
        ours, theirs = 1000 + at, 9000 + at
        for has, pid in ("outgoing", ours), ("incoming", theirs):
            call = call_of(at, (ours, ours), (theirs, theirs), has)
            lines.append(f"proc {pid}\ncontext binder\n{thread(pid, call)}")
    return "".join(lines)


def check_long_books(_: pathlib.Path, __: pathlib.Path, fail: Fail) -> None:
    """What a book takes does not grow with its square: by the instructions of SQLite, and where Python reads it by the
    processor's time, of which squares would take some eight seconds."""
    text, thousands = silent_calls(500), [0]

    def count() -> None:
        thousands[0] += 1

    database = with_an_opening()
    database.set_progress_handler(count, 1000)
    copies = {moment: (Copy(moment, "state", 0, 0, 5, len(text)), text) for moment in ("begin", "end")}
    wrong = list(load_books.load_states(database, copies, {}))
    compare("500 calls that were open throughout", (wrong, thousands[0] < 300), ([], True), fail)
    begun = time.process_time()
    stats("binder stats:\nproc 5\n" + "\n" * 20_000)
    state("binder state:\nproc 5\n  thread 5: l 12 need_return false\n" + "ref 8: desc 1 node 8 s 1 w 0 " * 20_000)
    opening, = state("binder state:\nproc 5\n" + "".join(asking(ref(handle)) for handle in range(20_000)))
    compare("handles whose death is asked for", sum(map(opening.is_requested, opening.refs)), 20_000, fail)
    compare("processor time of long books, below 2 s", time.process_time() - begun < 2, True, fail)
