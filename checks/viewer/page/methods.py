"""The names of calls: interfaces that their data name, and methods from a table of `viewer/methods/table.py`."""

import pathlib
import shutil
import sqlite3
import subprocess

from checks.kit.checking import Fail, compare
from checks.kit.programs import CHECKS, PACKAGED
from checks.kit.tokens import marked
from checks.viewer.page.common import stored, texts_of, timeline_of, view, written
from checks.viewer.page.reports import check_harmless
from checks.viewer.sessions.session import ONE_WAY, Session

IDS, PLAIN, OTHER = (marked(f"check.forms.{name}") for name in ("IIds", "IPlain", "IOther"))
PING = int.from_bytes(b"_PNG", "big")


def session() -> Session:
    """A service with two objects, both of interfaces, and its context manager. A call to each hangs; before, all codes
    were called. One code is called with two tokens."""
    s = Session()
    service, client = s.two()
    client.main.is_given(service.main, 1, node=0x100)
    client.main.is_given(service.main, 2, node=0x200)
    for body, code in (IDS, 10), (IDS, 99), (IDS, 16777215), (PLAIN, 1), (b"", PING), (b"", 7):
        client.main.asks(service.main, code, 1 if body != PLAIN else 2, 0x100 if body != PLAIN else 0x200, body=body)
    for body in IDS, IDS, OTHER:
        client.main.asks(service.main, 3, 1, 0x100, body=body)
    sent = client.main.sends(1, 1, ONE_WAY, body=IDS)
    service.main.gets(sent, 0x100)
    # Two calls that nobody answers: by another thread to the one object, and to the other object.
    looper = service.looper(1)
    looper.gets(client.thread(1).sends(1, 10, body=IDS), 0x100)
    service.main.gets(client.main.sends(2, 1, body=PLAIN), 0x200)
    s.wait(300)
    return s


# What the page says of the session, without markup.
ON_PAGE = (
    "IIds.tenth (code 10) to service 100 node 0x100", "IPlain code 1 to service 100 node 0x200",
    "check.forms.IIds or others , handle 1, node 0x100 IIds.tenth (code 10) call 2 0 1", "IIds code 99 call 1",
    "IIds.getInterfaceVersion (code 16777215) call 1", "IBinder.pingBinder (code _PNG) call 1", "7 call 1",
    "IIds.third or others (code 3) call 3", "oneway IIds.first (code 1) at service 100 node 0x100",
    "handle=1 code=10 method=IIds.tenth data_size=", "handle=2 code=1 interface=IPlain data_size=",
    "handle 2, service 100 node 0x200 (IPlain)", "check.forms.IIds 10 tenth forms/IIds.aidl:6 2",
    "check.forms.IPlain 1 2")
QUESTIONS = {
    "SELECT method, source FROM method WHERE interface = 'check.forms.IIds' AND code IN (10, 16777215)":
        [("tenth", "forms/IIds.aidl:6"), ("getInterfaceVersion", "-")],
    "SELECT ptr, interface, n, others FROM node_interface ORDER BY ptr":
        [(0x100, "check.forms.IIds", 14, 2), (0x200, "check.forms.IPlain", 4, 0)]}
SLICES = {"call IIds.tenth (code 10)", "serve IIds.tenth (code 10)", "send oneway IIds.first (code 1)",
          "serve oneway IIds.first (code 1)", "call IBinder.pingBinder (code _PNG)", "call code 7",
          "call IOther code 3", "call IIds.third (code 3)", "call IPlain code 1"}


def make_table(room: pathlib.Path, sources: object, made: str) -> None:
    """Makes a table of methods from sources, as a file of the room."""
    with open(room / made, "wb") as out:
        subprocess.run([PACKAGED["binder-methods"], sources], cwd=room, stdout=out, check=True)


def check_methods(folder: pathlib.Path, room: pathlib.Path, fail: Fail) -> None:
    """A session whose calls have tokens, with a table of the methods of one interface."""
    (room / "forms").mkdir()
    shutil.copy(CHECKS / "viewer/method_sources/aidl/check/forms/IIds.aidl", room / "forms")
    make_table(room, "forms", "table")
    capture = written(session(), room, "named")
    words = *capture, "--methods", "table"
    made = view(folder, room, *words, "-o", "named.html", "--database", "named.db", "--trace", "named.json.gz")
    compare("--methods", made, (0, "", ""), fail)
    text = texts_of(room / "named.html")
    compare("names that the page lacks", [one for one in ON_PAGE if one not in text], [], fail)
    database = sqlite3.connect(room / "named.db")
    for query, due in QUESTIONS.items():
        compare(query, database.execute(query).fetchall(), due, fail)
    events = timeline_of(room / "named.json.gz")["traceEvents"]
    compare("names that the timeline lacks", SLICES - {one.get("name") for one in events}, set(), fail)
    _, lines, _ = view(folder, room, *words, "--groups")
    _, plain, _ = view(folder, room, *capture, "--groups")
    compare("verdicts and counts without the table", [one.split("\t")[:6] for one in plain.splitlines()],
            [one.split("\t")[:6] for one in lines.splitlines()], fail)
    compare("--groups", ("IIds.tenth (code 10) to service" in lines, "IIds.tenth" in plain, "IIds code 10 to" in plain),
            (True, False, True), fail)
    check_groups(folder, room, fail)
    check_tables(folder, room, fail)
    check_hostile_methods(folder, room, fail)


def check_groups(folder: pathlib.Path, room: pathlib.Path, fail: Fail) -> None:
    """Calls that hang are one group if their interfaces differ only in the package, and else several."""
    s = Session()
    service, client = s.two()
    for at, name in enumerate(("a.b.IOne", "c.IOne", "a.b.IOther"), 1):
        client.main.is_given(service.main, at, node=0x100 * at)
        service.looper(at).gets(client.thread(at).sends(at, 1, body=marked(name)), 0x100 * at)
    s.wait(300)
    words = written(s, room, "groups")
    (room / "one").write_text("a.b.IOne\t1\tf\t-\n", "utf-8")
    for more in (), ("--methods", "one"):
        _, lines, _ = view(folder, room, *words, "--groups", *more)
        fields = [line.split("\t") for line in lines.splitlines() if line.startswith("maybe")]
        compare(f"groups of calls that hang {more}", sorted((one[2], one[6]) for one in fields),
                [("1", "IOther code 1 to service 100 node 0x300"), ("2", "IOne code 1 to service")], fail)


def check_tables(folder: pathlib.Path, room: pathlib.Path, fail: Fail) -> None:
    """Tables that are refused; and one that says what a built-in method is."""
    bad = {"a field too few": ("a.I\t1\tf\n", 1), "no code": ("a.I\t1\tf\t-\na.I\tx\tg\t-\n", 2),
           "a large code": ("a.I\t4294967296\tf\t-\n", 1), "an empty field": ("a.I\t1\t\t-\n", 1)}
    for what, (text, line) in bad.items():
        (room / "bad").write_text(text, "utf-8")
        status, _, told = view(folder, room, "named.cap", "--methods", "bad", "--groups")
        compare(f"a table with {what}", (status, told.startswith(f"view: bad:{line}: ")), (4, True), fail)
    (room / "bad").write_text("check.forms.IIds\t10\televenth\t-\n", "utf-8")
    status, _, told = view(folder, room, "named.cap", "--methods", "table", "--methods", "bad", "--groups")
    compare("two tables that disagree", (status, "eleventh here, and tenth" in told), (4, True), fail)
    compare("no table", view(folder, room, "named.cap", "--methods", "none", "--groups"),
            (4, "", "view: none: No such file or directory\n"), fail)


def check_hostile_methods(folder: pathlib.Path, room: pathlib.Path, fail: Fail) -> None:
    """Methods whose names mean harm."""
    played = session()
    (room / "harm.cap").write_bytes(played.capture())
    (room / "harm.side").write_text(played.side(), "utf-8")
    harm = "<script>window.bad=1</script>\u202e'\"><img src=x onerror=bad()>"
    (room / "harm").write_text("".join(f"check.forms.IIds\t{code}\t{harm}\t{harm}\n" for code in (1, 3, 10))
                               + f"check.forms.IPlain\t1\t{'a' * 2**20}\t-\n<b>.I\t1\tf\t-\n", "utf-8")
    words = ("harm.cap", "--side", "harm.side", "--methods", "harm")
    made = view(folder, room, *words, "-o", "harm.html", "--trace", "harm.json.gz")
    compare("hostile methods, status", made[0], 0, fail)
    text = (room / "harm.html").read_text("utf-8")
    check_harmless("hostile methods", text, fail)
    compare("hostile methods: the page stays small", len(text) < 2**18, True, fail)
    compare("hostile methods: a timeline", bool(timeline_of(room / "harm.json.gz")), True, fail)
    _, lines, _ = view(folder, room, *words, "--groups")
    compare("hostile methods: fields of a line", {line.count("\t") for line in lines.splitlines()}, {10}, fail)


def check_unnamed(folder: pathlib.Path, room: pathlib.Path, fail: Fail) -> None:
    """A table changes nothing on the page of a capture whose calls have no interface, but the command that makes it."""
    (room / "any").write_text("a.I\t1\tf\t-\n", "utf-8")
    for name, more in ("with", ("--methods", "any")), ("without", ()):
        view(folder, room, *stored("leaks"), *more, "-o", f"{name}.html")
    pages = {(room / f"{name}.html").read_text("utf-8").replace(" --methods any", "") for name in ("with", "without")}
    compare("pages with a table and without", len(pages), 1, fail)
