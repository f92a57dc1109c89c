"""The names of services, and the stored captures of clients on libgbinder."""

import pathlib
import sqlite3

from checks.kit import tokens
from checks.kit.checking import Fail, compare
from checks.kit.programs import DRIVER
from checks.kit.tokens import MANAGER, ended, marked, numbers, string16
from checks.viewer.page.common import stored, texts_of, timeline_of, view, written
from checks.viewer.page.methods import make_table
from checks.viewer.page.reports import check_harmless
from checks.viewer.sessions.session import Session

IDS, OF_HIDL = marked("check.forms.IIds"), ended(b"android.hidl.manager@1.0::IServiceManager\0")


def session() -> Session:
    """A server that registers one object with a manager, and another as in HIDL. A client asks for the first one, calls
    it, and hangs."""
    s = Session()
    manager, client = s.two()
    server, about = s.process(300, "server"), marked(MANAGER) + string16("hello")
    server.main.gives(manager.main, 3, 3, 0x9000, about, numbers(12, 0, 15))
    server.main.gives(manager.main, 4, 2, 0x9100, OF_HIDL)
    client.main.is_given(manager.main, 1, 2, server_handle=3, body=about)
    client.main.asks(server.main, 10, 1, 0x9000, body=IDS, times=3)
    server.main.gets(client.main.sends(1, 11, body=IDS), 0x9000)
    s.wait(300)
    return s


# What the page says of the session, without markup.
ON_PAGE = (
    "IIds code 11 to server 300 node 0x9000 hello",
    "hello (check.forms.IIds) , handle 1, node 0x9000 IIds code 10 call 3",
    "handle=1 code=11 interface=IIds service=hello data_size=", "handle 1, server 300 node 0x9000 hello (IIds)",
    "hello check.forms.IIds server 300 0x9000 its registration", "not in a capture server 300 0x9100 its registration")


def check_services(folder: pathlib.Path, room: pathlib.Path, fail: Fail) -> None:
    """A session with services: on the page, in the database, in groups and in the timeline."""
    words = written(session(), room, "served")
    made = view(folder, room, *words, "-o", "served.html", "--database", "served.db", "--trace", "served.json.gz")
    compare("services", made, (0, "", ""), fail)
    text = texts_of(room / "served.html")
    compare("services that the page lacks", [one for one in ON_PAGE if one not in text], [], fail)
    database = sqlite3.connect(room / "served.db")
    compare("node_service", database.execute("SELECT service, interface, ptr, n, others, rests_on FROM node_service"
                                             " ORDER BY ptr").fetchall(),
            [("hello", "check.forms.IIds", 0x9000, 2, 0, "bytes"), (None, None, 0x9100, 1, 0, "bytes")], fail)
    events = timeline_of(room / "served.json.gz")["traceEvents"]
    named = {one["name"] for one in events if one.get("args", {}).get("service") == "hello"}
    compare("services in the timeline", named,
            {f"{side} IIds code {code}" for side in ("call", "serve") for code in (10, 11)}, fail)
    _, lines, _ = view(folder, room, *words, "--groups")
    compare("a service in --groups", "IIds code 11 to server 300 node 0x9000 hello\t" in lines, True, fail)
    check_hostile_names(folder, room, fail)


def check_hostile_names(folder: pathlib.Path, room: pathlib.Path, fail: Fail) -> None:
    """Payloads that mean harm name nothing, and run nothing."""
    s = Session()
    manager, client = s.two()
    for payload in [*tokens.hostile(), *(data for data, name in tokens.services().items() if name is None)]:
        client.main.asks(manager.main, 3, body=payload)
    for text in tokens.NO_SERVICES:
        client.main.gives(manager.main, 3, 3, 0x9000, marked(MANAGER) + string16(text), numbers(12, 0, 15))
    client.main.sends(0, 3, body=marked(MANAGER) + string16("<script>window.bad=1</script>"))
    s.wait(300)
    capture, *_ = written(s, room, "harmful")
    made = view(folder, room, capture, "--no-side", "-o", "harmful.html", "--database", "harmful.db", "--trace",
                "harmful.json.gz")
    compare("hostile payloads", made, (0, "", ""), fail)
    database = sqlite3.connect(room / "harmful.db")
    known = {name for name, in database.execute("SELECT name FROM interface")}
    compare("names from hostile payloads", (known - set(tokens.MADE.values()) - {OF_HIDL.rstrip(b"\0").decode()},
                                            database.execute("SELECT * FROM service").fetchall(),
                                            database.execute("SELECT * FROM node_service").fetchall()), (set(), [], []),
            fail)
    check_harmless("hostile payloads", (room / "harmful.html").read_text("utf-8"), fail)


# ---- the manager of services

MANAGER_BEFORE_15 = ["getService", "checkService", "addService", "listServices"]


def check_manager(folder: pathlib.Path, room: pathlib.Path, fail: Fail) -> None:
    """The codes of a manager have names if code 3 hands over an object, as before Android 15, and only the first one if
    another code does, or nothing is handed over."""
    for code, is_given, due in ((3, True, MANAGER_BEFORE_15), (4, True, ["getService"]), (3, False, ["getService"])):
        s = Session()
        manager, client = s.two()
        server, about = s.process(300, "server"), marked(MANAGER) + string16("hello")
        if is_given:
            server.main.gives(manager.main, 3, code, 0x9000, about, numbers(12, 0, 15))
        else:
            manager.main.gets(server.main.sends(0, code, body=about), 0)
        made = view(folder, room, *written(s, room, f"manager-{code}-{is_given}"), "--groups", "--database",
                    room / f"manager-{code}-{is_given}.db")
        compare(f"a manager, code {code}: status", made[0], 0, fail)
        came = [name for name, in sqlite3.connect(room / f"manager-{code}-{is_given}.db").execute(
            "SELECT method FROM method WHERE interface = 'android.os.IServiceManager' AND code < 100 ORDER BY code")]
        compare(f"a manager, code {code} {'with' if is_given else 'without'} an object", came, due, fail)


# ---- clients on libgbinder

SOURCES = DRIVER.parent / "interfaces"
CAPTURES = sorted(path.name for path in DRIVER.glob("hello-*"))
HEALTHY = ("hello-9", "hello-10", "hello-11", "hello-hidl")
SERVICES = [("hello", "org.example.IHello"), ("org.example.IClock/default", "org.example.IClock")]
OF_HIDL_ONLY = [(None, "org.example@1.0::IHello")]
TRANSACTIONS = "kind LIKE '%TRANSACTION%' AND kind NOT LIKE '%COMPLETE' AND code BETWEEN 1 AND 16777215"


def check_libgbinder(folder: pathlib.Path, room: pathlib.Path, name: str, fail: Fail) -> None:
    """A stored capture of clients on libgbinder: each transaction has its interface and each registered object its
    service, and the page has the methods of a table from sources. One without a fault has no verdict real, and at most
    two maybe."""
    make_table(room, SOURCES, f"{name}.methods")
    made = view(folder, room, *stored(name), "--methods", f"{name}.methods", "-o", f"{name}.html", "--database",
                f"{name}.db")
    compare(name, made, (0, "", ""), fail)
    database = sqlite3.connect(room / f"{name}.db")
    many, named = database.execute(f"SELECT count(*), count(interface) FROM record WHERE {TRANSACTIONS}").fetchone()
    compare(f"{name}, transactions with an interface", (named, named > 25), (many, True), fail)
    is_hidl, = database.execute("SELECT count(*) FROM interface WHERE name LIKE '%::IHello'").fetchone()
    compare(f"{name}, services", database.execute("SELECT service, interface FROM node_service WHERE rests_on = 'bytes'"
                                                  " ORDER BY 1").fetchall(),
            OF_HIDL_ONLY if is_hidl else SERVICES, fail)
    text = texts_of(room / f"{name}.html")
    lacks = [one for one in ("IHello.echo (code 1)", "IHello.callBack (code 2)", "ISession.use (code 1)")
             if one not in text]
    compare(f"{name}, methods that the page lacks", lacks, [], fail)
    verdicts = dict(database.execute("SELECT verdict, count(*) FROM finding_group GROUP BY 1"))
    if name in HEALTHY:
        compare(f"{name}, verdicts", ("real" in verdicts, verdicts.get("maybe", 0) <= 2), (False, True), fail)
    else:
        compare(f"{name}, a verdict", "real" in verdicts or "maybe" in verdicts, True, fail)
