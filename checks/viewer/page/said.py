"""Where `./view` and `./listing` show what transactions and replies say. checks/viewer/arguments.py has the values."""

import pathlib
import sqlite3
from contextlib import closing

from checks.kit.checking import Fail, compare
from checks.kit.programs import ROOT
from checks.kit.runs import answer
from checks.viewer.page.common import stored, texts_of, view

SOURCES = ROOT / "samples/interfaces"
STUCK, REDACTED = stored("hello-stuck"), stored("secret-redacted")
SAID = 'text="Hello there"'
# The record that sends the first call of echo, and the one that reads the reply.
CALL, REPLY = 4520, 5188
NONE = "the recording is redacted, so it has no arguments"

QUERY = "SELECT arguments, returned FROM txn WHERE interface = 'org.example.IHello' AND code = 1 LIMIT 1"


def listing(*words: object) -> tuple[int, str, str]:
    status, out, err = answer([ROOT / "listing", *map(str, words)], timeout=120, encoding="utf-8")
    return status, "\n".join(out.splitlines()[-2:]), err


def check_arguments(folder: pathlib.Path, room: pathlib.Path, fail: Fail) -> None:
    """A recording by libgbinder, with the sources of its interfaces; and one that is redacted."""
    words = *STUCK, "--aidl", SOURCES
    compare("--arguments", view(folder, room, *words, "--arguments", "-o", "said.html", "--database", "said.db"),
            (0, "", ""), fail)
    text = texts_of(room / "said.html")
    for due in "Hello there", "What IHello.waitForever (code 6) said: no arguments", "IHello.echo (code 1)":
        compare(f"the page has {due}", due in text, True, fail)
    with closing(sqlite3.connect(room / "said.db")) as database:
        compare("a call and its reply", database.execute(QUERY).fetchone(), (SAID, 'return="Hello there"'), fail)
    view(folder, room, *words, "-o", "names.html", "--database", "names.db")
    text = texts_of(room / "names.html")
    compare("what sources alone give", ("IHello.echo (code 1)" in text, "Hello there" in text), (True, False), fail)
    with closing(sqlite3.connect(room / "names.db")) as database:
        compare("without --arguments", database.execute(QUERY).fetchone(), (None, None), fail)
    made = view(folder, room, *REDACTED, "--arguments", "--groups", "--database", "none.db")
    compare("a redacted recording", made[::2], (0, f"view: --arguments: {NONE}\n"), fail)
    with closing(sqlite3.connect(room / "none.db")) as database:
        compare("its records", database.execute("SELECT count(*) > 0, count(arguments) FROM record").fetchone(), (1, 0),
                fail)
    (room / "bad.aidl").write_text("package p;\ninterface I { void (); }", "utf-8")
    compare("a wrong source", view(folder, room, *STUCK, "--aidl", SOURCES, "--aidl", room, "--groups")[0], 0, fail)
    (room / "org.aidl").write_text("package p;\ninterface I { void (); }", "utf-8")
    compare("a wrong source that is asked for", view(folder, room, *STUCK, "--aidl", room, "--groups")[::2],
            (4, f"view: {room}/org.aidl:2: expected a name and not (\n"), fail)
    compare("--arguments without a page", view(folder, room, *STUCK, "--arguments", "--groups")[0], 64, fail)
    check_listed(fail)


def check_listed(fail: Fail) -> None:
    capture = STUCK[0]
    method = "org.example.IHello.echo(String text), "
    for place, due in (CALL, 'text "Hello there"'), (REPLY, 'return "Hello there"'):
        status, lines, err = listing(capture, "--at", place, "--arguments", "--aidl", SOURCES)
        is_of, is_due = lines.startswith(f"arguments of {method}"), lines.endswith(due)
        compare(f"./listing --at {place}", (status, is_of, is_due, err), (0, True, True, ""), fail)
    status, lines, _ = listing(capture, "--at", CALL, "--arguments")
    compare("./listing without sources", (status, lines.split("\n")[0], lines.endswith('"Hello there"')),
            (0, "arguments, without a declaration", True), fail)
    status, lines, _ = listing(REDACTED[0], "--at", 84, "--arguments")
    compare("./listing of a redacted recording", (status, lines.split("\n")[-1]), (0, f"arguments: {NONE}"), fail)
    for words, why in ((("--arguments",), "--arguments goes with --at"),
                       (("--at", CALL, "--aidl", SOURCES), "--aidl goes with --arguments or --names")):
        status, _, err = listing(capture, *words)
        compare(f"./listing {words}", (status, err.endswith(f"\nlisting: {why}\n")), (64, True), fail)
