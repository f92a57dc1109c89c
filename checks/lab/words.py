"""What `fleet` says when it can't do what is asked: one line, in its own words, whatever is wrong with the words, the
lab, the locale or standard output."""

import contextlib
import json
import os
import pathlib
import sqlite3
from typing import Callable
from xml.etree import ElementTree

from checks.kit.checking import Fail, compare
from checks.kit.runs import answer
from checks.lab.played import played
from lab import result
from lab.ask import ask
from lab.store import open_lab
from viewer.files import Stopped

# Questions that can't be asked, and what is said of each.
QUESTIONS = (
    (["new"], "new takes old=, new= and devices="), (["new", "old=b1", "new=b2"], "new takes old=, new= and devices="),
    (["since", "build=b1"], "since takes no value"), (["rate", "key=0"], "rate takes defect="),
    (["rate", "defect"], "defect: a value of a question is NAME=VALUE"),
    (["sinse"], "no question is called sinse, but these: called holds longest new rate since where"),
    (["SELECT :build"], "the question takes build="), (["SELECT ?", "build=b1"], "values that have names, as :build"),
    (["SELECT 1; SELECT 2"], "a question is one statement of SQL"), (["SELECT * FROM none"], "no such table: none"),
    (["DELETE FROM capture"], "readonly"), (["-"], "near"))

# Questions about what the lab does not have.
UNKNOWN = (
    (["rate", "defect=nothing"], "the lab has no defect nothing"),
    (["where", f"defect={'0' * 16}"], f"the lab has no defect {'0' * 16}"),
    (["new", "old=b1", "new=b99", "devices=2"], "the lab has no build b99"))

# Command lines that are not valid.
WORDS = (["compare", "lab.db", "b1", "b2", "--share", "nan"], ["ask\x1b[31m"],
         ["one", "x", "--build", "", "--device", "d", "-o", "x.json"],
         ["one", "x", "--build", "b", "--device", "\x1b[31m", "-o", "x.json"],
         ["one", "x", "--build", "\udcff", "--device", "d", "-o", "x.json"])

# A locale that is not UTF-8, and is there without being generated.
ASCII = {"LC_ALL": "C", "PYTHONCOERCECLOCALE": "0", "PYTHONUTF8": "0"}


def check_line(what: str, came: tuple[int, str, str], status: int, says: str, fail: Fail) -> None:
    """The status, and a last line that says this; before it comes at most the usage."""
    lines = [line for line in came[2].splitlines() if not line.startswith(("usage: ", " "))]
    compare(f"{what}: status, lines", (came[0], len(lines)), (status, 1), fail)
    compare(f"{what}: it says {says!r}, not {lines}", says in lines[-1] if lines else False, True, fail)
    compare(f"{what}: signs", came[2].replace("\n", "").isprintable(), True, fail)


def check_stopped(what: str, call: Callable[[], object], status: int, says: str, fail: Fail) -> None:
    """The status and the line with which a call stops the program."""
    came = 0, ""
    try:
        call()
    except Stopped as stopped:
        came = stopped.status, str(stopped)
    compare(f"{what}: status", came[0], status, fail)
    compare(f"{what}: it says {says!r}, not {came[1]!r}", says in came[1], True, fail)


def check_questions(folder: pathlib.Path, lab: pathlib.Path, fail: Fail) -> None:
    for (question, *values), says in QUESTIONS:
        with contextlib.closing(open_lab(str(lab))) as opened:
            check_stopped(f"ask {question} {values}", lambda: list(ask(opened, question, values)), 64, says, fail)
    for (question, *values), says in UNKNOWN:
        with contextlib.closing(open_lab(str(lab))) as opened:
            check_stopped(f"ask {question} {values}", lambda: list(ask(opened, question, values)), 1, says, fail)
    for question, says in (("new", "new takes old="), ("SELECT '\udcff'", "is not UTF-8")):
        came = played(folder / "fleet", "ask", lab, question)
        check_line(f"ask {question!a}", came, 64, f"fleet: {says}" if question == "new" else says, fail)


def check_labs(folder: pathlib.Path, room: pathlib.Path, lab: pathlib.Path, good: dict, fail: Fail) -> None:
    """What is no lab is refused, and nothing is put into it."""
    (room / "good.json").write_text(result.text_of(good), "utf-8")
    (room / "folder").mkdir()
    os.mkfifo(room / "pipe")
    (room / "text").write_bytes(b"no database, but a text\n" * 99)
    other, changed = room / "other", room / "changed"
    with contextlib.closing(sqlite3.connect(other)) as database:
        database.executescript("PRAGMA user_version = 1; CREATE TABLE capture(build); INSERT INTO capture VALUES (1)")
    changed.write_bytes(lab.read_bytes())
    with contextlib.closing(sqlite3.connect(changed, isolation_level=None)) as database:
        database.execute("UPDATE defect SET kind = x'ff00' WHERE rowid % 2")
    before = other.read_bytes()
    for name in ("folder", "pipe", "text", "other", "changed"):
        for may_make in False, True:
            check_stopped(f"a {name} as a lab", lambda: open_lab(str(room / name), may_make), 4, f"{room / name}: ",
                          fail)
    for words in (["load", "other", "good.json"], ["compare", "changed", "b1", "b2"]):
        came = played(folder / "fleet", *words, cwd=room)
        check_line(" ".join(words), came, 4, f"fleet: {words[1]}: ", fail)
    compare("another program's database", other.read_bytes() == before, True, fail)
    compare("what is left beside labs", [*room.glob("*-wal"), *room.glob("*-shm")], [], fail)


def check_reports(folder: pathlib.Path, room: pathlib.Path, build: str, due: int, fail: Fail) -> None:
    """The reports for other programs can be read, whatever the names are."""
    files = "--junit", "a.xml", "--sarif", "a.sarif"
    came = played(folder / "fleet", "compare", "stranger.db", "b1", build, "--json", "--all", *files, cwd=room)
    cases = ElementTree.fromstring((room / "a.xml").read_text("utf-8")).findall("testcase")
    sarif = json.loads((room / "a.sarif").read_bytes())
    compare("reports of strangers", (came[0], len(json.loads(came[1])["defects"]), len(cases), sarif["version"]),
            (0, due, due, "2.1.0"), fail)


def check_strangers(folder: pathlib.Path, room: pathlib.Path, good: dict, fail: Fail) -> None:
    """Signs that a terminal obeys, in all texts of results, in words and in names of files; and letters that a locale
    lacks."""
    name = "клиент\x1b]0;owned\x07"
    for number, build in enumerate(("b1", name)):
        of = {**good["capture"], "digest": f"{number:032x}", "build": build, "device": name, "version": build + name}
        found = [{**it, "kind": name, "path": name, "note": name} for it in good["found"]]
        (room / f"{number}.json").write_text(result.text_of({**good, "capture": of, "found": found}), "utf-8")
    (room / f"{name}.json").write_text("{}", "utf-8")
    for words, status in ((["load", "stranger.db", "0.json", "1.json", f"{name}.json"], 4),
                          (["compare", "stranger.db", "b1", name, "--all", "--least", "1"], 0),
                          (["compare", "stranger.db", "b1", f"no {name}"], 1), (["ask", "stranger.db", "since"], 0),
                          (["ask", "stranger.db", f"SELECT '{name}' AS \"{name}\""], 0), (["ask", name, "since"], 4)):
        came = played(folder / "fleet", *words, cwd=room)
        said = (came[1] + came[2]).replace("\n", "").replace("\t", "")
        compare(f"{words!a}: status, signs", (came[0], said.isprintable()), (status, True), fail)
    check_reports(folder, room, name, sum(it["verdict"] != "explained" for it in good["found"]), fail)
    environment = {**os.environ, **ASCII}
    came = answer([folder / "fleet", "ask", room / "stranger.db", "since"], env=environment, encoding="utf-8")
    compare("in a locale of ASCII", (came[0], "клиент" in came[1], came[2]), (0, True, ""), fail)


def check_words(folder: pathlib.Path, room: pathlib.Path, lab: pathlib.Path, good: dict, fail: Fail) -> None:
    room.mkdir()
    check_questions(folder, lab, fail)
    for words in WORDS:
        check_line(f"{words!a}", played(folder / "fleet", *words, cwd=room), 64, "fleet: ", fail)
    for question in (["load", lab, room], ["ask", lab, "since"]):
        check_line(f"{question[0]} >&-", played(folder / "fleet", *question, is_closed=True), 4,
                   "standard output is closed", fail)
        check_line(f"{question[0]} >/dev/full", played(folder / "fleet", *question, stdout="/dev/full"), 4,
                   "standard output: No space left on device", fail)
    check_labs(folder, room, lab, good, fail)
    check_strangers(folder, room, good, fail)
