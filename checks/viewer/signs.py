"""Checks that no text of a stranger moves the cursor of a terminal, and that no locale makes one fail.

    checks/run signs [-- PROGRAM]

What must hold:

- In `view`, `fleet`, viewer/ and lab/ only viewer/terminal.py writes to standard output and standard error. The
  progress of `view`, and the line that says that Python lacks its library, are of fixed words.
- With control characters, marks of direction, ends of lines and halves of surrogates in each text of a side list, in
  the driver's books, in the data of a capture and in the names of all files, `./view` writes the groups, the page and
  its lines without any. So it does of files that are not there, of words that are none, and of what SQLite says.
- With such signs in any one field of a side list, or after any word of a book, there is a line or nothing at all, and
  no traceback.
- In a locale that lacks signs of a name, groups and page are the same as in UTF-8.
- If standard output is closed, a line says so; if standard error is, all else is as before.
"""

import argparse
import ast
import os
import pathlib
import re
import sqlite3
import subprocess
import unicodedata
from typing import Iterable, Iterator

from checks.kit.checking import Fail, check, compare
from checks.kit.programs import DRIVER, ROOT, built_programs
from checks.pages.encoded import sources
from checks.viewer.page.books import BAD_BOOKS, CLIENT, play, with_an_opening
from checks.viewer.page.common import stored, written
from checks.viewer.sessions.session import Session
from viewer.database import load_books, raw_tables, side_list
from viewer.defects.seen import LAYOUT
from viewer.files import Stopped
from viewer.terminal import shown

# What a stranger may write: the title and the colour of a terminal, a sign that is deleted, C1, marks that turn the
# direction, other ends of a line, and bytes that are no UTF-8, of which some would be half of a surrogate.
PLANTED = b"\x1b]0;a\x07\x1b[31m\x7f\xc2\x9b2J\xe2\x80\xae\xe2\x80\xa8\xe2\x80\xa9\xe2\x81\xa6\xed\xa0\x80\xff\r"
NAMED = PLANTED.decode(errors="surrogateescape")

# ---- who writes

# What writes to a terminal, and what says that Python lacks the modules which that takes.
WRITERS = "viewer/terminal.py", "viewer/whole_python.py"


def writers(source: str) -> Iterator[ast.expr]:
    """The calls of `print`, and the uses of standard output and standard error to write to them."""
    tree = ast.parse(source)
    progress = {id(node) for found in ast.walk(tree) if isinstance(found, ast.ClassDef) and found.name == "Progress"
                for node in ast.walk(found)}
    for node in ast.walk(tree):
        if isinstance(node, ast.Call) and ast.unparse(node.func) == "print" or (
                isinstance(node, ast.Attribute) and node.attr in ("write", "writelines", "buffer")
                and ast.unparse(node.value).startswith(("sys.stdout", "sys.stderr")) and id(node) not in progress):
            yield node


def check_writers(fail: Fail) -> None:
    compare("who writes", len(list(writers("print(1)\nsys.stderr.write(a)\nsys.stdout.buffer.write(b)\n"))), 4, fail)
    for path in sources():
        name = str(path.relative_to(ROOT))
        if name in ("view", "fleet") or name.startswith(("viewer/", "lab/")) and name not in WRITERS:
            for node in writers(path.read_text("utf-8")):
                fail(f"{name}:{node.lineno}: only viewer/terminal.py writes to a terminal")


# ---- what is written


def ran(folder: pathlib.Path, room: pathlib.Path, *words: object, **settings: str) -> tuple[int, bytes, bytes]:
    """The status of ./view, and both its streams."""
    ended = subprocess.run([folder / "view", *map(str, words)], cwd=room, timeout=120, stdin=subprocess.DEVNULL,
                           capture_output=True, env={**os.environ, **settings})
    return ended.returncode, ended.stdout, ended.stderr


def signs_in(written: bytes, allowed: str = "\n") -> set[str]:
    """The signs in what was written that a terminal obeys, or that turn or hide others."""
    return {one for one in written.decode(errors="surrogateescape") if one not in allowed
            and unicodedata.category(one) in ("Cc", "Cf", "Cs", "Co", "Cn", "Zl", "Zp")}


def clean(what: str, written: bytes, fail: Fail, allowed: str = "\n") -> None:
    compare(f"signs in {what}", signs_in(written, allowed), set(), fail)


def planted_side(side: str) -> bytes:
    """A side list with these signs in its texts. Those that its books must have too stay: how it met a process, and the
    names of devices."""
    data = side.encode().replace(b"\\", b"")
    for name in (b"kernel", b"machine", b"why"):
        data = re.sub(rb" " + name + rb"=[^ \n]*", lambda found: found[0] + PLANTED, data)
    return re.sub(rb"^\d+ (?!device ).* name=.*", lambda found: found[0] + b" " + PLANTED, data, flags=re.MULTILINE)


def planted_session(room: pathlib.Path) -> tuple[str, str, str]:
    """The words for a capture, a side list and a book with these signs in their names and texts. The book of the end
    differs from the report, so a line names a process."""
    session = Session()
    play(session, client=CLIENT.replace(" s 1 ", " s 2 "))
    capture, _, side = written(session, room, "plain")
    names = f"a{NAMED}.cap", f"b{NAMED}.side"
    os.rename(room / capture, room / names[0])
    (room / names[1]).write_bytes(planted_side(session.side()).replace(
        b" end recording", b" books begin state from=0 after=0 bytes=5\n9 end recording", 1))
    os.rename(room / "plain.end.state", room / f"b{NAMED}.end.state")
    return names[0], "--side", names[1]


def check_planted(folder: pathlib.Path, room: pathlib.Path, fail: Fail) -> None:
    words = planted_session(room)
    status, out, err = ran(folder, room, *words, "--groups", "--database", f"c{NAMED}.db", "--trace", "t.json.gz")
    compare("planted signs, status", (status, len(out.splitlines()) > 0), (0, True), fail)
    compare("planted signs, lines on standard error", [line.partition(b" ")[0] for line in err.split(b"\n")],
            [b"view:", b"view:", b"view:", b""], fail)
    compare("planted signs, the line on the books", b"handle 1 1 by the report and 2 by debugfs" in err, True, fail)
    clean("the groups", out, fail, "\n\t")
    clean("what is told of them", err, fail)
    status, out, err = ran(folder, room, *words, "--groups", "--columns", "--all")
    compare("planted signs, columns", (status, len(out.splitlines()) > 2), (0, True), fail)
    clean("the columns", out, fail)
    clean("what is told of the columns", err, fail)
    status, out, err = ran(folder, room, *words, "-o", f"d{NAMED}.html", "--trace", "t.pftrace")
    compare("planted signs, the page's status", (status, out), (0, b""), fail)
    clean("what is told of the page", err, fail)
    clean("the page", (room / f"d{NAMED}.html").read_bytes(), fail)


def check_payload(folder: pathlib.Path, room: pathlib.Path, fail: Fail) -> None:
    """In the data of a capture, where the names of interfaces and services are."""
    here = DRIVER / "hello-answers"
    data = (here / "capture-1.cap").read_bytes()
    planted = data.replace("Hello".encode("utf-16-le"), "\x1b[3\u202e\ud800".encode("utf-16-le", "surrogatepass"))
    compare("a name in the data of the capture", planted != data, True, fail)
    (room / "data.cap").write_bytes(planted)
    status, out, err = ran(folder, room, "data.cap", "--side", here / "capture.side", "--groups")
    compare("a name in data, status", status, 0, fail)
    clean("the groups of the data", out, fail, "\n\t")
    clean("what is told of the data", err, fail)


def hostile_schema(path: pathlib.Path) -> None:
    """A database of which SQLite says what the name of a table is."""
    with sqlite3.connect(path) as database:
        database.execute(f'CREATE TABLE "a{PLANTED[:12].decode()}"(x)')
        database.execute("PRAGMA writable_schema = 1")
        database.execute("UPDATE sqlite_schema SET sql = 'CREATE TABLE none'")
        database.execute(f"PRAGMA user_version = {LAYOUT}")
    database.close()


def check_names(folder: pathlib.Path, room: pathlib.Path, fail: Fail) -> None:
    """Names of files that are not there, words that are none, and what SQLite says: a line each."""
    capture, _, side = stored("gaps")
    hostile_schema(room / "schema.db")
    name, gone = f"x{NAMED}", f"no{NAMED}/x"
    for words in ((name,), (capture, "--side", name), (capture, "--methods", name), (capture, "--symbols", name),
                  (capture, "--against", name), (capture, "--against", "schema.db"), (capture, "--fail-on", name),
                  (capture, "--fail-on", "real", "--known", name), (capture, "--groups", "--database", gone),
                  (capture, "-o", gone), (capture, "--trace", f"{gone}.pftrace"), (capture, f"--{name}"),
                  (capture, "--process", name)):
        status, out, err = ran(folder, room, *words)
        what = f"{words[1:]}" if words[1:] else "a capture that is not there"
        compare(f"{what}, status and end", (status in (1, 4, 64), out, err[-1:]), (True, b"", b"\n"), fail)
        compare(f"{what}, a line", [line for line in err.decode().split("\n")[:-1]
                                    if not line.startswith(("view: ", "usage: ", " "))], [], fail)
        clean(f"the line on {what}", err, fail)


# ---- each field


def planted_fields(line: str) -> Iterator[str]:
    """The line with these signs in each of its words in turn, and with another word in its place."""
    words = line.split(" ")
    for at, word in enumerate(words):
        key = word.partition("=")[0] + "=" if "=" in word else ""
        for new in (word + NAMED, key, key + "9" * 5000, key + str(2**63 - 1)):
            yield " ".join([*words[:at], new, *words[at + 1:]])


def line_of(do: object, *words: object) -> str | None:
    """What a function says; what it raises must be a line, too."""
    try:
        return do(*words)  # type: ignore[operator]
    except Stopped as stopped:
        return str(stopped)


def check_fields(room: pathlib.Path, fail: Fail) -> None:
    side = "".join((DRIVER / name / "capture.side").read_text("utf-8", errors="replace").partition("\n")[2]
                   for name in ("people", "before", "forgetful", "too-large", "gaps"))
    kinds = {" ".join(re.findall("[a-z]+", line)[:2]): line for line in side.splitlines()}
    list_, database = room / "field.side", sqlite3.connect(":memory:", isolation_level=None)
    database.executescript(raw_tables.schema())
    for kind, line in kinds.items():
        for planted in planted_fields(line):
            list_.write_bytes(b"binder side list 2\n" + planted.encode(errors="surrogateescape") + b"\n"
                              + b"99 thread 0 1 1 pid=1 tid=1 start=1 name=a\n")
            database.execute("BEGIN")
            try:
                said = line_of(side_list.SideList(database).load, str(list_))
                clean(f"what is said of {kind}", shown(said or "").encode(), fail)
            except Exception as error:
                fail(f"a field of a line {kind}, {planted[:60]!r}: {error!r}")
            database.execute("ROLLBACK")
    for what, text, _ in BAD_BOOKS:
        words = re.split(r"(?<=\S)(?=\s)", text[:400])
        for at in range(len(words)):
            book = "".join([*words[:at], words[at] + NAMED, *words[at + 1:]]).encode(errors="surrogateescape")
            (room / f"book.begin.{what}").write_bytes(book)
            copy = side_list.Copy("begin", what, 0, 0, 5, len(book))
            try:
                said = line_of(load_books.load, with_an_opening(), [copy], [str(room / "book.side")], {})
                clean(f"what is said of {what}", shown(said or "").encode(), fail)
            except Exception as error:
                fail(f"a word of a book {what}, {words[at]!r}: {error!r}")


# ---- locales and streams


def check_locale(folder: pathlib.Path, room: pathlib.Path, fail: Fail) -> None:
    """In the C locale without UTF-8, as Python 3.6 had it, no sign beyond ASCII can be written in the locale's way."""
    here = DRIVER / "leaks"
    side = (here / "capture.side").read_text("utf-8").replace("name=client", "name=клиент")
    (room / "named.side").write_text(side, "utf-8")
    answers = []
    for settings in ({"LC_ALL": "C.UTF-8"}, {"LC_ALL": "C", "PYTHONCOERCECLOCALE": "0", "PYTHONUTF8": "0"}):
        page = room / "named.html"
        words = here / "capture-1.cap", "--side", "named.side"
        answers.append((ran(folder, room, *words, "--groups", **settings),
                        ran(folder, room, *words, "--groups", "--columns", "--all", **settings),
                        ran(folder, room, *words, "-o", page, **settings), page.exists() and page.read_bytes()))
        page.unlink(missing_ok=True)
    compare("a name that the locale lacks is in the groups", "клиент".encode() in answers[0][0][1], True, fail)
    compare("groups and page in a locale that lacks signs", answers[1] == answers[0], True, fail)


def check_closed(folder: pathlib.Path, room: pathlib.Path, fail: Fail) -> None:
    words = ["sh", "-c", 'exec "$@" {}', "sh", folder / "view", *stored("gaps"), "--groups"]
    _, due, _ = ran(folder, room, *words[5:])
    for streams, answer in ((">&-", (4, b"", b"view: standard output is closed\n")), ("2>&-", (0, due, b"")),
                            ("2>/dev/full", (0, due, b""))):
        ended = subprocess.run([*words[:2], words[2].format(streams), *words[3:]], cwd=room, capture_output=True)
        compare(f"with {streams}", (ended.returncode, ended.stdout, ended.stderr), answer, fail)


def judge(given: argparse.Namespace, room: pathlib.Path, fail: Fail) -> Iterable[str]:
    check_writers(fail)
    folder = built_programs(room, given.programs[0])
    for part in (check_planted, check_payload, check_names, check_locale, check_closed):
        (room / part.__name__).mkdir()
        part(folder, room / part.__name__, fail)
    check_fields(room, fail)
    return ()


if __name__ == "__main__":
    check(judge)
