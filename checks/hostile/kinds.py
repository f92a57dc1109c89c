"""The kinds of hostile inputs: each writes an input into a folder, and has the command lines that are to stand it."""

import json
import os
import pathlib
import random
import re
import shutil
import sqlite3
from contextlib import closing, suppress
from typing import Callable, Iterator, NamedTuple

from checks.hostile.mutations import (
    WORDS, changed_attachments, changed_bytes, changed_capture, changed_lines, changed_source, encoded)
from checks.hostile.plays import Play, Player
from checks.kit.programs import CHECKS, DRIVER, ROOT, SMALL
from checks.kit.side_lists import LONGEST as LONGEST_LINE, packed
from checks.lab.mutated import VALUES, by_rows, mutated_results
from lab import store

# The longest captures that are changed, so that a run is short.
LONGEST = 20_000

SOURCES = [path for folder in ("samples/interfaces", "checks/viewer/method_sources")
           for path in sorted((ROOT / folder).rglob("*")) if path.suffix in (".aidl", ".hal")]
TABLE = CHECKS / "viewer/method_sources/table.txt"
BOOKS = re.compile(r"\.(begin|end)\.(state|stats|transactions)$")


def sessions() -> list[pathlib.Path]:
    """The folders of short recordings of one file."""
    return [folder for folder in sorted(DRIVER.iterdir()) if (folder / "capture.side").exists()
            and (folder / "capture-1.cap").exists() and not (folder / "capture-2.cap").exists()
            and (folder / "capture-1.cap").stat().st_size < LONGEST]


SESSIONS = sessions()
# Of these the interfaces are in samples/interfaces.
OF_INTERFACES = [folder for folder in sorted(DRIVER.glob("hello-*")) if (folder / "capture-1.cap").exists()]
CAPTURES = [*SMALL, *(folder / "capture-1.cap" for folder in SESSIONS)]


class Stock(NamedTuple):
    """What programs made of good captures, of which inputs are made."""
    results: list[dict]
    kept: bytes
    lab: bytes


def stock_of(player: Player, room: pathlib.Path) -> Stock:
    """Makes it, as far as the programs do."""
    made = []
    for number, name in enumerate(("leaks", "hello-sessions", "twice")):
        words = str(DRIVER / name / "capture-1.cap"), "--side", str(DRIVER / name / "capture.side")
        player.play(Play("./fleet", ("one", *words, "--build", "b1", "--device", "d1", "-o", f"{name}.json")), room)
        text = (room / f"{name}.json").read_bytes()
        made.append(by_rows(store.read(room / f"{name}.json", text)))
        if not number:
            player.play(Play("./view", (*words, "--groups", "--database", "kept.db")), room)
    player.play(Play("./fleet", ("load", "lab.db", *(f"{name}.json" for name in ("leaks", "twice")))), room)
    return Stock(made, (room / "kept.db").read_bytes(), (room / "lab.db").read_bytes())


Kind = Callable[[random.Random, Stock, pathlib.Path], Iterator[Play]]

# ---- what the viewer is asked for

LOOKS: tuple[tuple[str, ...], ...] = (
    ("--groups",), ("--groups",), ("-o", "page.html"), (), ("--groups", "--database", "made.db"),
    ("--trace", "time.json.gz"), ("--trace", "time.pftrace"), ("--trace", "time.pftrace.gz", "--names", "android"),
    ("--groups", "--columns", "--all"), ("--groups", "--last", "1s"), ("-o", "page.html", "--between", "+0", "+0.5"),
    ("-o", "page.html", "--between", "00:00", "23:59:59.9"), ("--groups", "--columns", "--around", "100"),
    ("--groups", "--fail-on", "maybe"), ("-o", "page.html", "--database", "made.db", "--trace", "time.json.gz"))


def view(chance: random.Random, *words: str) -> Play:
    return Play("./view", (*words, *chance.choice(LOOKS)))


# ---- captures, side lists and books


def narrowed(chance: random.Random) -> list[str]:
    """Options of the listing that narrow it, and its forms."""
    place = str(chance.choice((0, 16, 48, chance.randrange(5000), 2**64 - 1)))
    options = (["--at", place], ["--frame", place], ["--call", place], ["--process", "0"], ["--thread", "1"],
               ["--device", "0"], ["--direction", "read"], ["--from", "2"], ["--to", "9"], ["--code", "OPAQUE"],
               ["--handle", "1"], ["--cookie", "0x0"], ["--node", "0"], ["--address", "0"], ["--flag", "TF_ONE_WAY"],
               ["--larger", "0"], ["--interface", "android.os.IServiceManager"], ["--objects"], ["--form", "tab"],
               ["--names"], ["--around", place], ["--last", "1s"], ["--between", "00:00", "23:59"])
    return [word for option in chance.sample(options, chance.choice((0, 0, 1, 2))) for word in option]


def captures(chance: random.Random, _: Stock, room: pathlib.Path) -> Iterator[Play]:
    capture, other = (chance.choice(CAPTURES).read_bytes() for _ in range(2))
    (room / "hostile.cap").write_bytes(changed_capture(chance, capture, other))
    yield Play("./audit", ("report", "hostile.cap"))
    yield Play("./listing", ("hostile.cap", *narrowed(chance)))
    yield view(chance, "hostile.cap")
    if chance.random() < 0.2:
        yield Play("./audit", ("first-fault", "hostile.cap"))
    if chance.random() < 0.1:
        (room / "tables").mkdir()
        yield Play("./listing", ("--tables", "tables", "hostile.cap"))


def arguments(chance: random.Random, _: Stock, room: pathlib.Path) -> Iterator[Play]:
    """Data that lie, by the declarations of their methods. These may be changed too."""
    folder = chance.choice(OF_INTERFACES)
    capture = changed_attachments(chance, (folder / "capture-1.cap").read_bytes())
    if chance.random() < 0.2:
        capture = changed_capture(chance, capture, chance.choice(CAPTURES).read_bytes())
    (room / "hostile.cap").write_bytes(capture)
    shutil.copytree(ROOT / "samples/interfaces", room / "sources")
    if chance.random() < 0.3:
        source = chance.choice(sorted((room / "sources").rglob("*.aidl")))
        source.write_bytes(changed_source(chance, source.read_bytes()))
    named = chance.choice((("--aidl", "sources"), ("--aidl", "sources"), ()))
    yield Play("./view", ("hostile.cap", "--arguments", *named, *chance.choice((
        ("-o", "page.html"), ("--groups", "--database", "made.db")))))
    if chance.random() < 0.3:
        place = str(chance.randrange(len(capture) or 1))
        yield Play("./listing", ("hostile.cap", "--at", place, "--arguments", *named), in_full=True)


def session_in(chance: random.Random, room: pathlib.Path) -> None:
    """Copies a session: its capture, its side list and its books, of which some say more than at its end."""
    folder = chance.choice(SESSIONS)
    for path in folder.iterdir():
        if path.suffix in (".cap", ".side") or BOOKS.search(path.name):
            shutil.copyfile(path, room / path.name)
    for what in ("state", "stats"):
        if (folder / what).exists() and chance.random() < 0.5:
            shutil.copyfile(folder / what, room / f"capture.end.{what}")


def with_descriptors(text: str) -> str:
    """A side list that has what the list of an earlier recorder lacks: how many descriptors a process has open."""
    found = re.search(r"^(\d+) process (\d+ \d+) .*\n", text, re.MULTILINE)
    return text[:found.end()] + "".join(f"{found[1]} descriptors {found[2]} open={count} limit=64 why={why}\n"
                                        for count, why in ((9, "first"), (64, "failed"), (60, "end"))) \
        + text[found.end():] if found else text


def in_some_form(chance: random.Random, side: bytes) -> bytes:
    """A side list as it is, or as one of today, with many frames in a line."""
    text = with_descriptors(side.decode("utf-8", "surrogateescape"))
    return packed(text, chance.choice((40, LONGEST_LINE))).encode("utf-8", "surrogateescape") \
        if chance.random() < 0.5 else side


SIDE = ("capture-1.cap", "--side", "capture.side")


def sides(chance: random.Random, _: Stock, room: pathlib.Path) -> Iterator[Play]:
    session_in(chance, room)
    side, capture = room / "capture.side", room / "capture-1.cap"
    side.write_bytes(changed_lines(chance, in_some_form(chance, side.read_bytes())))
    if chance.random() < 0.2:
        capture.write_bytes(changed_capture(chance, capture.read_bytes(), chance.choice(CAPTURES).read_bytes()))
    yield view(chance, *SIDE)
    if chance.random() < 0.2:  # the script takes out the signs of a side list
        yield Play("./listing", (*SIDE, *narrowed(chance)), in_full=True)


def books(chance: random.Random, _: Stock, room: pathlib.Path) -> Iterator[Play]:
    """Changed books, whose lengths the side list has, so that they are read."""
    session_in(chance, room)
    side = (room / "capture.side").read_bytes()
    for path in sorted(room.iterdir()):
        if found := BOOKS.search(path.name):
            if chance.random() < 0.7:
                path.write_bytes(changed_lines(chance, path.read_bytes()))
            line = " ".join(("books", *found.groups())).encode()
            side = re.sub(rb"(%s .*bytes=)\d+" % line, rb"\g<1>%d" % path.stat().st_size, side)
    (room / "capture.side").write_bytes(changed_lines(chance, side) if chance.random() < 0.2 else side)
    yield view(chance, *SIDE)


# ---- tables of methods, and their sources


def methods(chance: random.Random, _: Stock, room: pathlib.Path) -> Iterator[Play]:
    (room / "sources").mkdir()
    for number in range(chance.choice((1, 1, 3))):
        source = chance.choice(SOURCES)
        (room / f"sources/{number}{source.suffix}").write_bytes(changed_source(chance, source.read_bytes()))
    yield Play("viewer/methods/table.py", ("sources",))
    if chance.random() < 0.5:
        session_in(chance, room)
        (room / "hostile.methods").write_bytes(changed_lines(chance, TABLE.read_bytes()))
        yield view(chance, *SIDE, "--methods", "hostile.methods")


# ---- kept databases, known defects, labs and results


def changed_rows(chance: random.Random, path: pathlib.Path) -> None:
    """Puts other values into a database, and takes rows, tables and views away."""
    with closing(sqlite3.connect(path, isolation_level=None)) as database, suppress(
            sqlite3.Error, OverflowError, UnicodeError):
        names = {kind: [name for name, in database.execute("SELECT name FROM sqlite_master WHERE type = ?", [kind])]
                 for kind in ("table", "view")}
        for _ in range(chance.choice((1, 1, 2, 5))):
            table, view_ = (chance.choice(names[kind] or [""]) for kind in ("table", "view"))
            columns = [row[1] for row in database.execute(f'PRAGMA table_info("{table}")')] or ["none"]
            value = chance.choice([it for it in VALUES if not isinstance(it, (list, dict))] + [b"\xff\0", 1.5])
            database.execute(*chance.choice((
                (f'UPDATE OR IGNORE "{table}" SET "{chance.choice(columns)}" = ? WHERE rowid % 3', [value]),
                (f'UPDATE OR IGNORE "{table}" SET "{chance.choice(columns)}" = ?', [value]),
                (f'DELETE FROM "{table}" WHERE rowid % 2',), (f'DROP TABLE "{table}"',), (f'DROP VIEW "{view_}"',),
                ("UPDATE capture SET value = ? WHERE key = ?", [value, chance.choice(("prints", "methods", "first_ts",
                                                                                      "until_ts", "file"))]),
                ("DELETE FROM capture WHERE key = ?", [chance.choice(("prints", "methods", "first_ts", "file"))]))))


def changed_database(chance: random.Random, path: pathlib.Path, database: bytes) -> None:
    path.write_bytes(changed_bytes(chance, database) if chance.random() < 0.3 else database)
    if path.read_bytes() == database:
        changed_rows(chance, path)


def databases(chance: random.Random, stock: Stock, room: pathlib.Path) -> Iterator[Play]:
    session_in(chance, room)
    changed_database(chance, room / "old.db", stock.kept)
    more = ("-o", "page.html") if chance.random() < 0.3 else ()
    if chance.random() < 0.3:
        (room / "known").write_bytes(changed_lines(chance, b"# known\n0123456789abcdef ticket 7\n" * 3))
        more += "--known", "known"
    yield Play("./view", (*SIDE, "--against", "old.db", *more))
    yield Play("./fleet", ("each", "SELECT * FROM capture", "old.db"))


QUESTIONS = (("since",), ("longest",), ("holds",), ("new", "old=b1", "new=b2", "devices=1"),
             ("called", "defect=d784601c9d15d559"), ("rate", "defect="), ("SELECT * FROM capture",), ("SELECT",))


def good_result(chance: random.Random, stock: Stock, build: str = "b2") -> dict:
    """A result of a build, and of one of a few devices."""
    result = chance.choice(stock.results)
    of = {"build": build, "device": f"d{chance.randrange(3)}", "digest": f"{chance.getrandbits(128):032x}"}
    return {**result, "capture": {**result["capture"], **of}}


def results(chance: random.Random, stock: Stock, room: pathlib.Path) -> Iterator[Play]:
    """Changed results, and a good one of each build after them, by which the builds can be compared."""
    (room / "results").mkdir()
    for number, text in enumerate(mutated_results(good_result(chance, stock), chance, 3)):
        (room / f"results/{number}.json").write_bytes(text)
    for build in ("b1", "b2"):
        (room / f"results/{build}.json").write_bytes(json.dumps(good_result(chance, stock, build)).encode())
    yield Play("./fleet", ("load", "LAB.db", "results"))
    yield Play("./fleet", ("compare", "LAB.db", "b1", "b2", "--least", "1", "--all"))
    yield Play("./fleet", ("ask", "LAB.db", *chance.choice(QUESTIONS)))


def labs(chance: random.Random, stock: Stock, room: pathlib.Path) -> Iterator[Play]:
    """A changed lab."""
    changed_database(chance, room / "old.db", stock.lab)
    (room / "new.json").write_bytes(json.dumps(good_result(chance, stock)).encode())
    for words in (("compare", "old.db", "b1", "b2", "--least", "1"), ("ask", "old.db", *chance.choice(QUESTIONS)),
                  ("load", "old.db", "new.json"), ("compare", "old.db", "b1", "b1")):
        yield Play("./fleet", words)


# ---- names of files

# Names that a shell, make, SQL, an option or a terminal takes for more than a name.
SIGNS = rb"-d -- a$b a#b e% f:g y;x b|c d&>pwned z`>pwned` a'b a\b a=b ~ * ? [x] {a,b} !x x?mode=ro %41 file:x"
NAMES = [name for name in (*map(encoded, WORDS), *SIGNS.split(), b'a"b', b"two words", b"a\nb", b"\xff\xfe", b"a" * 90)
         if 0 < len(name) < 100 and not re.search(rb"[\0/]", name)]


def name_of(chance: random.Random) -> str:
    """A name as Python has it in a command line."""
    return os.fsdecode(b"".join(chance.choices(NAMES, k=chance.choice((1, 1, 1, 2)))))


def no_file(chance: random.Random, path: pathlib.Path) -> None:
    """Something that is no file that has what is asked for."""
    how = chance.randrange(5)
    if how == 0:
        os.mkfifo(path)
    elif how == 1:
        path.mkdir()
    elif how == 2:
        path.symlink_to(chance.choice(("/dev/null", "/dev/stdin", "nowhere", "/proc/self/mem")))
    else:
        path.write_bytes(chance.choice((b"", b"a text\n", b"\xff" * 99, b"SQLite format 3\0", b"BNDRCAP2")))


def names(chance: random.Random, stock: Stock, room: pathlib.Path) -> Iterator[Play]:
    """A session whose files have hostile names, and may be no files."""
    folder, (capture, side, other, made) = chance.choice(SESSIONS), (name_of(chance) for _ in range(4))
    shutil.copyfile(folder / "capture-1.cap", room / f"{capture}.cap")
    shutil.copyfile(folder / "capture.side", room / f"{side}.side")
    (room / f"{other}.db").write_bytes(stock.kept)
    (room / f"{other}.methods").write_bytes(TABLE.read_bytes())
    if chance.random() < 0.3:
        wrong = room / chance.choice((f"{capture}.cap", f"{side}.side", f"{other}.db", f"{other}.methods"))
        wrong.unlink()
        no_file(chance, wrong)
    front = chance.choice(("", "./", "./"))
    words, more = (f"{front}{capture}.cap", f"--side={front}{side}.side"), chance.choice((
        ("--groups",), (f"-o{made}.html",), (f"--database={made}.db", "--groups"), (f"--trace={made}.json.gz",),
        (f"--against={front}{other}.db",), (f"--methods={front}{other}.methods", "--groups")))
    yield Play("./view", (*words, *more), chance.random() < 0.1)
    if not (room / f"{capture}.cap").is_fifo():  # the auditor waits for its writer
        yield Play("./audit", ("report", words[0]))
    yield chance.choice((
        Play("./fleet", ("each", "SELECT key FROM capture", f"{front}{other}.db")),
        Play("./fleet", ("load", f"./{made}.db", f"{front}{other}.db")),
        Play("./fleet", ("ask", f"{front}{other}.db", "since")),
        Play("viewer/methods/table.py", (f"{front}{other}.methods", f"{front}{capture}.cap")),
        Play("./fleet", ("one", *words, f"--build={capture}", f"--device={side}", f"-o{made}.json"))))


def sessions_of_lab(chance: random.Random, stock: Stock, room: pathlib.Path) -> Iterator[Play]:
    """A lab of one good session, which is done, and of others whose names are hostile."""
    good = room / "lab/b1/d1/good.cap"
    for _ in range(chance.choice((1, 1, 2))):
        parts = ["b1", "d1", "s"]
        parts[chance.randrange(3)] = name_of(chance)
        path = room / "lab" / "/".join(parts)
        path.parent.mkdir(parents=True, exist_ok=True)
        shutil.copyfile(SMALL[0], f"{path}.cap")
    good.parent.mkdir(parents=True, exist_ok=True)
    shutil.copyfile(SMALL[0], good)
    done = room / "lab/results/b1/d1/good.json"
    done.parent.mkdir(parents=True)
    done.write_bytes(json.dumps(stock.results[0]).encode())
    yield Play("lab/sessions.py", ("lab",))
    yield Play("make", ("-s", "-k", "-f", str(ROOT / "lab/Makefile"), "LAB=lab"))


KINDS: dict[str, Kind] = {"captures": captures, "arguments": arguments, "sides": sides, "books": books,
                          "methods": methods, "databases": databases, "results": results, "labs": labs, "names": names,
                          "sessions": sessions_of_lab}
