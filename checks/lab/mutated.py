"""Results that others may have written: a good one, changed by chance. `fleet` must take each as it is, or leave it out
with a line; whatever it has, nothing else is lost, and no terminal is moved."""

import copy
import json
import os
import pathlib
import random
import sqlite3
from typing import Iterator

from checks.kit.checking import Fail, compare
from checks.lab.played import played
from lab import result
from lab.form import LATER, ROWS, Unfolding
from viewer.terminal import is_sign

# Where a result has another value than one that it may have.
VALUES = (None, True, False, 0, -1, 2**31, 2**63 - 1, 2**63, -2**63 - 1, 2**70, 0.5, 1e308, float("nan"), float("inf"),
          "", "x", "b2", "real", "0123456789abcdef", "\ud800", "\x1b]0;owned\x07\x1b[31m", "line\nfeed\ttab", "\u202e",
          "\x00", "\x9b31m", "'); DROP TABLE capture; --", "x" * 3000, [], [[]], [None], {}, {"key": 1})

# Files that are no results.
TEXTS = (b"", b"{", b"null", b"[]", b"{}", b"[" * 60_000, b'{"capture":' * 5_000, b"\xff\xfe{}", b"x" * 100_000,
         b"1" * 5_000, b'{"capture":{}}', b"\xef\xbb\xbf{}")

Path = tuple[str | int, ...]


def places(value: object, path: Path = ()) -> Iterator[Path]:
    """The way to each value in a result."""
    yield path
    if isinstance(value, (dict, list)):
        for key, below in value.items() if isinstance(value, dict) else enumerate(value):
            yield from places(below, (*path, key))


def parent_of(made: dict, path: Path) -> dict | list:
    for key in path[:-1]:
        made = made[key]  # type: ignore[index]
    return made


def change(chance: random.Random, made: dict) -> None:
    """Changes a value, takes it away, doubles a row, or puts a value where another one was."""
    # First a part, so that what says most is changed as often as the many rows.
    part = chance.choice(list(made))
    path = chance.choice(list(places(made[part], (part,))))
    of, key = parent_of(made, path), path[-1]
    how = chance.randrange(6)
    if how == 0:
        del of[key]  # type: ignore[arg-type]
    elif how == 1 and isinstance(of, list):
        of.append(copy.deepcopy(of[key]))  # type: ignore[index]
    elif how == 2:
        of[key] = copy.deepcopy(made[chance.choice(list(made))])  # type: ignore[index]
    else:
        of[key] = copy.deepcopy(chance.choice(VALUES))  # type: ignore[index]


def changed_text(chance: random.Random, text: bytes) -> bytes:
    """Flips a bit, cuts the text, or takes out or doubles a piece."""
    at, length = chance.randrange(len(text)), chance.randrange(1, 200)
    return chance.choice((
        text[:at] + bytes([text[at] ^ 1 << chance.randrange(8)]) + text[at + 1:], text[:at],
        text[:at] + text[at + length:], text[:at] + text[at:at + length] + text[at:]))


def by_rows(made: dict) -> dict:
    """A result that was read, with lists of rows in the place of columns."""
    return {**made, **{name: [*made[name]] for name in ROWS}}


def mutated_results(good: dict, chance: random.Random, count: int) -> Iterator[bytes]:
    """So many results, each of a capture of its own and of one of a few builds."""
    for number in range(count):
        made = copy.deepcopy(good) if number % 2 else json.loads(result.text_of(good))  # of form 1 and of form 3
        made["capture"] |= {"digest": f"{number:032x}", "build": f"b{number % 3}", "device": f"d{number % 5}"}
        if chance.random() < 0.05:
            yield chance.choice(TEXTS)
            continue
        for _ in range(chance.choice((0, 1, 1, 1, 2, 5))):
            if made:
                change(chance, made)
        text = json.dumps(made, ensure_ascii=chance.random() < 0.5).encode("utf-8", "surrogatepass")
        yield changed_text(chance, text) if chance.random() < 0.1 else text


# ---- results that are wrong in one thing

# The way to a value, another value, and what the line says.
WRONG: tuple[tuple[Path, object, str], ...] = (
    (("talk", 0), [], "talk[0] is no object"), (("found",), 5, "found is no list"),
    (("held",), None, "held is no list"), (("capture",), "x", "capture is no object"),
    (("capture", "bytes"), 2**70, "capture.bytes is not a whole number"),
    (("capture", "frames"), True, "capture.frames is not a whole number"),
    (("capture", "made"), float("nan"), "capture.made is not a number"),
    (("capture", "build"), "\ud800", "capture.build is not a name"), (("capture", "device"), "", "is not a name"),
    (("capture", "digest"), "x", "capture.digest is not 32 hexadecimal digits"),
    (("found", 0, "verdict"), "good", "found[0].verdict is not a verdict"),
    (("found", 0, "who"), None, "found[0].who is not a text"))

NO_RESULTS = ((b"[" * 60_000, "it is no JSON"), (b"\xff", "it is no JSON"), (b"[]", "it is no object"),
              (b"", "it is no JSON"), (b" " * (2**20 + 1), "it has more than 1,048,576 bytes"))

# The same of a file of form 3, and of one of form 2.
WRONG_FILES: tuple[tuple[Path, object, str], ...] = (
    (("form",), 4, "it is of form 4, and not of form 3 or before"), (("form",), "2", "it is of form '2'"),
    (("names",), None, "names is no list"), (("names", 0), "\ud800", "found[0].kind is not a text"),
    (("names", 0), 5, "found[0].kind is not a text"), (("talk",), [], "talk is no object"),
    (("talk", "caller"), 5, "talk.caller is no list"), (("held", "refs"), [], "held.refs has 0 values for"),
    (("talk", "sends"), {}, "talk[0].sends is not a whole number"),
    (("talk", "bytes"), 2**63, "talk[0].bytes is not a whole number"),
    (("found", "kind"), 99_999, "found[0].kind is no place in names"),
    (("found", "kind"), -1, "found[0].kind is no place in names"),
    (("found", "kind"), True, "found[0].kind is no place in names"),
    (("found", "n"), None, "found[0].n is not a whole number"), (("times",), 5, "times is no object"),
    (("found", "key", 0), 0, "found[0].key is not 16 hexadecimal digits"))
WRONG_BEFORE: tuple[tuple[Path, object, str], ...] = (
    (("talk",), [], "talk has no columns and rows"), (("talk", "columns"), 5, "talk has no columns and rows"),
    (("talk", "columns", 0), [], "talk has no columns"),
    (("held", "columns"), [], "held.rows[0] is no row of 0 values"),
    (("found", "rows", 0), [], "found.rows[0] is no"),
    (("found", "rows", 0, 2), 99_999, "found[0].kind is no place in names"),
    (("found", "rows", 0, 0), 0, "found[0].key is not 16 hexadecimal digits"))


def of_form_2(good: dict) -> dict:
    """A result as earlier versions wrote it, without times of methods."""
    made = json.loads(result.text_of(good))
    lists = {name: Unfolding(made, 3).of_columns(name, made[name]) for name in ROWS if name not in LATER}
    return {**{name: made[name] for name in ("capture", "names")}, "form": 2,
            **{name: {"columns": [*columns], "rows": [*zip(*columns.values())]} for name, columns in lists.items()}}


def wrong_results(good: dict) -> Iterator[tuple[bytes, str]]:
    yield from NO_RESULTS
    for path, value, says in WRONG:
        made = copy.deepcopy(good)
        parent_of(made, path)[path[-1]] = value  # type: ignore[index]
        yield json.dumps(made).encode(), says
    yield json.dumps({**good, "found": [good["found"][0]] * 2}).encode(), "found has a key twice"
    for wrong, file in (WRONG_FILES, json.loads(result.text_of(good))), (WRONG_BEFORE, of_form_2(good)):
        for path, value, says in wrong:
            made = json.loads(json.dumps(file))
            parent_of(made, path)[path[-1]] = value  # type: ignore[index]
            yield json.dumps(made).encode(), says


def check_wrong(folder: pathlib.Path, room: pathlib.Path, good: dict, fail: Fail) -> None:
    """Each has a line that says what is wrong, and the good one beside them is loaded. So is no pipe waited for."""
    results = room / "wrong-results"
    results.mkdir()
    due = {}
    for number, (text, says) in enumerate(wrong_results(good)):
        due[f"{number}.json"] = says
        (results / f"{number}.json").write_bytes(text)
    os.mkfifo(results / "pipe.json")
    due["pipe.json"] = "it is no file"
    (results / "z.json").write_text(result.text_of(good), "utf-8")
    # As earlier versions wrote it.
    older, before = ({**good, "capture": {**good["capture"], "digest": sign * 32}} for sign in "01")
    (results / "older.json").write_text(json.dumps({name: older[name] for name in older if name not in LATER}), "utf-8")
    (results / "before.json").write_text(json.dumps(of_form_2(before)), "utf-8")
    status, out, err = played(folder / "fleet", "load", room / "wrong.db", results)
    compare("wrong results: status, output", (status, out), (4, "3 added, 0 there already\n"), fail)
    for old in older, before:
        compare("an older result", *(sqlite3.connect(room / "wrong.db").execute(
            "SELECT count(*), sum(n), sum(length(kind)), sum(length(f.path)), (SELECT sum(sends) FROM talk t"
            " WHERE t.capture = c.id) FROM found f JOIN defect d ON d.id = f.defect"
            " JOIN capture c ON c.id = f.capture WHERE c.digest = ?", (of["capture"]["digest"],)).fetchone()
            for of in (old, good)), fail)
    lines = err.splitlines()
    compare("wrong results: lines", len(lines), len(due), fail)
    for name, says in due.items():
        told = [line for line in lines if line.startswith(f"fleet: {results / name}: ")]
        compare(f"{name}: {told} says {says!r}", len(told) == 1 and says in told[0], True, fail)


# ---- mutated ones


def check_said(what: str, ended: tuple[int, str, str], statuses: set[int], fail: Fail) -> list[str]:
    """A documented status, no words of Python, and no sign that a terminal obeys. Returns the lines that were told."""
    status, out, err = ended
    compare(f"{what}: status {status} is one of {sorted(statuses)}", status in statuses, True, fail)
    compare(f"{what}: signs", {one for one in out + err if is_sign(one) and one not in "\t\n"}, set(), fail)
    told = err.splitlines()
    compare(f"{what}: lines of others", [line for line in told if not line.startswith("fleet: ")][:3], [], fail)
    return told


def check_mutated(folder: pathlib.Path, room: pathlib.Path, good: dict, count: int, fail: Fail) -> str:
    """Loads mutated results at once, and one that is good. Returns how many were taken."""
    results, lab = room / "mutated", room / "mutated.db"
    results.mkdir()
    for number, text in enumerate(mutated_results(good, random.Random(count), count)):
        (results / f"{number}.json").write_bytes(text)
    digest = "f" * 32
    one = {**good, "capture": {**good["capture"], "digest": digest}}
    (results / "good.json").write_text(result.text_of(one), "utf-8")

    def fleet(*words: object) -> tuple[int, str, str]:
        return played(folder / "fleet", *words)

    ended = fleet("load", lab, results)
    told = check_said("load", ended, {4}, fail)
    added, there = map(int, ended[1].split()[0::2][:2]) if ended[1] else (0, 0)
    left_out = len([line for line in told if ".json: " in line])
    compare("each result is in the lab, or has a line", added + there + left_out, count + 1, fail)
    database = sqlite3.connect(lab)
    compare("the good one is in the lab", database.execute("SELECT count(*) FROM capture WHERE digest = ?",
                                                           (digest,)).fetchone(), (1,), fail)
    compare("the lab is whole", database.execute("PRAGMA integrity_check").fetchone(), ("ok",), fail)
    compare("captures in the lab", database.execute("SELECT count(*) FROM capture").fetchone(), (added,), fail)
    builds = [build for build, in database.execute("SELECT build FROM capture GROUP BY 1 ORDER BY count(*) DESC")]
    for build in (*builds[1:3], *(it for it in builds if not it.isalnum() and "\0" not in it)):
        check_said(f"compare with build {build!a}",
                   fleet("compare", lab, builds[0], build, "--least", "1", "--all"), {0, 1, 10}, fail)
    for question in ("since", "longest", "holds", "SELECT * FROM capture JOIN found f ON f.capture = capture.id"):
        check_said(f"ask {question}", fleet("ask", lab, question), {0}, fail)
    return f"{added} results added, {there} there already, {left_out} left out"
