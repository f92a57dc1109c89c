"""Checks `fleet`: results, labs, and how builds are compared.

    checks/run fleet                           makes a lab of 200 results, and one of a few captures
    checks/run fleet -- --results N            makes a lab of N results; prints what each step took
    checks/run fleet -- --slurm [N]            makes 60 captures by Slurm on this machine, in tasks of N or of as many
                                               as take a minute, with a task and a node killed; by hand, as root, with
                                               Debian's slurmctld, slurmd and munge
    checks/run fleet -- --make                 makes 60 captures by lab/Makefile, while disks become full, and it and
                                               its jobs are killed; by hand
    checks/run fleet -- --mutated N            loads N mutated results; prints how many were taken
    checks/run fleet -- --full                 fills a disk at each of all writes, and not at some; prints how many
    checks/run fleet -- --nightly N            makes N captures of each of four builds, with planted changes; prints
                                               what is told of each pair
    checks/run fleet -- --browser              looks at the page of a lab in chromium
    checks/run fleet -- --alike                makes the results of all stored captures in one process, and in several
    checks/run fleet -- --cut                  cuts all stored captures in front; prints how many keys are the same
    checks/run fleet -- --two FOLDER FOLDER    prints which keys only one of two recordings of the same sessions has, as
                                               `checks/run driver` leaves them for two kernels

What must hold:

- A capture has a result. A malformed one, one with a wrong side list or that of another, and one that takes too long
  have a result that says so. None has more than 64 KB when it is packed. There is none, and a line says why, if another
  run may do better.
- The disk of scratch, or of results, may become full at any write: then there is no result, or a whole one.
- A lab of results, which are made of stored captures put together in many ways, with a fault put into one build:
  however many loaders there are, killed or not, in whatever order, each capture counts once. What the lab has does
  not depend on the order.
- The fault is the only new line of that build, and the only one that is gone in the build in which it is mended.
  Another one grows. Malformed and failed captures are told apart, and count for nothing.
- Keys of two designs, with and without tables of methods, and with side lists on one side alone, are refused.
- Of results that are none each has a line that says why, and the others are loaded. Mutated ones are loaded whole or
  have such a line, and nothing in them moves a terminal.
- Each question that has a name has an answer, and so has SQL. `each` asks kept databases. What can't be done is told in
  a line.
- In a capture that is cut in front, defects have the keys of the whole one, but where a name is not known.
- The page of a lab says of planted changes what became of them, loads nothing, and its commands show what they name.
- Known defects do not fail, and a line names one that does not occur.
- Results that one process makes one after another are those that each capture has alone, in whatever order. What ends
  the process takes no result with it.
- lab/Makefile makes a result of each session, also of several parts; again only of what changed; and what is killed is
  done by the next call. Nothing is left in TMPDIR.
- Names that make or a shell would obey are refused by a line each, and the other sessions are done; by Slurm too.
"""

import argparse
import contextlib
import copy
import hashlib
import json
import multiprocessing
import os
import pathlib
import random
import shutil
import sqlite3
import subprocess
import time
import zlib
from typing import Iterator

from checks.kit.checking import FLAG, Fail, check, compare
from checks.kit.programs import DRIVER, built_programs
from checks.kit.runs import answer
from checks.lab.full_disk import check_full_disk
from checks.lab.keys import CUT, check_keys_of_cut, print_keys_of_two
from checks.lab.lab_page import check_browser, check_commands, check_page, check_page_of_strangers
from checks.lab.mutated import by_rows, check_mutated, check_wrong
from checks.lab.names import check_names, made_up
from checks.lab.nightly import check_nightly
from checks.lab.nodes import check_by_make, check_by_slurm
from checks.lab.one_after_another import check_one_after_another
from checks.lab.tried_again import check_tried_again
from checks.lab.words import check_words
from lab import result
from lab.first_seen import FIRST
from lab.form import unfolded
from lab.store import OF_CAPTURE, open_lab
from viewer.units import defect_key

# The captures whose defects each made-up session has, and those that few have.
COMMON, RARE = ("hello-sessions", "leaks", "oneway", "quarter"), ("twice", "hung", "mourned")
# The fault that is put into one build, and mended in another; and the one that grows.
PLANTED, GROWING = "hello-answers", "replies"
# How many mutated results are loaded without --mutated.
MUTATED = 100


def fleet(folder: pathlib.Path, *words: object, **options: object) -> tuple[int, str, str]:
    return answer([folder / "fleet", *map(str, words)], timeout=600, encoding="utf-8", **options)


def stored(name: str) -> list[object]:
    return [DRIVER / name / "capture-1.cap", "--side", DRIVER / name / "capture.side"]


def made_of(folder: pathlib.Path, room: pathlib.Path, name: str, *more: object) -> dict:
    """The result of a stored capture."""
    to = room / f"{name}.json"
    fleet(folder, "one", *stored(name), "--build", "b1", "--device", "d1", "-o", to, *more)
    return by_rows(unfolded(json.loads(to.read_text("utf-8")))[0])


# ---- results


def check_results(folder: pathlib.Path, room: pathlib.Path, fail: Fail) -> None:
    whole = made_of(folder, room, "leaks")
    compare("a result: kinds", "received transactions never freed" in {it["kind"] for it in whole["found"]}, True,
            fail)
    compare("a result: who talks", {it["call"] for it in whole["talk"]} >= {"code 1", "code 2"}, True, fail)
    compare("a result: the digest", len(whole["capture"]["digest"]), 32, fail)
    cut = room / "cut.cap"
    cut.write_bytes((DRIVER / "leaks/capture-1.cap").read_bytes()[:3001])
    said = (("malformed", [cut], [], "malformed "),
            ("failed", [DRIVER / "leaks/capture-1.cap", "--side", DRIVER / "hung/capture.side"], [], "view: "),
            ("failed", stored("leaks"), ["--seconds", "0.01"], "it took longer than 0.01 s"))
    for number, (how, words, more, begin) in enumerate(said):
        to = room / f"said-{number}.json"
        status, _, told = fleet(folder, "one", *words, "--build", "b1", "--device", "d1", "-o", to, *more)
        capture = json.loads(to.read_text("utf-8"))["capture"] if to.exists() else {}
        compare(f"a result that says {how}", (status, str(capture.get(how)).startswith(begin), bool(told)),
                (0, True, True), fail)
    compare("no file", fleet(folder, "one", "none.cap", "--build", "b", "--device", "d", "-o", room / "n.json")[0], 4,
            fail)
    compare("no file: no result", (room / "n.json").exists(), False, fail)
    check_killed(folder, room, fail)
    check_bound(whole, fail)


def check_killed(folder: pathlib.Path, room: pathlib.Path, fail: Fail) -> None:
    """A job that is killed has no result, and leaves nothing for long."""
    fake = made_up(room / "fake", "#!/bin/sh\ntouch \"$TMPDIR/big\"\n[ -e go ] || sleep 60\nkill -9 $$\n")
    scratch = room / "scratch"
    scratch.mkdir()
    words = [fake / "fleet", "one", *stored("leaks"), "--build", "b", "--device", "d", "-o", room / "killed.json"]
    options = {"cwd": room, "env": {**os.environ, "TMPDIR": str(scratch)}, "stderr": subprocess.DEVNULL}
    job = subprocess.Popen(list(map(str, words)), **options)
    until = time.monotonic() + 20
    while not list(scratch.glob("fleet-*/big")) and time.monotonic() < until:
        time.sleep(0.02)
    job.kill()
    job.wait()
    left = len(list(scratch.iterdir())), (room / "killed.json").exists()
    compare("a killed job: scratch, result", left, (1, False), fail)
    (room / "go").touch()
    subprocess.run(list(map(str, words)), **options)
    compare("after a killed job: scratch", list(scratch.iterdir()), [], fail)


def check_bound(whole: dict, fail: Fail) -> None:
    """A capture like a phone's has a whole result. However much there is, a result is short, and its defects are the
    last to go."""
    chance, phone, large = random.Random(1), copy.deepcopy(whole), copy.deepcopy(whole)
    # 24 processes, which have 1,200 sorts of calls.
    phone["talk"] = [{**whole["talk"][0], "caller": f"process.number.{row % 24} on binder", "server":
                      f"process.number.{row // 50} on binder", "call": f"org.example.IInterface{row // 50}.method{row}",
                      "sends": chance.randrange(1000), "longest": chance.randrange(10**9)} for row in range(1200)]
    came, why = unfolded(json.loads(result.text_of(result.bounded(phone))))
    compare("a result like a phone's", (by_rows(came), why),
            ({**phone, "capture": {**phone["capture"], "left_out": 0}}, None), fail)
    row = {**whole["talk"][0], "caller": "x" * 400}
    large["talk"] = [{**row, "longest": chance.getrandbits(60)} for _ in range(20_000)]
    bounded = result.bounded(large)
    text = result.text_of(bounded).encode()
    compare("a long result", (len(text) <= 2**20, 2**16 - 100 < len(zlib.compress(text)) <= 2**16,
                              len(bounded["found"]), bounded["capture"]["left_out"] + len(bounded["talk"])),
            (True, True, len(whole["found"]), 20_000), fail)
    bounded = result.bounded({**large, "found": [{**whole["found"][0], "note": f"{chance.getrandbits(2000):x}"}
                                                 for _ in range(2000)]})
    compare("a result of very many defects", (result.fits(bounded), 0 < len(bounded["found"]) < 2000, bounded["talk"]),
            (True, True, []), fail)


# ---- a lab of results that are made up of stored ones


def bases(folder: pathlib.Path, room: pathlib.Path) -> dict[str, dict]:
    """The results of stored captures, each with programs of its own: the captures have some names in common."""
    found = {}
    for name in (*COMMON, *RARE, PLANTED, GROWING):
        made = made_of(folder, room, name)
        for it in made["found"]:
            it["who"] = f"{name}.{it['who']}"
            it["key"] = defect_key(it["kind"], it["who"], it["path"])
        for it in made["talk"]:
            it["caller"], it["server"] = f"{name}.{it['caller']}", f"{name}.{it['server']}"
        for it in made["held"]:
            it["process"] = f"{name}.{it['process']}"
        found[name] = made
    return found


def session_of(of: dict[str, dict], names: list[str], build: str, device: str, number: int, times: int) -> dict:
    """A result with the defects of these, and with the programs of all that are common. The growing ones have so many
    times as many findings."""
    capture = {**of[COMMON[0]]["capture"], "build": build, "device": device, "made": 1000.0 + number, "seconds": 600.0,
               "digest": hashlib.blake2b(f"{build} {device} {number}".encode(), digest_size=16).hexdigest()}
    found = [{**it, "n": it["n"] * (times if name == GROWING else 1)} for name in names for it in of[name]["found"]]
    programs = dict.fromkeys([*COMMON, GROWING, PLANTED, *names])
    return {"capture": capture, "found": found, "talk": [it for name in programs for it in of[name]["talk"]],
            "held": [it for name in programs for it in of[name]["held"]]}


def sessions(of: dict[str, dict], count: int) -> Iterator[dict]:
    """So many results, of five builds and as many devices as give each of them some. The fault comes in b3, and is
    mended in b5; another one grows in b4. A few captures are malformed, and a few failed."""
    chance, builds = random.Random(count), [f"b{number}" for number in range(1, 6)]
    devices = max(8, count // 100)
    for number in range(count):
        build, device = builds[number % 5], f"d{number // 5 % devices}"
        names = [*COMMON, GROWING, *(name for name in RARE if chance.random() < 0.01)]
        planted = {"b3": 0.7, "b4": 0.7}.get(build, 0)
        made = session_of(of, names + [PLANTED] * (chance.random() < planted), build, device, number,
                          5 if build >= "b4" else 1)
        if number % 50 == 6:  # of b2, with the fault, which must not count
            made = {**session_of(of, [PLANTED], build, device, number, 1), "talk": [], "held": []}
            made["capture"]["malformed"] = "malformed FrameShort at 100"
        if number % 50 == 23:
            made = {"capture": {**made["capture"], "failed": "killed by signal 9"}, "found": [], "talk": [], "held": []}
        yield made


def write_results(room: pathlib.Path, made: Iterator[dict]) -> int:
    for number, one in enumerate(made):
        path = room / one["capture"]["build"] / one["capture"]["device"] / f"{number}.json"
        path.parent.mkdir(parents=True, exist_ok=True)
        path.write_text(result.text_of(one), "utf-8")
    return number + 1


def content(lab: pathlib.Path) -> list[list]:
    """What a lab has, whatever the order in which it came."""
    database = sqlite3.connect(lab)
    asked = ["SELECT digest, build, device, made, malformed, failed FROM capture ORDER BY digest",
             "SELECT * FROM defect ORDER BY id"]
    asked += [f"SELECT c.digest, t.* FROM {table} t JOIN capture c ON c.id = t.capture" for table in
              ("found", "talk", "held")]
    return [sorted(map(repr, ([it[0], *it[2:]] if "t.*" in one else it for it in database.execute(one))))
            for one in asked]


def load_by_four(folder: pathlib.Path, room: pathlib.Path, count: int, fail: Fail) -> None:
    """Four loaders at once, of which one is killed; then one more."""
    lab, results = room / "lab.db", room / "results"
    words = [folder / "fleet", "load", lab, results]
    four = [subprocess.Popen(list(map(str, words)), stdout=subprocess.DEVNULL) for _ in range(4)]
    time.sleep(0.3 if count < 1000 else 3)
    four[0].kill()
    statuses = [one.wait(600) for one in four]
    compare("four loaders", statuses[1:], [0, 0, 0], fail)
    compare("a load again", fleet(folder, "load", lab, results), (0, f"0 added, {count} there already\n", ""), fail)
    database = sqlite3.connect(lab)
    compare("captures in the lab", database.execute("SELECT count(*), count(DISTINCT digest) FROM capture").fetchone(),
            (count, count), fail)
    compare("the lab is whole", database.execute("PRAGMA integrity_check").fetchone(), ("ok",), fail)
    if count <= 1000:
        other = room / "other.db"
        backwards = sorted(map(str, results.rglob("*.json")), reverse=True)
        for some in (backwards[100:], backwards):
            fleet(folder, "load", other, *some)
        compare("a lab that is loaded backwards", content(other) == content(lab), True, fail)


def changes_of(lines: str) -> dict[str, list[str]]:
    """Who has what is new, gone and so on, without what is the same, or only first seen."""
    found: dict[str, list[str]] = {}
    for line in lines.splitlines():
        if len(fields := line.split("\t")) > 5 and fields[0] != FIRST:
            found.setdefault(fields[0], []).append(fields[3].partition(".")[0])
    return {what: sorted(set(who)) for what, who in found.items()}


def check_compared(folder: pathlib.Path, room: pathlib.Path, fail: Fail) -> str:
    """Returns the key of the planted fault."""
    lab = room / "lab.db"
    due = {("b1", "b2"): (0, {}), ("b2", "b3"): (10, {"new": [PLANTED]}), ("b3", "b4"): (0, {"grown": [GROWING]}),
           ("b4", "b5"): (0, {"gone": [PLANTED]})}
    for builds, (status, changes) in due.items():
        came = fleet(folder, "compare", lab, *builds)
        compare(f"compare {builds}", (came[0], changes_of(came[1])), (status, changes), fail)
    lines = fleet(folder, "compare", lab, "b2", "b3")[1].splitlines()
    key = next((line.split("\t")[-1] for line in lines if line.startswith("new") and "IHello code" in line), "")
    compare("malformed and failed are told apart", [line.count("malformed, ") for line in lines[-2:]], [1, 1], fail)
    news = [line.split("\t")[-1] for line in lines if line.startswith("new\t")]
    (room / "known").write_text("# known\n\n" + "".join(f"{it}\tticket 7\n" for it in news) + "0" * 16 + " mended\n",
                                "utf-8")
    status, out, _ = fleet(folder, "compare", lab, "b2", "b3", "--known", room / "known")
    compare("known defects", (status, out.splitlines()[-1]), (0, f"known\t{'0' * 16}\tdoes not occur\tmended"), fail)
    (room / "wrong").write_text("no key\n", "utf-8")
    compare("no known defects", fleet(folder, "compare", lab, "b2", "b3", "--known", room / "wrong")[0], 4, fail)
    compare("a build that is not there", fleet(folder, "compare", lab, "b2", "b9")[0], 1, fail)
    return key


def check_refused(folder: pathlib.Path, room: pathlib.Path, of: dict[str, dict], fail: Fail) -> None:
    """Keys that are not alike are not compared."""
    for name, change in (("prints", {"prints": 99}), ("methods", {"methods": 3}), ("side", {"side": 0})):
        lab = room / f"{name}.db"
        some = [session_of(of, list(COMMON), build, "d", at, 1) for at, build in enumerate(("old", "new"))]
        some[1]["capture"].update(change)
        for at, one in enumerate(some):
            (room / f"{name}-{at}.json").write_text(result.text_of(one), "utf-8")
        fleet(folder, "load", lab, room / f"{name}-0.json", room / f"{name}-1.json")
        status, out, told = fleet(folder, "compare", lab, "old", "new")
        compare(f"a mix of {name}", (status, out, told.count("\n")), (1, "", 1), fail)


def check_not_met(folder: pathlib.Path, room: pathlib.Path, of: dict[str, dict], fail: Fail) -> None:
    """What a build does not have is gone only if its calls were made there."""
    lab, files = room / "met.db", []
    for build, is_called in (("old", True), ("called", True), ("new", False)):
        for device in "d1", "d2":
            made = session_of(of, [PLANTED] * (build == "old"), build, device, 1, 1)
            if not is_called:
                made["talk"] = [it for it in made["talk"] if not it["caller"].startswith(PLANTED)]
            files.append(room / f"met-{build}-{device}.json")
            files[-1].write_text(result.text_of(made), "utf-8")
    fleet(folder, "load", lab, *files)
    for build, due in (("called", set()), ("new", {"IHello code 1"})):
        _, lines, _ = fleet(folder, "compare", lab, "old", build, "--all")
        not_met = [line for line in lines.splitlines() if line.startswith("not met")]
        came = {"IHello code 1" for line in not_met if "IHello code 1 " in line}
        compare(f"what is not met in {build}", came, due, fail)


def check_better(folder: pathlib.Path, room: pathlib.Path, of: dict[str, dict], fail: Fail) -> None:
    """Of results of one capture the latest counts that did not fail, in whatever order they come."""
    first = session_of(of, list(COMMON), "old", "d", 1, 1)
    later = copy.deepcopy(first)
    later["capture"].update(build="later", made=2000.0)
    bad = {"capture": {**first["capture"], "build": "bad", "made": 3000.0, "failed": "why"}, "found": [], "talk": [],
           "held": []}
    for at, one in enumerate((first, later, bad)):
        (room / f"better-{at}.json").write_text(result.text_of(one), "utf-8")
    for order in ((0, 1, 2), (2, 1, 0), (1, 2, 0)):
        lab = room / f"better{''.join(map(str, order))}.db"
        told = [fleet(folder, "load", lab, room / f"better-{at}.json")[2] for at in order]
        compare(f"results of one capture, of several builds, {order}", [it.count("\n") for it in told], [0, 1, 1], fail)
        database = sqlite3.connect(lab)
        compare(f"results of one capture, {order}", [database.execute("SELECT build FROM capture").fetchall(), database
                .execute("SELECT count(DISTINCT capture) FROM found").fetchone()], [[("later",)], (1,)], fail)
    with contextlib.closing(sqlite3.connect(lab, isolation_level=None)) as database:
        for table in ("capture", *OF_CAPTURE):
            database.execute(f"DELETE FROM {table}")
    compare("a capture that was taken out of the lab", fleet(folder, "load", lab, room / "better-0.json")[:2],
            (0, "1 added, 0 there already\n"), fail)
    (room / "no.json").write_text("{}", "utf-8")
    status, out, told = fleet(folder, "load", room / "lab.db", room / "no.json")
    compare("what is no result", (status, out, told.count("\n")), (4, "0 added, 0 there already\n", 1), fail)


def check_asked(folder: pathlib.Path, room: pathlib.Path, key: str, fail: Fail) -> None:
    lab = room / "lab.db"
    asked = {"new": (["old=b2", "new=b3", "devices=2"], PLANTED), "since": ([], "\tb3\tb4\t"),
             "rate": ([f"defect={key}"], "\nb3\t"), "longest": ([], " code "), "holds": ([], " on binder\tb"),
             "called": ([f"defect={key}"], "\nb3\t"), "where": ([f"defect={key}"], "\nb3\t"),
             "SELECT count(*) AS n FROM capture": ([], "n\n")}
    for question, (values, due) in asked.items():
        status, out, told = fleet(folder, "ask", lab, question, *values)
        compare(f"ask {question}", (status, due in out, told), (0, True, ""), fail)
    for question in ("new", "DELETE FROM capture", "SELECT * FROM none", "-"):
        compare(f"ask {question}", fleet(folder, "ask", lab, question)[0], 64, fail)


def make_at_once(room: pathlib.Path, fail: Fail) -> None:
    """Eight processes that find no lab, and make it at the same moment; twenty times, because few collide."""
    moment = multiprocessing.Barrier(8)

    def make(lab: pathlib.Path) -> None:
        moment.wait()
        open_lab(str(lab), may_make=True).close()

    for number in range(20):
        eight = [multiprocessing.Process(target=make, args=[room / f"new-{number}.db"]) for _ in range(8)]
        for one in eight:
            one.start()
        for one in eight:
            one.join(600)
        compare("eight that make one lab", [one.exitcode for one in eight], [0] * 8, fail)


def check_each(folder: pathlib.Path, room: pathlib.Path, fail: Fail) -> None:
    kept = []
    for name in ("leaks", "hung"):
        subprocess.run([folder / "view", *stored(name), "--groups", "--database", room / f"{name}.db"],
                       stdout=subprocess.DEVNULL)
        kept.append(room / f"{name}.db")
    came = fleet(folder, "each", "SELECT value FROM capture WHERE key = 'frames'", *kept)
    compare("each", (came[0], [line.split("\t")[0] for line in came[1].splitlines()]), (0, list(map(str, kept))), fail)
    compare("each, of no database", fleet(folder, "each", "SELECT 1", room / "known")[0], 4, fail)
    with contextlib.closing(sqlite3.connect(kept[0], isolation_level=None)) as database:
        database.execute("UPDATE capture SET value = CAST(x'ff' AS TEXT) WHERE key = 'file'")
        database.execute("DELETE FROM capture WHERE key IN ('prints', 'methods')")
    came = fleet(folder, "each", "SELECT value FROM capture WHERE key IN ('file', 'prints')", kept[0])
    compare("each, of a changed database", came, (0, f"{kept[0]}\t\ufffd\n", ""), fail)
    came = fleet(folder, "each", "SELECT none FROM capture", kept[0])
    compare("each, of no column", (came[0], came[1], came[2].count("\n")), (64, "", 1), fail)


def check_lab(folder: pathlib.Path, room: pathlib.Path, count: int, tell: bool, fail: Fail) -> None:
    begun = time.monotonic()

    def took(what: str) -> None:
        nonlocal begun
        if tell:
            print(f"{what}: {time.monotonic() - begun:.2f} s", flush=True)
        begun = time.monotonic()

    of = bases(folder, room)
    (room / "results").mkdir()
    write_results(room / "results", sessions(of, count))
    took(f"{count} results")
    load_by_four(folder, room, count, fail)
    took("four loaders and one more")
    make_at_once(room, fail)
    took("eight that make one lab, twenty times")
    key = check_compared(folder, room, fail)
    took("seven comparisons")
    check_asked(folder, room, key, fail)
    took("questions")
    check_refused(folder, room, of, fail)
    check_not_met(folder, room, of, fail)
    check_better(folder, room, of, fail)
    check_wrong(folder, room, of[COMMON[0]], fail)
    check_mutated(folder, room, of[COMMON[0]], MUTATED, fail)
    check_words(folder, room / "words", room / "lab.db", of[COMMON[0]], fail)
    check_page_of_strangers(folder, room / "words", fail)


# ---- sessions of captures


def check_made(folder: pathlib.Path, room: pathlib.Path, fail: Fail) -> None:
    """A lab of a few captures, by make."""
    lab, scratch = room / "made", room / "tmp"
    scratch.mkdir()
    for at, name in (("b1/d1", "leaks"), ("b1/d2", "hung"), ("b2/d1", "twice"), ("b2/d2", "two")):
        here = lab / at
        here.mkdir(parents=True, exist_ok=True)
        data = (DRIVER / name / "capture-1.cap").read_bytes()
        shutil.copy(DRIVER / name / "capture.side", here / "s.side")
        (here / "s-1.cap").write_bytes(data)
    (lab / "b2/d2/s-1.cap").write_bytes(data[:64])
    options = {"text": True, "capture_output": True, "env": {**os.environ, "TMPDIR": str(scratch)}}
    words = ["make", "-k", "-j2", "-s", "-f", str(folder / "lab/Makefile"), f"LAB={lab}"]
    ended = subprocess.run(words, **options)
    compare("make", (ended.returncode, ended.stdout), (0, "4 added, 0 there already\n"), fail)
    compare("make: the last line of progress", [line for line in ended.stderr.splitlines() if "left" in line][-1:],
            ["fleet: 4 done, 0 failed, 0 left, 0 s to go"], fail)
    ended = subprocess.run(words, **options)
    compare("make again", ended.stdout, "0 added, 4 there already\n", fail)
    os.utime(lab / "b1/d1/s-1.cap")
    ended = subprocess.run(words, **options)
    compare("make after a change", (ended.stdout, ended.stderr.count("\n")), ("1 added, 3 there already\n", 1), fail)
    rows = sqlite3.connect(lab / "LAB.db").execute("SELECT build, device, malformed NOTNULL FROM capture ORDER BY 1, 2")
    due = [("b1", "d1", 0), ("b1", "d2", 0), ("b2", "d1", 0), ("b2", "d2", 1)]
    compare("the lab of make", rows.fetchall(), due, fail)
    compare("make: scratch", list(scratch.iterdir()), [], fail)
    check_as_one(folder, lab, room, fail)
    check_commands(folder, lab, room, fail)


def check_as_one(folder: pathlib.Path, lab: pathlib.Path, room: pathlib.Path, fail: Fail) -> None:
    """A result that is made in a fork of one process is that of a process of its own."""
    for session in ("b1/d1/s", "b2/d1/s"):
        to = room / "as-one.json"
        fleet(folder, "one", lab / f"{session}-1.cap", "--side", lab / f"{session}.side", "--build", session[:2],
              "--device", session[3:5], "-o", to)
        one, forked = (json.loads(path.read_text("utf-8")) for path in (to, lab / "results" / f"{session}.json"))
        for made in one, forked:
            del made["capture"]["made"], made["capture"]["version"]
        compare(f"{session}, in a process of its own and in a fork", one, forked, fail)


def judge(given: argparse.Namespace, room: pathlib.Path, fail: Fail) -> None:
    folder = built_programs(room, given.programs[0])
    if given.mutated:
        print(check_mutated(folder, room, made_of(folder, room, "hello-sessions"), given.mutated, fail))
    elif given.slurm is not None:
        check_by_slurm(folder, room, given.slurm, fail)
    elif given.make:
        check_by_make(folder, room, fail)
    elif given.two:
        print_keys_of_two(folder, room, tuple(given.two))
    elif given.full:
        print(check_full_disk(folder, room / "full", True, fail))
    elif given.browser:
        check_browser(room / "browser", fail)
    elif given.alike:
        check_one_after_another(folder, room / "alike", True, fail)
    elif given.nightly:
        check_nightly(folder, room, given.nightly, fail)
    elif given.cut:
        names = sorted(it.parent.name for it in DRIVER.glob("*/capture-1.cap"))
        same, split = check_keys_of_cut(folder, room, names, fail)
        print(f"{same} defects have their key, and {split} lack a name")
    else:
        if not given.results:
            check_results(folder, room, fail)
            check_each(folder, room, fail)
            check_made(folder, room, fail)
            check_one_after_another(folder, room / "alike", False, fail)
            check_names(room / "names", fail)
            check_tried_again(folder, room / "tried-again", fail)
            check_full_disk(folder, room / "full", False, fail)
            check_keys_of_cut(folder, room, CUT, fail)
            check_page(room / "page", fail)
        check_lab(folder, room, given.results or 200, bool(given.results), fail)


if __name__ == "__main__":
    check(judge, results={"type": int, "default": 0}, mutated={"type": int, "default": 0}, make=FLAG, cut=FLAG,
          full=FLAG, browser=FLAG, alike=FLAG, nightly={"type": int, "default": 0, "metavar": "N"},
          two={"type": pathlib.Path, "nargs": 2, "metavar": "FOLDER"},
          slurm={"type": int, "nargs": "?", "const": 0, "metavar": "N"})
