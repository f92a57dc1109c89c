"""What is new since another capture: lines, marks on the page, the gate, and what is refused."""

import contextlib
import pathlib
import re
import shutil
import sqlite3

from checks.kit.checking import Fail, compare
from checks.kit.programs import CHECKS
from checks.kit.tokens import marked
from checks.viewer.page.common import texts_of, view, written
from checks.viewer.page.methods import make_table
from checks.viewer.sessions.session import Session
from viewer.defects.seen import seen_in
from viewer.files import Stopped

IDS = marked("check.forms.IIds")

# How the last line ends if no method is slower or faster.
NO_TIMES = ", 0 slower, 0 faster"

# How many replies to each code are not freed, by code, in the captures that are compared.
OLD = {10: 3, 11: 3, 12: 3, 13: 3}
NEW = {10: 3, 11: 9, 14: 3}


def leaks(kept: dict[int, int], met: tuple[int, ...] = ()) -> Session:
    """A client that does not free so many replies to calls of these codes, and frees those to others."""
    s = Session()
    service, client = s.two()
    for code, count in kept.items():
        client.main.asks(service.main, code, free=False, body=IDS, times=count)
    for code in met:
        client.main.asks(service.main, code, body=IDS)
    client.main.asks(service.main, 2, body=IDS, times=4)
    s.wait(300)
    client.main.asks(service.main, 2, body=IDS)
    return s


def hangs(wait: int) -> Session:
    """A call that hangs, for so long: explained, maybe or real."""
    s = Session()
    service, client = s.two()
    client.main.asks(service.main, 7, body=IDS, times=3)
    service.main.gets(client.main.sends(0, 7, body=IDS))
    s.wait(wait)
    return s


def short_of(lines: str) -> list[tuple[str, ...]]:
    """What, verdict, both counts and path of each line but the last."""
    return [tuple(fields[at] for at in (0, 1, 2, 3, 6)) for line in lines.splitlines()[:-1]
            if len(fields := line.split("\t")) == 9]


def path_of(code: int) -> str:
    return f"reply to check.forms.IIds code {code} of service"


def check_against(folder: pathlib.Path, room: pathlib.Path, fail: Fail) -> None:
    old, new = written(leaks(OLD), room, "old"), written(leaks(NEW, (12,)), room, "new")
    view(folder, room, *old, "--groups", "--database", "old.db")
    status, lines, _ = view(folder, room, *new, "--against", "old.db", "-o", "new.html")
    due = [("new", "real", "0", "3", path_of(14)), ("grown", "real", "3", "9", path_of(11)),
           ("gone", "real", "3", "0", path_of(12))]
    compare("--against", (status, short_of(lines), lines.splitlines()[-1]),
            (0, due, "1 new, 0 worse, 1 grown, 1 gone, 1 same, 1 not met" + NO_TIMES), fail)
    text = texts_of(room / "new.html")
    compare("--against: marks of the page", ("real new replies never freed" in text, "real grown replies" in text,
                                             " Gone 1 Defects of the other" in text, text.count("client on binder: ")),
            (True, True, True, 1), fail)
    check_first_seen(text, fail)
    status, groups, _ = view(folder, room, *new, "--groups")
    keys = {line.split("\t")[-1] for line in groups.splitlines() if line.startswith("real")}
    compare("--against: keys are those of --groups",
            {line.split("\t")[-1] for line in lines.splitlines() if line.startswith(("new", "grown"))} <= keys, True,
            fail)
    check_gate(folder, room, old, new, fail)
    check_worse(folder, room, fail)
    check_slower(folder, room, fail)
    check_unlike(folder, room, old, new, fail)


def check_first_seen(text: str, fail: Fail) -> None:
    """A card says in which of both captures it was first seen, of what builds they are, and how often it is in each."""
    build = r"\(recorded [0-9]{4}-01-01 \d\d:\d\d, Linux 6\.1, x86_64\)"
    took = r"[0-9.]+ (?:ms|s)"
    seen = [" ".join(one) for one in re.findall(
        rf"first seen (here|in old\.db) {build}(; old\.db {build} has none|: \d+ findings in {took};"
        rf" here \d+ findings in {took})", text)]
    counts = sorted(re.sub(rf" {build}| in {took}", "", one) for one in seen)
    compare("--against: where it was first seen", counts, [
        "here ; old.db has none", "in old.db : 3 findings; here 3 findings", "in old.db : 3 findings; here 9 findings"],
        fail)


def check_gate(folder: pathlib.Path, room: pathlib.Path, old: tuple, new: tuple, fail: Fail) -> None:
    """Status 10, and what is known."""
    asked = ((new, ("--against", "old.db", "--fail-on", "real"), 10),
             (old, ("--against", "old.db", "--fail-on", "maybe"), 0),
             (new, ("--groups", "--fail-on", "maybe"), 10), (new, ("--groups",), 0))
    for capture, words, status in asked:
        came = view(folder, room, *capture, *words)
        compare(f"{words}: status, and whether a line says why", (came[0], "view: --fail-on" in came[2]),
                (status, status == 10), fail)
    key = next(line.split("\t")[-1] for line in view(folder, room, *new, "--against", "old.db")[1].splitlines()
               if line.startswith("new"))
    (room / "known").write_text(f"# why\n{key} ticket 7\n{'0' * 16} mended\n", "utf-8")
    status, lines, _ = view(folder, room, *new, "--against", "old.db", "--fail-on", "real", "--known", "known")
    compare("--known", (status, lines.splitlines()[-1]), (0, f"known\t{'0' * 16}\tdoes not occur\tmended"), fail)
    compare("--known alone", view(folder, room, *new, "--groups", "--known", "known")[0], 64, fail)
    (room / "wrong").write_text("ticket 7\n", "utf-8")
    words = "--fail-on", "real", "--known", "wrong", "-o", "w.html"
    compare("--known without a key", view(folder, room, *new, *words)[0], 4, fail)
    (room / "cut.cap").write_bytes((room / "new.cap").read_bytes()[:-20])
    compare("--fail-on of a malformed capture", view(folder, room, "cut.cap", "--groups", "--fail-on", "maybe")[0], 2,
            fail)


def check_worse(folder: pathlib.Path, room: pathlib.Path, fail: Fail) -> None:
    """A call that was under way hangs in the other capture."""
    for name, wait in (("early", 20), ("late", 600)):
        view(folder, room, *written(hangs(wait), room, name), "--groups", "--database", f"{name}.db")
    for one, other, due in (("late", "early", "0 new, 1 worse, 0 grown, 0 gone, 0 same, 0 not met" + NO_TIMES),
                            ("early", "late", "0 new, 0 worse, 0 grown, 0 gone, 1 same, 0 not met" + NO_TIMES)):
        status, lines, _ = view(folder, room, f"{one}.cap", "--side", f"{one}.side", "--against", f"{other}.db",
                                "--fail-on", "real")
        compare(f"{one} against {other}", (status, lines.splitlines()[-1]), (10 if one == "late" else 0, due), fail)


def timed(took: dict[int, int], count: int) -> Session:
    """So many calls of each code, which take so many milliseconds."""
    s = Session()
    service, client = s.two()
    for _ in range(count):
        for code, milliseconds in took.items():
            client.main.asks(service.main, code, took=milliseconds, body=IDS)
    return s


def check_slower(folder: pathlib.Path, room: pathlib.Path, fail: Fail) -> None:
    """Methods that are slower or faster by a fifth and 1 ms have a line, which says of how many calls it is, and that
    it is no test; not if all are so, or if there are few calls."""
    usual = {code: 4 + code % 3 for code in range(40, 48)}
    view(folder, room, *written(timed(usual, 12), room, "usual"), "--groups", "--database", "usual.db")
    for name, took, count, due in (
            ("slower", {**usual, 41: 15}, 11, [("slower", "12", "11", "work: median 7 ms, then 16", 41)]),
            ("faster", {**usual, 42: 2}, 12, [("faster", "12", "12", "work: median 5 ms, then 3", 42)]),
            ("same", {**usual, 41: 7}, 12, []), ("few", {**usual, 41: 15}, 9, []),
            ("all", {code: 2 * milliseconds for code, milliseconds in usual.items()}, 12, [])):
        _, lines, _ = view(folder, room, *written(timed(took, count), room, name), "--against", "usual.db")
        some = [fields for line in lines.splitlines() if len(fields := line.split("\t")) == 9]
        came = [(what, there, here, said.partition(";")[0], int(path.rpartition(" ")[2]))
                for what, _, there, here, said, _, path, *_ in some if said.endswith("; no test")]
        compare(f"--against: {name}", (came, lines.splitlines()[-1].rpartition("met")[2]), (
            due, f", {name == 'slower':d} slower, {name == 'faster':d} faster"), fail)


def check_unlike(folder: pathlib.Path, room: pathlib.Path, old: tuple, new: tuple, fail: Fail) -> None:
    """Keys of another design, or with the names of methods on one side only, and what is no database."""
    make_table(room, CHECKS / "viewer/method_sources/aidl/check/forms/IIds.aidl", "table")
    named = (*new, "--methods", "table")
    view(folder, room, *named, "--groups", "--database", "named.db")
    for words, against in ((named, "old.db"), (new, "named.db")):
        status, lines, told = view(folder, room, *words, "--against", against)
        compare(f"methods on one side, {against}", (status, lines, told.count("\n")), (1, "", 1), fail)
    view(folder, room, *old, "--methods", "table", "--groups", "--database", "old-named.db")
    _, lines, _ = view(folder, room, *named, "--against", "old-named.db")
    compare("methods on both sides", lines.splitlines()[-1],
            "1 new, 0 worse, 1 grown, 1 gone, 1 same, 1 not met" + NO_TIMES, fail)
    compare("a key with a method", "reply to check.forms.IIds.tenth of service" in "\n".join(
        path for path, in sqlite3.connect(room / "named.db").execute("SELECT path FROM defect")), True, fail)
    view(folder, room, old[0], "--no-side", "--groups", "--database", "no-side.db")
    for words, against, made, viewed in ((new, "no-side.db", "without", "with"),
                                         ((new[0], "--no-side"), "old.db", "with", "without")):
        told = f"view: {against} was made {made} --side, and the capture is viewed {viewed}: give both, or none\n"
        compare(f"a side list on one side, {against}", view(folder, room, *words, "--against", against), (1, "", told),
                fail)
    check_changed(room, fail)
    with sqlite3.connect(room / "old.db") as database:
        database.execute("UPDATE capture SET value = 0 WHERE key = 'prints'")
    for against, due in (("old.db", 1), ("new.cap", 4), ("none.db", 4), (".", 4)):
        status, lines, told = view(folder, room, *new, "--against", against)
        compare(f"against {against}", (status, lines, told.count("\n")), (due, "", 1), fail)


# What somebody may have done to a kept database.
CHANGES = ("DELETE FROM capture WHERE key = 'prints'", "DELETE FROM capture WHERE key = 'methods'",
           "UPDATE capture SET value = 'a' WHERE key = 'prints'",
           "UPDATE capture SET value = 'a' WHERE key = 'first_ts'",
           "UPDATE rule SET verdict = 'wrong'", "DROP TABLE defect",
           "ALTER TABLE defect RENAME TO was; CREATE VIEW defect AS SELECT id, kind, who, 7 AS path, call FROM was")


def check_changed(room: pathlib.Path, fail: Fail) -> None:
    """A database that is not as `view` makes it ends in a line with its name. A text that is no UTF-8 ends nothing."""
    for change in CHANGES:
        shutil.copy(room / "old.db", room / "changed.db")
        with contextlib.closing(sqlite3.connect(room / "changed.db", isolation_level=None)) as database:
            database.executescript(change)
        try:
            seen_in(str(room / "changed.db"))
            told = ""
        except Stopped as stopped:
            told = f"{stopped.status} {stopped}"
        compare(f"a kept database after {change}", told.startswith(f"4 {room}/changed.db: "), True, fail)
    shutil.copy(room / "old.db", room / "changed.db")
    with contextlib.closing(sqlite3.connect(room / "changed.db", isolation_level=None)) as database:
        database.execute("UPDATE defect SET who = CAST(x'ff' AS TEXT)")
    compare("a text that is no UTF-8", {defect.who for defect in seen_in(str(room / "changed.db")).defects.values()},
            {"\ufffd"}, fail)
