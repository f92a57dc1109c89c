"""What a lab can't see is said, and what should fail fails: cases of `chances`."""

import json
import os
import pathlib
import random
import re
import shutil
from contextlib import closing
from xml.etree import ElementTree

from checks.kit.checking import Fail, compare
from checks.kit.programs import ROOT
from checks.lab.models import Model, alone, finding, lab_of, results, small_lab
from lab import power, reports, result, sessions
from lab.basis import basis_of, tables_of
from lab.compare import Comparison, Enough
from lab.doubts import doubts
from lab.fail_on import FailOn, fail_on
from lab.known_until import Known
from lab.order import put_order
from lab.page import page
from lab.renamed import Renamed
from lab.uncounted import too_few


def check_worse_beside_one(_: pathlib.Path, __: pathlib.Path, fail: Fail) -> None:
    """A leak that all 20 new captures have as `real` fails, whatever one of the 20 old ones has. What is there less
    often is not worse."""
    all_real = [[finding("leaky", "real")]] * 20
    for had, what in (([finding("leaky", "real")], "worse"), ([finding("leaky")], "worse"), ([], "new")):
        with closing(small_lab({"old": [had, *[[]] * 19], "new": all_real})) as lab:
            compared = Comparison(lab, ["old"], "new")
            compare(f"real in all, beside {had}", ([*compared.whats.values()], len(compared.failed())), ([what], 1),
                    fail)
    rarer = [[finding("leaky", "real")]] * 2 + [[]] * 18
    with closing(small_lab({"old": [[finding("leaky")]] * 20, "new": rarer})) as lab:
        whats = [*Comparison(lab, ["old"], "new").whats.values()]
        compare("real in two, in place of maybe in all", whats, ["same"], fail)


def check_too_few(_: pathlib.Path, __: pathlib.Path, fail: Fail) -> None:
    """A leak in all new captures has a line; or it is said that so few captures tell none."""
    for size in (3, 4, 5, 6, 8, 10):
        for others in (5, 20, 60):
            random_ = random.Random(f"{size} {others}")
            builds = {build: [[finding(f"app{number}", "real", random_.randrange(1, 4)) for number in range(others)
                               if random_.random() < 0.5] + [finding("leaky", "real", 3)] * (build == "new")
                              for _ in range(size)] for build in ("old", "new")}
            with closing(small_lab(builds)) as lab:
                compared = Comparison(lab, ["old"], "new")
                said = any("not even a new defect in all runs is told" in doubt for doubt in doubts(compared))
            compare(f"{size} captures, {others} others: told, and said that none is",
                    (bool(compared.failed()), said) in ((True, False), (False, True)), True, fail)


# How many labs are drawn for each number of captures and share of the runs; and by how many standard errors what they
# tell may differ from what is computed.
DRAWN, ERRORS = 60, 3.5


def check_power(_: pathlib.Path, __: pathlib.Path, fail: Fail) -> None:
    """The table of docs/BUILDS.md is what is computed, and labs by chance tell as much as that."""
    page = (ROOT / "docs/BUILDS.md").read_text("utf-8")
    table = re.findall(r"^\| (\d+) \| (\d+) \| (\d+) \| (\d+) \|$", page, re.MULTILINE)
    due = [(tests, *(str(power.needed(share, 0.05 / int(tests))) for share in power.SHARES)) for tests, *_ in table]
    compare("the table of power in docs/BUILDS.md", (len(table) > 3, table), (True, due), fail)
    beside = [Model(f"often{number}", 0.5, 2) for number in range(4)]
    for size, share in ((5, 1.0), (14, 0.5), (40, 0.2)):
        told, expected = 0, 0.0
        for seed in range(DRAWN):
            models = {"old": beside, "new": [*beside, Model("leaky", share, 2000)]}
            given = (one for build, some in models.items() for one in results(seed, f"{build} {size}", some, size))
            with closing(lab_of(given)) as lab:
                compared = Comparison(lab, [f"old {size}"], f"new {size}")
                told += any(row.who.startswith("leaky") for row in compared.of("new"))
                expected += power.told(share, size, size, compared.rate / compared.tests)
        error = max(1.0, (expected * (1 - expected / DRAWN)) ** 0.5)
        compare(f"{size} captures, in {share} of the runs: {told} of {DRAWN} told, and {expected:.0f} expected",
                abs(told - expected) <= ERRORS * error, True, fail)


def check_uncounted(_: pathlib.Path, __: pathlib.Path, fail: Fail) -> None:
    """Captures that failed, are malformed or never came are told, are errors for JUnit, and fail where that is asked.
    """
    for failed, malformed, missing in ((46, 0, 0), (0, 30, 0), (0, 0, 47), (1, 0, 0), (0, 0, 0)):
        builds = {"old": [[finding("app")]] * 50, "new": [[finding("app")]] * (50 - missing)}
        with closing(small_lab(builds)) as lab:
            for column, count in (("failed", failed), ("malformed", malformed)):
                lab.execute(f"UPDATE capture SET {column} = 'why' WHERE id IN"
                            " (SELECT id FROM capture WHERE build = 'new' LIMIT ?)", (count,))
            compared = Comparison(lab, ["old"], "new")
            counted = 50 - failed - malformed - missing
            what = f"{failed} failed, {malformed} malformed, {missing} missing"
            said = [doubt for doubt in doubts(compared) if doubt.startswith(f"{counted} of 50 captures of new count")]
            suite = ElementTree.fromstring(reports.as_junit(compared, FailOn()))
        errors = failed + malformed + (missing > 0)
        compare(f"{what}: told", len(said), int(counted < 50), fail)
        compare(f"{what}: JUnit", (suite.get("errors"), len(suite.findall("testcase/error")), suite.get("tests")),
                (str(errors), errors, str(errors + 1)), fail)
        compare(f"{what}: fails", too_few(compared.builds, 0.5), ["new"] * (counted < 25), fail)


def check_of_part(_: pathlib.Path, __: pathlib.Path, fail: Fail) -> None:
    """A capture of a part of a system says so, and a comparison how many there are, if not all are."""
    facts = {"file": "a.cap", "side_list": 3, "side_doubt": None, "books_doubt": "one is gone"}
    for narrowed, due in ((None, "one is gone"), ("--pid 412", "only a part was recorded: --pid 412; one is gone")):
        compare(f"the doubt of {narrowed}", result.about({**facts, "narrowed": narrowed})["doubt"], due, fail)
    for parts in 0, 1, 7, 20:
        with closing(small_lab({build: [[finding("app")]] * 10 for build in ("old", "new")})) as lab:
            lab.execute("UPDATE capture SET doubt = 'only a part was recorded: --pid 412' WHERE id IN"
                        " (SELECT id FROM capture ORDER BY id DESC LIMIT ?)", (parts,))
            said = [doubt for doubt in doubts(Comparison(lab, ["old"], "new")) if "of a part of a system" in doubt]
        compare(f"{parts} of 20 are of a part", [one.split(" ")[0] for one in said], [str(parts)] * (parts in (1, 7)),
                fail)


def check_grown_fails(_: pathlib.Path, __: pathlib.Path, fail: Fail) -> None:
    """Growth fails where that is asked, from a factor on."""
    builds = {build: [[finding("leaky", "real", n)]] * 20 for build, n in (("old", 4), ("new", 10))}
    with closing(small_lab(builds)) as lab:
        compared = Comparison(lab, ["old"], "new")
        key, = (row.key for row in compared.of("grown"))
        for words, due in (([], []), (["grown"], [key]), (["grown:2.4"], [key]), (["grown:2.6"], []),
                           (["real", "grown:2"], [key])):
            asked = fail_on(words)
            compare(f"--fail-on {words}", compared.failed(asked), due, fail)
            suite = ElementTree.fromstring(reports.as_junit(compared, asked))
            compare(f"--fail-on {words}: JUnit", [it.get("type") for it in suite.findall("testcase/failure")],
                    ["grown"] * len(due), fail)
            told = json.loads(reports.as_json(compared, False, asked))["defects"]
            compare(f"--fail-on {words}: JSON", [(it["growth"], it["fails"]) for it in told], [(2.5, bool(due))], fail)
    for word in "grown:", "grown:x", "grown:-1", "groan", "grown:1:2":
        try:
            fail(f"--fail-on {word} is taken: {fail_on([word])}")
        except ValueError:
            pass


def check_first_seen(_: pathlib.Path, __: pathlib.Path, fail: Fail) -> None:
    """What is `real` in one of 40 captures and in none before has a line, the urgent ones first, with a command; it
    fails only where that is asked. What was there some builds before, or is only `maybe`, has none."""
    hang, leak = "calls without an answer", "replies never freed"
    rare = [[finding("leaky", "real", kind=leak)], [finding("hung", "real", kind=hang)], [finding("odd")],
            [finding("before", "real", kind=hang)], *[[]] * 36]
    others = [[finding(f"app{number}", "real", kind=leak)] for number in range(40)]
    builds = {"b1": [[finding("before", "real", kind=hang)], *others], "b2": others, "b3": others,
              "b4": [one + other for one, other in zip(rare, others)]}
    with closing(small_lab(builds)) as lab:
        lab.execute("UPDATE capture SET file = 's.cap', begun = 1800000000000000000 + id")
        lab.execute("UPDATE found SET place = 77")
        for before, due in ((3, ["hung", "leaky"]), (2, ["hung", "before", "leaky"])):
            compared = Comparison(lab, ["b3"], "b4", Enough(before=before))
            lines = [line.split("\t") for line in compared.lines(False) if line.startswith("first\t")]
            who, kinds = sorted(line[3].split()[0] for line in lines), [line[2] for line in lines]
            compare(f"first seen since {before} builds", (who, kinds), (sorted(due), [hang] * (len(due) - 1) + [leak]),
                    fail)
        failed = [len(compared.failed(fail_on(words))) for words in ([], ["first"])]
        compare("first seen: what fails", failed, [0, 3], fail)
        commands = {line.split("\t")[1]: line.split("\t")[2] for line in reports.commands(compared, "LAB.db")}
        places = [commands[row.key].partition(" ")[2] for row in compared.of("first") if row.who.startswith("hung")]
        compare("first seen: commands", (len(commands), places), (3, ["b4/d1/s.cap --at 77"]), fail)
        told = json.loads(reports.as_json(compared, False, FailOn()))
        compare("first seen: JSON", (told["counts"]["first"], told["defects"][0]["shown_by"]["place"]), (3, 77), fail)


def check_renamed(_: pathlib.Path, __: pathlib.Path, fail: Fail) -> None:
    """A process and an interface with new names: without the names a hint names them; with them all is the same, also
    what is known by an earlier key."""
    def found(who: str, interface: str) -> list[dict]:
        return [finding(who, "real", path=f"reply to {interface}.{method} of server") for method in ("open", "close")]

    builds = {"old": [found("com.android.systemui", "android.IFoo")] * 20,
              "who": [found("com.android.systemui2", "android.IFoo")] * 20,
              "path": [found("com.android.systemui", "android.IBar")] * 20}
    lab = lab_of(result for build, captures in builds.items() for result in alone(build, captures))
    with closing(lab):
        for build, line in (("who", "com.android.systemui = com.android.systemui2"),
                            ("path", "android.IFoo = android.IBar")):
            compared = Comparison(lab, ["old"], build)
            hints = [doubt.rpartition("the line ")[2] for doubt in doubts(compared) if "was renamed" in doubt]
            compare(f"renamed, {build}: without names", (len(compared.failed()), hints), (2, [line]), fail)
            old, new = line.removeprefix("com.android.").replace("= com.android.", "= ").split(" = ")
            key = compared.of("not met")[0].key
            compared = Comparison(lab, ["old"], build, known={key: Known(None, "why")}, renamed=Renamed({old: new}))
            compare(f"renamed, {build}: with names", [*compared.whats.values()], ["same"] * 2, fail)
            compare(f"renamed, {build}: known", sorted(str(compared.state(row.key)) for row in compared.rows),
                    ["None", "known"], fail)
    chain = Renamed({"a": "b", "b": "c", "IFoo code 4": "IFoo code 5"})
    texts = {"x.a:1": "x.c:1", "ab": "ab", "a-b": "a-b", "p.IFoo code 4": "p.IFoo code 5",
             "IFoo code 44": "IFoo code 44"}
    compare("names in a chain, and parts of names", [*map(chain.text, texts)], [*texts.values()], fail)


def check_clocks(_: pathlib.Path, room: pathlib.Path, fail: Fail) -> None:
    """Builds whose clocks are wrong come in the order of a file, also of a list of commits; and it is said."""
    names = "b07-52b7b884a1b2", "b08-f9d91f3f0000", "b09-3a45ae250000"
    with closing(small_lab({name: [[finding("app")]] * 4 for name in names})) as lab:
        lab.execute("UPDATE capture SET begun = iif(build = ?, 5, 1800000000000000000) + id", (names[2],))
        said = [doubt for doubt in doubts(Comparison(lab, [names[1]], names[2])) if "1970-01-01" in doubt]
        compare("clocks of 1970: told", len(said), 1, fail)
        (room / "order.txt").write_text("# one\n52b7b884a1b2c3d4 first\nf9d91f3f\n\nb09-3a45ae250000\n", "utf-8")
        put_order(lab, str(room / "order.txt"))
        order = [name for name, in lab.execute("SELECT name FROM build ORDER BY number")]
        compare("the order of a file", order, list(names), fail)
        said = [doubt for doubt in doubts(Comparison(lab, [names[1]], names[2])) if "by their clocks" in doubt]
        compare("clocks that contradict the file: told", len(said), 1, fail)


def check_basis(_: pathlib.Path, room: pathlib.Path, fail: Fail) -> None:
    """What makes results, and nothing else, makes sessions be done again: not a page, a comparison or a date. Tables of
    methods do for their build."""
    for name in "viewer", "lab":
        shutil.copytree(ROOT / name, room / "root" / name, ignore=shutil.ignore_patterns("out", "__pycache__"))
    root, lab = room / "root", room / "lab"
    for session in "b1/d1/s", "b2/d1/s":
        (lab / session).parent.mkdir(parents=True)
        (lab / f"{session}.cap").write_bytes(b"")
        made = {"digest": "0" * 32, "basis": basis_of(root), "tables": tables_of([])}
        result.write({"capture": made, "found": [], "talk": [], "held": []}, lab / "results" / f"{session}.json")

    def left() -> list[str]:
        return sessions.Lab(str(lab)).left(basis_of(root))

    compare("sessions left: all are made", left(), [], fail)
    for name in "lab/page/page.css", "lab/compare.py", "lab/page/templates/lab.html", "viewer/page/page.py":
        with open(root / name, "a", encoding="utf-8") as file:
            file.write("\n")
    os.utime(root / "viewer/rules/deaths.sql")
    compare("sessions left: a page and a comparison changed", left(), [], fail)
    (lab / "b2/of.methods").write_text("", "utf-8")
    compare("sessions left: a table of methods came", left(), ["b2/d1/s"], fail)
    for name in "viewer/rules/deaths.sql", "lab/result.py", "viewer/page/queries/defects.sql":
        before = (root / name).read_bytes()
        (root / name).write_bytes(before + b"\n")
        compare(f"sessions left: {name} changed", left(), ["b1/d1/s", "b2/d1/s"], fail)
        (root / name).write_bytes(before)


# The bytes that a page may have for a defect of ten builds.
OF_A_DEFECT = 3000


def check_page_of_many(_: pathlib.Path, __: pathlib.Path, fail: Fail) -> None:
    """The page of many defects is short, and says what is first seen, what has grown, and the days of builds."""
    builds = {f"b{at:02d}": [[finding(f"app{number}", "maybe", 1 + number % 3) for number in range(120) if
                              (number + session) % 5 == 0] + [finding("grows", "real", 1 if at < 5 else 9)]
                             for session in range(10)] for at in range(10)}
    builds["b09"][0].append(finding("hung", "real", kind="calls without an answer"))
    with closing(small_lab(builds)) as lab:
        lab.execute("UPDATE capture SET file = 's.cap',"
                    " begun = 1800000000000000000 + substr(build, 2) * 86400000000000")
        text = "".join(page.document(lab, "LAB.db", Enough(), {}, Renamed({})))
    with closing(small_lab({build: [[finding("app0")]] * 10 for build in builds})) as lab:
        more = len(text) - sum(len(piece) for piece in page.document(lab, "LAB.db", Enough(), {}, Renamed({})))
    compare(f"a page of 122 defects: {more} bytes more than of one", more < 121 * OF_A_DEFECT, True, fail)
    first = text.partition("First seen in")[2].partition("All others")[0]
    compare("a page of many: first seen", first.count("calls without an answer") > 0, True, fail)
    compare("a page of many: state, day", ["grown in b05" in text, "b09</bdi> 2027-01-24" in text], [True] * 2, fail)


BLIND_SPOTS = (check_worse_beside_one, check_too_few, check_power, check_uncounted, check_of_part, check_grown_fails,
               check_first_seen, check_renamed, check_clocks, check_basis, check_page_of_many)
