"""What `fleet compare` tells of the times of methods: each planted change, and nothing of equal builds, also where
devices differ."""

import json
import pathlib
import random
import re
from collections import Counter
from collections.abc import Iterator
from contextlib import closing
from typing import NamedTuple
from xml.etree import ElementTree

from checks.kit.checking import Fail, compare
from checks.lab.models import capture, finding, lab_of
from lab import reports
from lab.compare import Comparison, Enough
from lab.doubts import doubts
from lab.fail_on import fail_on
from lab.known_until import Known
from lab.page import page
from lab.renamed import Renamed

# The methods of five servers. One of them is planted.
SERVERS, CODES, SLOW = 5, 12, ("server1 on binder", "IServer1 code 3")


class Fleet(NamedTuple):
    """How devices differ: the deviations of the logarithms of the load of a device and of an hour, and of what a device
    takes longer for a method alone; and how many devices there are, the same for both builds or others for each."""
    device: float = 0.0
    hour: float = 0.0
    own: float = 0.0
    devices: int = 20
    shared: bool = True


ALIKE, BUSY = Fleet(), Fleet(0.4, 0.25)
FLEETS = {"devices that are alike": ALIKE, "loads that differ": BUSY,
          "other devices for each build, with other loads": Fleet(0.4, 0.25, shared=False),
          "methods that differ by device": Fleet(0.4, 0.25, 0.3, devices=5),
          "other devices for each build, whose methods differ": Fleet(0.2, 0.1, 0.3, devices=6, shared=False)}


def results(fleet: Fleet, seed: str, build: str, captures: int, factor: float = 1.0,
            of_all: float = 1.0) -> Iterator[dict]:
    """Results of a build, of which one method takes so many times as long as usual, or all do."""
    random_, names = random.Random(f"{seed} {build}"), "" if fleet.shared else build
    for number in range(captures):
        device = random_.randrange(fleet.devices)
        load = random.Random(f"{seed} {names} {device}").lognormvariate(0, fleet.device) * of_all
        load *= random_.lognormvariate(0, fleet.hour)
        of = {**capture(random_, build, number), "device": f"{names}d{device}"}
        times = [{"server": f"server{server} on binder", "call": f"IServer{server} code {code}", "calls": 10,
                  "queue": int(load * random_.uniform(1e5, 1e6)),
                  "work": int(load * 2e6 * (1 + (7 * code + server) % 9) * random_.lognormvariate(0, 0.1)
                              * random.Random(f"{seed} {names} {device} {server} {code}").lognormvariate(0, fleet.own)
                              * (factor if (server, code) == (1, 3) else 1))}
                 for server in range(SERVERS) for code in range(CODES)]
        yield {"capture": of, "found": [finding("always")], "talk": [], "held": [{"process": "always on binder"}],
               "times": times}


def compared(fleet: Fleet, seed: str, captures: int, **planted: float) -> Comparison:
    given = [*results(fleet, seed, "old", captures), *results(fleet, seed, "new", captures, **planted)]
    with closing(lab_of(given)) as lab:
        return Comparison(lab, ["old"], "new")


def told(comparison: Comparison) -> list[tuple[str, str, tuple[str, str]]]:
    return [(what, row.method.part, (row.method.server, row.method.call)) for what in ("slower", "faster")
            for row in comparison.slower(what)]


# How many comparisons with a planted method are drawn, and how many of each fleet without.
DRAWN, EQUAL = 40, 20


def check_slower(_: pathlib.Path, __: pathlib.Path, fail: Fail) -> None:
    """Ten captures each: a method that takes twice as long is told in each comparison, and with half the time it is
    faster."""
    for what, factor, drawn in (("slower", 2.0, DRAWN), ("faster", 0.5, DRAWN // 4)):
        for name in "devices that are alike", "loads that differ":
            found = Counter(line for seed in range(drawn)
                            for line in told(compared(FLEETS[name], f"{seed}", 10, factor=factor)))
            right = found.pop((what, "work", SLOW), 0)
            compare(f"{name}: {what} in {right} of {drawn}", right, drawn, fail)
            compare(f"{name}: false lines {found} in {drawn} comparisons", found.total() <= drawn // 20, True, fail)


def check_as_slow(_: pathlib.Path, __: pathlib.Path, fail: Fail) -> None:
    """Equal builds have at most one line in 100 comparisons, however devices differ."""
    lines = {name: [line for seed in range(EQUAL)
                    for line in told(compared(fleet, f"equal {seed}", 10 + seed % 2 * 10))]
             for name, fleet in FLEETS.items()}
    compare(f"lines of equal builds in {EQUAL} comparisons each: {lines}", sum(map(len, lines.values())) <= 1, True,
            fail)


def check_all_slower(_: pathlib.Path, __: pathlib.Path, fail: Fail) -> None:
    """Where all methods take longer no single one is told, but that all do."""
    with closing(lab_of(one for build, factor in (("old", 1.0), ("new", 2.0))
                        for one in results(BUSY, "all", build, 40, of_all=factor))) as lab:
        both = Comparison(lab, ["old"], "new")
        said = [doubt for doubt in doubts(both) if "the work of methods takes" in doubt]
    compare("all methods take twice as long: lines, doubts", (told(both), len(said)), ([], 1), fail)


def check_slower_fails(_: pathlib.Path, __: pathlib.Path, fail: Fail) -> None:
    """What is slower fails where that is asked, from a factor on, but for what is known; lines and reports say so."""
    given = [one for build, factor in (("old", 1.0), ("new", 2.6))
             for one in results(ALIKE, "fails", build, 20, factor)]
    with closing(lab_of(given)) as lab:
        both = Comparison(lab, ["old"], "new")
        key = both.slower("slower")[0].method.key
        lines = [line.split("\t") for line in both.lines(False) if line.startswith("slower\t")]
        compare("slower: a line", [(line[2:5], line[5:9], line[-1].strip()) for line in lines],
                [(["work", *SLOW], ["20/20"] * 2 + lines[0][7:9], key)], fail)
        asks: list[tuple[list[str], list[str]]] = [
            ([], []), (["slower"], [key]), (["slower:2.2"], [key]), (["slower:3"], []), (["grown:2"], [])]
        for words, due in asks:
            asked = fail_on(words)
            compare(f"--fail-on {words}", both.failed(asked), due, fail)
            suite = ElementTree.fromstring(reports.as_junit(both, asked))
            compare(f"--fail-on {words}: JUnit", (
                [it.get("type") for it in suite.findall("testcase/failure")], suite.get("tests")),
                (["slower"] * len(due), str(len(suite.findall("testcase")))), fail)
            said = json.loads(reports.as_json(both, False, asked))["methods"]
            compare(f"--fail-on {words}: JSON", [(one["what"], one["fails"], round(one["factor"])) for one in said],
                    [("slower", bool(due), 3)], fail)
        both = Comparison(lab, ["old"], "new", known={key: Known(None, "why")})
        compare("slower, and known", (both.failed(fail_on(["slower"])), [*both.unseen_lines()]), ([], []), fail)


def check_series(_: pathlib.Path, __: pathlib.Path, fail: Fail) -> None:
    """The page of a lab has the times of such a method by build, and what became of it in each."""
    given = [one for build, factor in (("b1", 1.0), ("b2", 1.0), ("b3", 2.6), ("b4", 2.6), ("b5", 1.0))
             for one in results(ALIKE, "series", build, 20, factor)]
    with closing(lab_of(given)) as lab:
        text = "".join(page.document(lab, "LAB.db", Enough(), {}, Renamed({})))
    tab = text.partition('id="times-head"')[2].partition("</section>")[0]
    series = re.search(r"(b1 [^<]*)</span><td>([^<]*)", tab)
    came = [re.sub("[0-9.]+ ms", "", one).replace(" ", "") for one in series.groups()] if series else []
    compare("the page: methods, times by build, states", (tab.count("<tr id="), came), (
        1, ["b1,b2,b3slower,b4,b5faster", "fasterinb5,slowerinb3"]), fail)


SLOWER = check_slower, check_as_slow, check_all_slower, check_slower_fails, check_series
