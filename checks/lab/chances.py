"""Checks what `fleet compare` tells, on labs of results that are made up from fixed seeds; no proved program is needed.

    checks/run chances [-- CASE..]

What must hold:

- The tests, the limit and the intervals give what others worked out.
- What is told is more than chance: two sets of captures of one build have no line, and each planted change has its
  line, also those of `known` defects that come back. The reports for other programs say the same.
- What can't be told is said, and what should fail fails (blind_spots.py).
- A method that is slower or faster is told, and no other one, however devices differ (slower.py).
- The gate of lab/Makefile is quiet, or fails (make_gate.py).
- Labs of an earlier layout are read, and changed to the one of today (layouts.py).
"""

import argparse
import json
import math
import pathlib
from contextlib import closing
from itertools import combinations
from xml.etree import ElementTree

from checks.kit.cases import parts_of, play
from checks.kit.checking import Fail, check, compare
from checks.kit.programs import ROOT
from checks.lab.blind_spots import BLIND_SPOTS
from checks.lab.layouts import check_first_layout
from checks.lab.make_gate import check_make_gate
from checks.lab.models import ALIKE, PLANTED, SESSIONS, made
from checks.lab.slower import SLOWER
from lab import chance, reports
from lab.compare import Comparison
from lab.doubts import doubts
from lab.fail_on import FailOn
from lab.known_until import Known
from lab.store import open_lab

# p by R's fisher.test: of the tea, of convictions of twins, and of tables of the handbook.
FISHER = {(3, 4, 1, 4): 0.4857142857, (2, 12, 15, 18): 0.0005367241, (0, 5, 5, 5): 0.007936507937,
          (7, 19, 12, 17): 0.0542817741, (0, 9, 0, 9): 1.0}
# The p-values of Benjamini and Hochberg (1995), of which their method tells the first four at 5 %.
PAPER = [0.0001, 0.0004, 0.0019, 0.0095, 0.0201, 0.0278, 0.0298, 0.0344, 0.0459, 0.3240, 0.4262, 0.5719, 0.6528, 0.7590,
         1.0]
# Captures with a defect, of all, and the ends of Wilson's interval.
WILSON = {(0, 10): (0.0, 0.2775), (5, 10): (0.2366, 0.7634), (3, 50): (0.0206, 0.1622), (50, 50): (0.9287, 1.0)}
# Findings, and the ends of the exact interval of a Poisson count, from which Byar's differs by less than a twentieth.
POISSON = {0: (0.0, 3.689), 3: (0.6187, 8.767), 10: (4.795, 18.39), 100: (81.36, 121.6)}


# ---- the tests


def exact_p(old: list[int], new: list[int]) -> float:
    """The p of a permutation test, by all permutations."""
    both, seen = old + new, abs(sum(new) * (len(old) + len(new)) - sum(old + new) * len(new))
    ways = list(combinations(both, len(new)))
    return sum(abs(sum(way) * len(both) - sum(both) * len(new)) >= seen for way in ways) / len(ways)


def check_tests(_: pathlib.Path, __: pathlib.Path, fail: Fail) -> None:
    for table, due in FISHER.items():
        compare(f"Fisher's test of {table}", math.isclose(chance.fisher(*table), due, rel_tol=1e-4), True, fail)
    compare("the least p", [chance.least_p(5, 5, 5), chance.least_p(4, 6, 1), chance.least_p(5, 5, 10),
                            *(chance.least_order_p(*of) for of in ((5, 5, 5), (4, 6, 1), (5, 5, 10)))],
            [1 / 252, 0.4, 1.0, 1 / 252, 0.4, 1 / 252], fail)
    for old, new in (([1, 2, 1, 3, 2, 2], [3, 4, 2, 5, 6, 3]), ([0, 0, 9, 0, 0, 0], [0, 0, 0, 0, 0, 0]),
                     ([1, 0, 2, 0, 1, 0], [1, 0, 0, 2, 1, 3])):
        came = chance.Orders([600] * 12, 6).p(enumerate(old + new), 20_000)
        compare(f"the permutation test of {old} and {new}: near {exact_p(old, new):.4f}, came {came:.4f}",
                abs(came - exact_p(old, new)) < 0.3 * exact_p(old, new), True, fail)
    # Twice as many findings in captures that are twice as long: the same rate.
    longer = chance.Orders([600] * 30 + [1200] * 30, 30).p(((at, 2 + at // 30 * 2) for at in range(60)), 1000)
    compare("the permutation test of longer captures", longer, 1.0, fail)
    shares = [bin(chance.Orders([1] * 90, 30).draw()).count("1"), sum(
        order >> 60 & 1 for order, _ in chance.Orders([1] * 90, 30).some(3000)) / 3000]
    compare("orders: how many are new, how often each is", (shares[0], abs(shares[1] - 1 / 3) < 0.03), (30, True), fail)
    compare("the limit of the paper", chance.limit(PAPER, 0.05), 0.0095, fail)
    compare("the limit of nothing", (chance.limit([], 0.05), chance.limit([0.04, 0.9], 0.05)), (-1.0, -1.0), fail)
    for (having, captures), ends in WILSON.items():
        _, *came = chance.share_of(having, captures)
        compare(f"Wilson's interval of {having} of {captures}", [round(end, 4) for end in came], list(ends), fail)
    for findings, due in POISSON.items():
        rate = chance.rate_of([findings], [3600.0])
        near = rate is not None and all(abs(came - end) <= 0.05 * findings + 0.05 for came, end in zip(rate[1:], due))
        compare(f"the interval of {findings} findings: {rate}", near, True, fail)
    # Ten times as many findings in a tenth of the captures: as many an hour, an interval that is three times as wide.
    even, clumps = chance.rate_of([2] * 100, [60.0] * 100), chance.rate_of([20, *[0] * 9] * 10, [60.0] * 100)
    widths = [rate.high - rate.low if rate else 0 for rate in (even, clumps)]
    compare(f"intervals without and with clumps: {widths}", 3 < widths[1] / widths[0] < 6, True, fail)
    compare("no rate without times", chance.rate_of([1], [0.0]), None, fail)


# ---- labs


def told(path: pathlib.Path, *builds: str) -> dict[str, list[str]]:
    """Whose defects have lines, by what they became."""
    with closing(open_lab(str(path))) as lab:
        compared = Comparison(lab, list(builds[:-1]), builds[-1])
    return {what: sorted(row.who.split()[0] for row in rows) for what in ("new", "worse", "grown", "gone")
            if (rows := compared.of(what))}


# How many pairs of sets of one build are compared, each in both directions, and in how many of them one line may be
# false: 5 of 100 are, on average.
PAIRS, MAY_BE_FALSE = 2, 0


def check_quiet(_: pathlib.Path, room: pathlib.Path, fail: Fail) -> None:
    """Two sets of captures of one build."""
    false = []
    for seed in range(PAIRS):
        path = room / f"quiet-{seed}.db"
        made(path, seed, {"a1": ALIKE, "a2": ALIKE})
        there, back = told(path, "a1", "a2"), told(path, "a2", "a1")
        false += [seed] * bool(there or back)
        path.unlink()
    compare(f"two sets of one build: lines in pairs {false}", len(false) <= MAY_BE_FALSE, True, fail)


# The labs of this seed show both: growth by half is not told beside one build, and is beside two.
SEED = 7


def planted_in(room: pathlib.Path) -> pathlib.Path:
    made(room / "planted.db", SEED, {build: [*ALIKE, *models] for build, models in PLANTED.items()})
    return room / "planted.db"


def check_planted(_: pathlib.Path, room: pathlib.Path, fail: Fail) -> None:
    """Each planted change has its line, and nothing else has."""
    path = planted_in(room)
    sure = {"new": ["new"], "worse": ["worse"], "gone": ["gone"]}
    due = {("a1", "a2"): {}, ("a2", "a1"): {}, ("a1", "b1"): sure, ("a1", "a2", "b1"): {**sure, "grown": ["grown"]},
           ("a1", "b3"): {**sure, "grown": ["grown"]}, ("b1", "b3"): {"grown": ["grown"]}}
    for builds, changes in due.items():
        compare(f"planted, {' '.join(builds)}", told(path, *builds), changes, fail)


def check_known(_: pathlib.Path, room: pathlib.Path, fail: Fail) -> None:
    """A known defect does not fail, and is marked; one that was known until an earlier build is back, and fails."""
    with closing(open_lab(str(planted_in(room)))) as lab:
        keys = {row.who.split()[0]: row.key for row in Comparison(lab, ["a1"], "b1").rows}
        for until, status, state in ((None, "new", "known"), ("b1", "new", "known until b1"),
                                     ("b9", "new", "known until b9"), ("a2", "back", "known until a2")):
            known = {keys["new"]: Known(until, "why"), keys["worse"]: Known(None, "why")}
            compared = Comparison(lab, ["a1"], "b1", known=known)
            lines = [line.split("\t") for line in compared.lines(False) if keys["new"] in line]
            compare(f"known until {until}: line, what fails",
                    ([(line[0], line[-2]) for line in lines], compared.failed()),
                    ([(status, state)], [keys["new"]] if status == "back" else []), fail)
            compare(f"known until {until}: doubts", [doubt for doubt in doubts(compared) if "no build" in doubt],
                    ["the lab has no build b9: what is known until then is taken as known"] * (until == "b9"), fail)


def check_reports(_: pathlib.Path, room: pathlib.Path, fail: Fail) -> None:
    """The reports for other programs say what the lines say."""
    with closing(open_lab(str(planted_in(room)))) as lab:
        keys = {row.who.split()[0]: row.key for row in Comparison(lab, ["a1", "a2"], "b1").rows}
        compared = Comparison(lab, ["a1", "a2"], "b1", known={keys["worse"]: Known(None, "why")})
        told = json.loads(reports.as_json(compared, False, FailOn()))
        cases = list(ElementTree.fromstring(reports.as_junit(compared, FailOn())).iter("testcase"))
        sarif = json.loads(reports.as_sarif(compared, FailOn()))["runs"][0]["results"]
    found = {one["who"].split()[0]: (one["what"], one["fails"], one["known"] and one["known"]["comment"])
             for one in told["defects"]}
    compare("JSON", (found, told["counts"]["new"]), (
        {"new": ("new", True, None), "worse": ("worse", False, "why"), "grown": ("grown", False, None),
         "gone": ("gone", False, None)}, 1), fail)
    new = next(one for one in told["defects"] if one["what"] == "new")
    compare("JSON: shares", (new["before"]["share"]["value"], new["now"]["share"]["low"] > 0.2,
                             new["now"]["of_captures"]), (0.0, True, SESSIONS), fail)
    states = {name: [case.get("classname", "").split()[0] for case in cases if case.find(name) is not None]
              for name in ("failure", "skipped", "system-out")}
    compare("JUnit", (len(cases), {name: sorted(who) for name, who in states.items()}), (
        len(compared.rows), {"failure": ["new"], "skipped": ["worse"], "system-out": ["gone", "grown"]}), fail)
    compare("SARIF", sorted((one["level"], one["partialFingerprints"]["defect/v1"], len(one["suppressions"]),
                             one["locations"][0]["physicalLocation"]["artifactLocation"]["uri"][:4]) for one in sarif),
            sorted([("error", keys["new"], 0, "b1/d"), ("error", keys["worse"], 1, "b1/d")]), fail)


CASES = parts_of(check_tests, check_quiet, check_planted, check_known, check_reports, *BLIND_SPOTS, *SLOWER,
                 check_first_layout, check_make_gate)


def judge(given: argparse.Namespace, room: pathlib.Path, fail: Fail) -> None:
    play((part for part in CASES if part.name in given.cases), ROOT, room, fail)


if __name__ == "__main__":
    check(judge, lambda: [part.name for part in CASES])
