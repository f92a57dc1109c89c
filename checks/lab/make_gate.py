"""`make gate` of lab/Makefile, on labs that are made up: quiet where builds are equal, and failing where a defect is
new, has grown to four times, or few captures count."""

import pathlib
import random
import subprocess
from xml.etree import ElementTree

from checks.kit.checking import Fail, compare
from checks.kit.programs import ROOT
from checks.lab.models import capture, finding
from lab import result
from lab.basis import basis_of, tables_of

# What the last of three builds has: the findings of a defect in each capture, another defect, and how many captures
# failed; then which kinds of failures there are, and words of what is told.
GATES = {"quiet": (2, False, 0, [], ""), "new": (2, True, 0, ["new"], "new, worse or back: "),
         "grown": (9, False, 0, ["grown"], "grown: "), "three times": (6, False, 0, [], ""),
         "few": (2, False, 11, [], "of b3 fewer than 50 of 100 captures count")}


def make_lab(lab: pathlib.Path, findings: int, is_new: bool, failed: int) -> None:
    """Sessions of 20 devices and three builds, with results that rest on what makes results here."""
    random_ = random.Random(lab.name)
    rests = {"basis": basis_of(ROOT), "tables": tables_of([])}
    for build in "b1", "b2", "b3":
        for number in range(20):
            session = lab / build / f"d{number}" / "s.cap"
            session.parent.mkdir(parents=True)
            session.write_bytes(b"")
            is_last = build == "b3"
            of = {**rests, **capture(random_, build, number), "file": "s.cap", "begun": 10**18 * int(build[1:]),
                  "failed": "why" if is_last and number < failed else None}
            found = [finding("grows", n=findings if is_last else 2)] + [finding("comes")] * (is_last and is_new)
            made = {"capture": of, "found": [] if of["failed"] else found, "talk": [], "times": [],
                    "held": [{"process": f"{name} on binder"} for name in ("grows", "comes")]}
            result.write(made, lab / "results" / build / f"d{number}" / "s.json")


def check_make_gate(_: pathlib.Path, room: pathlib.Path, fail: Fail) -> None:
    for name, (findings, is_new, failed, kinds, says) in GATES.items():
        lab = room / name.replace(" ", "-")
        make_lab(lab, findings, is_new, failed)
        ended = subprocess.run(["make", "-k", "-s", "-f", str(ROOT / "lab/Makefile"), f"LAB={lab}", "gate"],
                               capture_output=True, encoding="utf-8")
        cases = ElementTree.parse(lab / "gate.xml").findall("testcase/failure") if (lab / "gate.xml").exists() else None
        compare(f"make gate, {name}: status, failures", (
            ended.returncode != 0, [it.get("type") for it in cases or ()]), (bool(says), kinds), fail)
        compare(f"make gate, {name}: what is told: {ended.stderr[-300:]!r}", (says in ended.stderr, cases is None),
                (True, False), fail)
