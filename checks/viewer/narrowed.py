"""Checks that a page of a part of a system says nothing that the page of the whole one contradicts. Each small session
of sessions/*cases.py, and each stored capture, is narrowed to each of its processes, and to each of its devices, as
`./record` would have recorded it.

    checks/run narrowed                  narrows some of them, by a seed that it prints
    checks/run narrowed -- --seed N      the same of this seed
    checks/run narrowed -- --all         narrows all: some four minutes of the processor
    checks/run narrowed -- CASE..        narrows these alone, by their names

What is `real` in a part must be real in the whole, or real but for lost frames. What is `maybe` must be one of these or
maybe there, or its line says what was not recorded. Whom a line blames, which thread has a call, and that none has it,
must be so in the whole.
"""

import argparse
import os
import pathlib
import random
import re
import sqlite3
from collections.abc import Iterator
from concurrent.futures import ProcessPoolExecutor
from itertools import repeat
from typing import NamedTuple

from checks.kit.checking import FLAG, Fail, check
from checks.kit.part import Opening, Part, openings_of, part_of
from checks.kit.programs import DRIVER, ROOT
from checks.viewer.sessions.every import CASES
from checks.viewer.sessions.played import base_of, judged
from viewer.database import raw_tables
from viewer.database.programs import build_programs

# Without `--all` so many of all are narrowed.
SOME = 60

SESSIONS = {one.name: one for one in CASES if one.has_side}
STORED = {path.name: path for path in sorted(DRIVER.iterdir()) if (path / "capture-1.cap").exists()}


class Recorded:
    """A capture with its side list and the copies of the driver's books, as `base_of` takes them."""

    has_side = True

    def __init__(self, capture: bytes, side: str, copies: dict[str, str | bytes]):
        self.frames, self.lines, self.copies = capture, side, copies

    def capture(self) -> bytes:
        return self.frames

    def side(self) -> str:
        return self.lines


def whole_of(name: str) -> Recorded:
    """A session, or a stored capture. A name in a side list may have any bytes."""
    if name in SESSIONS:
        session = SESSIONS[name].played()
        return Recorded(session.capture(), session.side(), session.copies)
    folder = STORED[name]
    copies = {path.name.partition(".")[2]: path.read_bytes() for path in folder.glob("capture.*.st*")}
    return Recorded((folder / "capture-1.cap").read_bytes(),
                    (folder / "capture.side").read_text("utf-8", errors="replace"), dict(copies))


def parts_of(side: str) -> Iterator[tuple[str, set[Opening]]]:
    """What alone is recorded of it: each process and, of several, each device; with the word of the side list."""
    openings = openings_of(side)
    for pid in sorted(set(openings.values())):
        yield f"pid:{pid}", {opening for opening, of in openings.items() if of == pid}
    names = dict(re.findall(r"^\d+ device (\d+) .* name=(.*)$", side, re.MULTILINE))
    for device, name in names.items() if len(names) > 1 else ():
        yield f"device:{name}", {opening for opening in openings if opening[0] == int(device)}


# ---- what a page says


class Said(NamedTuple):
    """What is said of a finding: rule, verdict, the rule's sentence and the note, and the process that it blames."""
    rule: str
    verdict: str
    text: str
    blamed: Opening


# What a finding is, in the whole and in a part of it: its section and process, the place of its record, a handle or a
# node, and what else tells it from others of its process.
Known = tuple[object, ...]

# Sections of findings that are of no one record.
OF_NO_RECORD = ("handles", "nodes", "pools", "queues", "services", "descriptors", "slow", "repeated")

FINDINGS = f"""
SELECT f.section, f.what, p.device, p.process, iif(f.section IN {OF_NO_RECORD}, NULL, f.place),
  iif(f.section = 'handles', f.handle, NULL), iif(f.section IN ('nodes', 'queues'), f.ptr, NULL), l.rule, r.verdict,
  r.text || coalesce(' ' || l.note, ''), c.device, c.process
FROM finding f JOIN finding l ON l.id = coalesce(f.lead, f.id) JOIN rule r ON r.id = l.rule
  JOIN process p ON p.upid = f.upid JOIN process c ON c.upid = coalesce(l.culprit, l.upid)"""

# The thread that got each call; None if none did.
GOT = ("SELECT s.place, t.thread FROM raw_send s LEFT JOIN raw_record r ON r.place = s.delivery"
       " LEFT JOIN raw_thread t ON t.utid = r.utid")


def said_in(database: sqlite3.Connection, part: Part | None = None) -> dict[Known, list[Said]]:
    """What is said of each finding. Of a part places are those of the whole."""
    found: dict[Known, list[Said]] = {}
    for section, what, device, process, place, handle, ptr, rule, verdict, text, *blamed in database.execute(FINDINGS):
        if part and place is not None and place >= 0:
            place = part.place_in_whole(place)
        known = section, what, device, process, place, handle, ptr
        found.setdefault(known, []).append(Said(rule, verdict, text, (blamed[0], blamed[1])))
    return found


# ---- what the whole contradicts


def contradicted(known: Known, said: Said, there: list[Said], got: dict[int, int | None]) -> str | None:
    """What is wrong with what a part says of a finding, of which this is said in the whole."""
    verdicts = {one.verdict for one in there} | {"real" for one in there if one.rule.startswith("M")}
    is_told = "not recorded" in said.text
    if said.verdict == "real" and "real" not in verdicts:
        return "it is not real"
    if said.verdict == "maybe" and not verdicts & {"real", "maybe"} and not is_told:
        return "nothing is wrong with it"
    section, _, device, process, place, *_ = known
    if said.blamed not in ((device, process), *(one.blamed for one in there)) and said.verdict in ("real", "maybe"):
        return f"process {said.blamed[1]} does not cause it"
    if section == "calls" and isinstance(place, int) and place in got:
        if ("not got" in said.text or "no thread of" in said.text) and got[place] is not None:
            return f"thread {got[place]} got it"
        if (has := re.search(r"end thread (\d+) of", said.text)) and got[place] not in (None, int(has[1])):
            return f"thread {got[place]} got it"
    return None


def faults_of(name: str, room: pathlib.Path) -> list[str]:
    """What is wrong with the parts of a case."""
    whole, faults = whole_of(name), []
    if " narrowed=" in whole.side():
        return []
    database = judged(base_of(room, whole))
    due, got = said_in(database), dict(database.execute(GOT))
    for word, openings in parts_of(whole.side()):
        part = part_of(whole.capture(), whole.side(), openings, word)
        for known, all_said in said_in(judged(base_of(room, Recorded(part.capture, part.side, whole.copies))),
                                       part).items():
            for said in all_said:
                if why := contradicted(known, said, due.get(known, []), got):
                    faults.append(f"{name}, {word} alone: {said} is said of {known}, and in the whole {why}:"
                                  f" {due.get(known)}")
    return faults


def judge(given: argparse.Namespace, room: pathlib.Path, fail: Fail) -> None:
    build_programs(ROOT)
    raw_tables.loader()
    names = given.cases
    if not given.named and not given.all:
        seed = random.SystemRandom().getrandbits(32) if given.seed is None else given.seed
        print(f"seed {seed}")
        names = random.Random(seed).sample(names, SOME)
    with ProcessPoolExecutor(os.cpu_count()) as pool:
        for faults in pool.map(faults_of, names, repeat(room)):
            for fault in faults:
                fail(fault)


if __name__ == "__main__":
    check(judge, lambda: [*SESSIONS, *STORED], all=FLAG, seed={"type": int})
