"""Checks that no finding of `view` is `real` because of a lost frame: of each small session of sessions/*cases.py
frames are lost in turn, as the side list says. What is `real` then must be `real` in the whole session, too; and of a
call that the lost frame had, `view --absent` does not say that its process made no other one.

    checks/run lost                    loses one frame of 400, and those of which one was found wrong before
    checks/run lost -- --most N        loses N frames of each session, or each one of it: for 12, 20 minutes of the
                                       processor
    checks/run lost -- --all           loses each frame of each session: two hours of the processor
    checks/run lost -- --all CASE      of the sessions whose name has this text

Sessions in which frames are lost anyway are left out.
"""

import argparse
import os
import pathlib
import sqlite3
import sys
from concurrent.futures import ProcessPoolExecutor
from itertools import repeat

from checks.kit.checking import Fail, check
from checks.kit.programs import ROOT
from checks.viewer.sessions.every import CASES
from checks.viewer.sessions.played import base_of, judged
from checks.viewer.sessions.session import Session
from viewer.absent.asked_of import openings_of, span_of
from viewer.absent.called import Meant
from viewer.absent.conditions import Question
from viewer.database import raw_tables
from viewer.database.programs import build_programs

# `.ci/run` loses one frame of so many, and these, each of which once made a finding real.
STEP = 400
FOUND = {"others_are_told wait=0 ends=60": [22], "kept_by_another_pool wait=12000": [93],
         "reply_refused_by_the_log errno=None": [10]}

# What a finding is, in a session and in the same session with a frame less: a handle, a node, or the place of a record.
Known = tuple[object, ...]


def real_ones(database: sqlite3.Connection, lost_at: int, length: int) -> dict[Known, str]:
    """The real findings, and those that are one with them, with their rules. Places are those of the session in which
    these bytes were not lost."""
    return {tuple(known): rule for rule, *known in database.execute(
        "SELECT l.rule, f.section, p.process, iif(f.section IN ('handles', 'nodes', 'pools', 'queues'), NULL,"
        " f.place + iif(f.place >= ?, ?, 0)), iif(f.section = 'handles', f.handle, NULL),"
        " iif(f.section = 'nodes', f.ptr, NULL)"
        " FROM finding f JOIN finding l ON l.id = coalesce(f.lead, f.id) JOIN rule r ON r.id = l.rule"
        " JOIN process p ON p.upid = f.upid WHERE r.verdict = 'real'", (lost_at, length))}


def without(session: Session, sequence: int) -> tuple[int, int]:
    """Loses a frame of a session. Returns where it was, and its length."""
    before = len(session.capture())
    whole = session.frames.copy()
    lost = session.drops(sequence)
    at = whole.index(lost)
    return sum(map(len, whole[:at])), before - len(session.capture())


def sent_in(database: sqlite3.Connection, sequence: int) -> list[tuple[str, int]]:
    """The processes and codes of the transactions that a frame has."""
    return database.execute(
        "SELECT DISTINCT CAST(p.process AS TEXT), r.code FROM raw_record r JOIN raw_thread t USING (utid)"
        " JOIN raw_process p USING (upid) JOIN kind k ON k.number = r.kind"
        " WHERE r.seq = ? AND k.name IN ('BC_TRANSACTION', 'BC_TRANSACTION_SG')", (sequence,)).fetchall()


def is_said_to_be_all(database: sqlite3.Connection, process: str, code: int) -> bool:
    """Whether `--absent` says that none of the calls with this code is missing."""
    meant = Meant(f"code {code}", None, frozenset([code]))
    return not Question(database, meant, openings_of(database, process), span_of(database)).failed


def some_of(frames: list[int], number: int, most: int | None) -> list[int]:
    """The frames of a case that are lost: so many of them, from the first to the last one, or one of STEP."""
    if most is None:
        return frames[number % STEP::STEP]
    if len(frames) <= most:
        return frames
    return [frames[nth * (len(frames) - 1) // (most - 1)] for nth in range(most)]


def faults_of(number: int, most: int | None, room: pathlib.Path) -> list[str]:
    """What is wrong with a case, if frames of it are lost."""
    one, found = CASES[number], []
    whole = one.played()
    there = [int.from_bytes(frame[:8], "little") for frame in whole.frames[1:]]
    taken = [] if whole.missing else [*some_of(there, number, most), *FOUND.get(one.name, [])]
    in_whole = judged(base_of(room, whole)) if taken else None
    due = real_ones(in_whole, 0, 0) if in_whole else {}
    for sequence in taken:
        session = one.played()
        at, length = without(session, sequence)
        database = judged(base_of(room, session))
        came = real_ones(database, at, length)
        found += [f"{one.name}: without frame {sequence} no call with code {code} by {process} is said to be missing"
                  for process, code in sent_in(in_whole, sequence) if is_said_to_be_all(database, process, code)]
        found += [f"{one.name}: without frame {sequence} real by {rule}, which it was not: {known}"
                  for known, rule in came.items() if known not in due]
    return found


def judge(given: argparse.Namespace, room: pathlib.Path, fail: Fail) -> None:
    build_programs(ROOT)
    raw_tables.loader()
    most = given.most if given.all is None else sys.maxsize
    numbers = [number for number, one in enumerate(CASES) if (given.all or "") in one.name and one.has_side]
    with ProcessPoolExecutor(os.cpu_count()) as pool:
        for faults in pool.map(faults_of, numbers, repeat(most), repeat(room)):
            for fault in faults:
                fail(fault)


if __name__ == "__main__":
    check(judge, all={"nargs": "?", "const": ""}, most={"type": int})
