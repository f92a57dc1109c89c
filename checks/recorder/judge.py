"""Judges the page's verdicts on the recorded sessions of blind test sets.

    checks/run judge                             judges the recordings that are kept in samples/blind, and prints the
                                                 table that docs/MEASURED.md has of them
    checks/run judge -- --part                   judges a part of them, as `.ci/run` does, and prints no table: the
                                                 first set, and those with the driver in Rust, which have each rule
    checks/run judge -- --print                  also puts what came in place of what is stored of it
    checks/run judge -- CASE.. [--keep FOLDER]   judges these sessions alone, as third/6.1/app-update, and prints what
                                                 `./view --groups` prints
    checks/run judge -- --set FOLDER --recorded FOLDER.. [--store]
                                                 judges another set, whose recordings `checks/run driver -- --blind` has
                                                 just made

    --set FOLDER        has the expected.txt of the set
    --recorded FOLDER   SET-SERIES in the room of `checks/run driver -- --blind SET`; may be given several times
    --store             keeps these recordings in samples/blind from now on
    --keep FOLDER       where sessions are unpacked, each with its database; by default a folder that is removed

The set's expected.txt says what is expected of each session; it was written before any of them was judged. Below its
name a session is `healthy`, or has a fault:

    healthy         nothing is wrong
    fault WHO       the culprit, and by what a line of the page is that fault
    more WHO        what may be told beside it, as its consequence
    true WHO        what may be told, and is so, but no fault
    spared WHO      those that the fault's lines must not have among their processes

WHO names processes of which a line must have one, or as many as `2:` says. What is below are regular expressions: of
the line's `kind`; of something else that the line `has`; and of the `method`, code or object that the lines of the
fault must name, each of them if several are separated by `; `. Without these a line may have anything.

The lines of `./view --groups` that are `real` or `maybe` are read. The table has a row for each recording:

- A fault is found if a line is of its kind and names the culprit; its culprit is named on the first line if that is a
  line of the fault, or of a consequence, and names the culprit; also as its process if the culprit is among the
  processes of the group; its method is named if the lines of the fault have the code or the object.
- A line that is neither the fault nor a consequence of it is wrong, or `true, but no fault` if the table has it so.

Of each recording that is kept, SERIES.txt beside its archive has for each session the lines that are `real` or `maybe`,
in their order, with what each one is by the expectation, its rules and the culprits, and then what is not as expected.
Nothing may differ from that, and all sessions of expected.txt are there, recorded or with a reason why they are not. As
a check of the table and of the judge itself, no fault may be found in the lines of another session, and the lines of a
fault are wrong in a healthy session.
"""

import argparse
import functools
import os
import pathlib
import shutil
from concurrent.futures import ProcessPoolExecutor

from checks.kit.checking import FLAG, Fail, check
from checks.kit.programs import AUDITOR, built_programs
from checks.kit.stored import renew
from checks.recorder.blind.came import (
    NOT_KEPT, Came, absent, all_names, came_of, file_beside, names_of, stored_beside, text_of, unlike)
from checks.recorder.blind.expected import expectations
from checks.recorder.blind.judged import Judged, lenient, viewed
from checks.recorder.blind.recordings import STORED, SUFFIX, Recording, pack, stored_archives, unpack
from checks.recorder.blind.table import MEASURED, table_in_measured, table_of, with_table


def sessions_of(recording: Recording, fail: Fail) -> list[pathlib.Path]:
    """The folders of its sessions of which something is expected."""
    expected = expectations(recording.home / "expected.txt")
    for path in recording.sessions:
        if path.name not in expected:
            fail(f"{recording.name}: {path.name} is not in expected.txt")
    return [path for path in recording.sessions if path.name in expected]


def judge_all(recordings: list[Recording], room: pathlib.Path, keep: pathlib.Path | None, pool: ProcessPoolExecutor,
              fail: Fail) -> list[list[Judged]]:
    """Judges the sessions of all recordings. Their databases are kept if there is a folder to keep them."""
    programs, viewing = built_programs(room, AUDITOR), []
    view = functools.partial(viewed, programs=programs, kept=keep is not None)
    for recording in recordings:
        to = (keep or room) / recording.name
        to.mkdir(parents=True, exist_ok=True)
        # All are under way before any of them is waited for.
        viewing.append(pool.map(functools.partial(view, to=to), sessions_of(recording, fail)))
    return [[Judged(session, expected[session.folder.name]) for session in sessions]
            for recording, sessions in zip(recordings, viewing)
            for expected in [expectations(recording.home / "expected.txt")]]


# ---- the recordings that are kept, and others


def is_in_part(archive: pathlib.Path) -> bool:
    return archive.parent.name == "first" or archive.name == f"rust{SUFFIX}"


def judge_kept(given: argparse.Namespace, room: pathlib.Path, pool: ProcessPoolExecutor, fail: Fail) -> None:
    """Judges those of samples/blind, and compares what came with what is stored, or renews that."""
    cases = given.cases if given.named else None
    archives = [archive for archive in stored_archives() if not given.part or is_in_part(archive)]
    recordings = list(pool.map(functools.partial(unpack, room=given.keep or room, cases=cases), archives))
    all_judged = judge_all(recordings, room, given.keep, pool, fail)
    for archive, recording, judged in zip(archives, recordings, all_judged):
        came, due = came_of(judged), stored_beside(archive)
        if given.print and not given.named:
            due = absent(due) | came
            renew(file_beside(archive), text_of(due))
        names = [name for name in names_of(archive) if f"{recording.name}/{name}" in given.cases]
        for difference in unlike(recording.name, names, came, due):
            fail(difference)
        for name in (absent(due).keys() & set(names)) - came.keys() if given.named else ():
            print(f"{recording.name}/{name}: {'; '.join(due[name])}", flush=True)
    if given.named:
        show(all_judged)
        return
    judge_judge(recordings, all_judged, fail)
    if given.part:
        return
    table = table_of(list(zip(recordings, all_judged)))
    print(*table, sep="\n", flush=True)
    if given.print:
        renew(MEASURED, with_table(table))
    if table != table_in_measured():
        fail("docs/MEASURED.md has another table")


def judge_others(given: argparse.Namespace, room: pathlib.Path, pool: ProcessPoolExecutor, fail: Fail) -> None:
    """Judges new recordings, prints the table, and says what is not as expected."""
    recordings = [Recording(given.set, path.name.rpartition("-")[2], path) for path in given.recorded]
    all_judged = judge_all(recordings, room, given.keep, pool, fail)
    print(*table_of(list(zip(recordings, all_judged))), sep="\n", flush=True)
    for recording, judged in zip(recordings, all_judged):
        for name in expectations(given.set / "expected.txt").keys() - {one.expected.name for one in judged}:
            fail(f"{recording.name}/{name} was not recorded")
        for one in judged:
            if complaints := list(one.complaints()):
                fail(f"{recording.name}/{one.expected.name}: {'; '.join([*complaints, *one.told()])}")
        if given.store:
            store(recording, came_of(judged))
    judge_judge(recordings, all_judged, fail)


def judge_judge(recordings: list[Recording], all_judged: list[list[Judged]], fail: Fail) -> None:
    for recording, judged in zip(recordings, all_judged):
        for what in lenient(judged):
            fail(f"{recording.name}: {what}")


def show(all_judged: list[list[Judged]]) -> None:
    """Prints all lines of `./view --groups` on these sessions."""
    for judged in all_judged:
        for one in judged:
            print(one.session.folder, *(line.text.rstrip("\n") for line in one.session.lines), *one.complaints(),
                  sep="\n  ", flush=True)


def store(recording: Recording, came: Came) -> None:
    """Puts a recording and its set into samples/blind."""
    to = STORED / recording.home.name
    to.mkdir(parents=True, exist_ok=True)
    for name in ("expected.txt", "sessions.txt"):
        if recording.home != to:
            shutil.copyfile(recording.home / name, to / name)
    archive = to / f"{recording.series}{SUFFIX}"
    left_out = absent(stored_beside(archive), NOT_KEPT)
    pack(recording, archive, set(left_out))
    file_beside(archive).write_text(text_of(came | left_out), "utf-8")


def judge(given: argparse.Namespace, room: pathlib.Path, fail: Fail) -> None:
    if bool(given.set) != bool(given.recorded):
        fail("--set and --recorded go together")
        return
    with ProcessPoolExecutor(os.cpu_count()) as pool:
        (judge_others if given.recorded else judge_kept)(given, room, pool, fail)


if __name__ == "__main__":
    folder = {"type": lambda word: pathlib.Path(os.path.abspath(word)), "metavar": "FOLDER"}
    check(judge, all_names, set=folder, recorded={**folder, "action": "append", "default": []}, store=FLAG, print=FLAG,
          keep=folder, part=FLAG)
