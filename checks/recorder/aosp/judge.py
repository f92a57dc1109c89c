"""Judges what a guest left of the plan.

Each folder is a recording, and is named after its line of the plan; each line of the plan must have one. A test that
was also played unrecorded must have the same results each time, and may fail only as FAILS says; no frame may be lost
but for those of LOST and MAY_BE_LOST; the report may not differ from the driver's books; the groups must be those that
groups.txt expects; and with stacks the page must show the function that groups.txt names."""

import fnmatch
import functools
import os
import pathlib
import re
import sqlite3
import tempfile
from concurrent.futures import ThreadPoolExecutor
from typing import Iterator, Mapping, NamedTuple, Sequence

from checks.kit.programs import ROOT
from checks.kit.runs import answer
from checks.viewer.page.common import without_numbers
from viewer.page.capture import Capture
from viewer.page.stacks import Frame, GroupStacks, Stacks

HERE = pathlib.Path(__file__).resolve().parent

# The ways in which a test is played; the names of their folders end so.
WAYS = ("-unrecorded", "-redacted", "-stacks")
# The names of stored recordings of the driver in Rust end so.
RUST = "-rust"

# What is lost in a test: the recorder can't read a command of binderDriverInterfaceTest whose address is wrong.
LOST = {"driver": ["call-unreadable"]}
# And what may be: the test forks, and while the kernel copies a page after that, the recorder can't read the page.
MAY_BE_LOST = {"lib": "unreadable"}

# What fails also without the recorder: these tests want priorities that go from a caller to a server, which only the
# driver in Android's own kernels passes on.
FAILS = {"lib-14": {"FAILED BinderLibTest.InheritRt", "FAILED BinderLibTest.SchedPolicySet"}}


class Due(NamedTuple):
    """A line of groups.txt."""
    name: str
    why: str
    verdict: str
    kind: str
    who: str
    path: str
    rules: str
    function: str
    reason: str

    def fits(self, group: "Group") -> bool:
        fields = (self.verdict, group.verdict), (self.kind, group.kind), (self.path, without_numbers(group.path)), \
            (self.rules, group.rules)
        return (self.who == "*" or self.who in group.who.split(",")) \
            and all(fnmatch.fnmatchcase(came, due) for due, came in fields)

    def is_shown(self, frames: list[Frame]) -> bool:
        """Whether these functions have the one that is expected, and the line of the source that the reason begins
        with."""
        line = re.match(r"\w+\.cpp:\d+(?=:)", self.reason)
        return self.function in ("*", *map(name_of_function, frames)) \
            and (line is None or line[0] in [frame.source for frame in frames])


class Group(NamedTuple):
    """A line of `./view --groups`."""
    verdict: str
    kind: str
    n: str
    of: str
    device: str
    process: str
    path: str
    rules: str
    note: str
    who: str
    keys: str


def line_of(name: str) -> str:
    """The line of the plan of a recording: without its release."""
    return re.sub(r"-\d+$", "", name)


def release_of(name: str) -> str:
    return name.rpartition("-")[2]


def groups_due(name: str) -> list[Due]:
    """What is expected of a recording, by its name with or without the release."""
    lines = (HERE / "groups.txt").read_text("utf-8").splitlines()
    every = [Due(*line.split("\t")) for line in lines if line and not line.startswith("#")]
    return [due for due in every if due.name in (name, line_of(name))]


def name_of_function(frame: Frame) -> str:
    """A function without its parameters; that of a lambda is the one that has it."""
    return re.sub(r"(?<=\w)\(.*", "", frame.short)


class Recorded(NamedTuple):
    """What `./view` says of a recording: its groups that are real or maybe, in order, and where the books differ. Of
    each group `frames` has the functions that the page shows first; None without stacks."""
    groups: list[Group]
    frames: list[list[Frame]] | None
    differences: list[str]
    compared: int


@functools.cache
def methods_of_system() -> str:
    status, table, err = answer([ROOT / "viewer/methods/table.py", HERE / "system"], encoding="utf-8")
    if status:
        raise SystemExit(f"checks/aosp: the table of methods was not made: {err.strip()}")
    return table


def first_frames(database: sqlite3.Connection) -> list[list[Frame]]:
    """For each group that is real or maybe the functions that the page shows first, but for those of libbinder."""
    stacks = Stacks(Capture(database, []))
    groups = [GroupStacks(stacks, group).shown for group, in database.execute(
        "SELECT grp FROM finding_group WHERE verdict IN ('real', 'maybe') ORDER BY nth").fetchall()]
    return [shown[0].frames[shown[0].inner:] if shown else [] for shown in groups]


def viewed(folder: pathlib.Path, built: pathlib.Path | None) -> Recorded | str:
    """Calls `./view` for a recording, with the methods of the small system. If it has stacks, `built` names their
    functions. A text says why it said nothing."""
    with tempfile.TemporaryDirectory(prefix="checks-aosp.") as room:
        made, methods = pathlib.Path(room) / "made.db", pathlib.Path(room) / "methods"
        methods.write_text(methods_of_system(), "utf-8")
        captures = sorted(folder.glob("capture-*.cap"), key=lambda path: int(path.stem.split("-")[1]))
        named = ["--symbols", str(built)] if built else []
        status, out, err = answer([ROOT / "view", *captures, "--side", folder / "capture.side", "--groups",
                                   "--database", made, "--methods", methods, *named], encoding="utf-8")
        if status:
            return f"./view ended with status {status}: {err.strip()}"
        with sqlite3.connect(made) as database:
            differences = [" ".join(map(str, found)) for found in database.execute(
                "SELECT p.name, d.what, d.report || ' by the report', d.books || ' by the books'"
                " FROM disagreement d JOIN process p USING (upid) ORDER BY d.id")]
            compared = database.execute("SELECT value FROM capture WHERE key = 'books_compared'").fetchone()
            frames = first_frames(database) if built else None
    groups = [Group(*line.split("\t")) for line in out.splitlines()]
    return Recorded([group for group in groups if group.verdict in ("real", "maybe")], frames, differences,
                    compared[0] if compared else 0)


def faults_of_groups(groups: list[Group], due: list[Due]) -> Iterator[str]:
    """What is wrong with the groups. Those of a fault come before others, and each of them must be there."""
    for group in groups:
        if not any(one.fits(group) for one in due):
            yield "not expected: " + " | ".join(group[:-1])
    faults = [one for one in due if one.why == "fault"]
    for one in faults:
        if not any(one.fits(group) for group in groups):
            yield "not found: " + " | ".join(one[2:7])
    if faults and groups and not any(one.fits(groups[0]) for one in faults):
        yield "not of the fault is the first line: " + " | ".join(groups[0][:-1])


def faults_of_stacks(came: Recorded, due: list[Due]) -> Iterator[str]:
    """Which groups do not show the function that is expected of them."""
    for group, frames in zip(came.groups, came.frames or []):
        fitting = [one for one in due if one.fits(group)]
        if fitting and not any(one.is_shown(frames) for one in fitting):
            yield f"{group.verdict} {group.rules} shows {' < '.join(map(told_of, frames)) or 'no functions'}"


def told_of(frame: Frame) -> str:
    return name_of_function(frame) + (f" ({frame.source})" if frame.source else "")


def told_of_groups(came: Recorded) -> str:
    """The groups, with stacks also the first three functions of each."""
    told = [f"{group.verdict} {group.rules}" for group in came.groups]
    for at, frames in enumerate(came.frames or []):
        if frames:
            told[at] += f" in {' < '.join(map(told_of, frames[:3]))}"
    return ", ".join(told) or "no real or maybe"


def results_of(folder: pathlib.Path) -> list[str]:
    """The results of a test: lines of googletest, or lines that say whether it passed."""
    text = (folder / "output").read_text("utf-8", errors="replace")
    return [" ".join(words) for words in re.findall(r"^\[ +(OK|FAILED|SKIPPED) +\] ([\w./]+) \(", text, re.M)] \
        or re.findall(r"\b(PASS|FAIL)\b", text)


def lost_of(folder: pathlib.Path) -> list[str]:
    """Why frames were lost, and what was missed. A recording that came to no end has lost what is not known."""
    side = (folder / "capture.side").read_text("utf-8", errors="surrogateescape")
    if not re.search(r"^\d+ end recording ", side, re.M):
        return ["no end"]
    return re.findall(r"^\d+ lost \d+ .*why=(\S+)", side, re.M) + re.findall(r"^\d+ missed \d+ what=(\S+)", side, re.M)


def status_due(name: str) -> str:
    """The status of a recording, by its name with the release."""
    return "1" if name in FAILS else "0"


def name_of(folder: pathlib.Path) -> str:
    return next((folder.name.removesuffix(way) for way in (*WAYS, RUST) if folder.name.endswith(way)), folder.name)


def faults_of(folder: pathlib.Path, told: list[str], symbols: Mapping[str, pathlib.Path] = {}) -> Iterator[str]:
    """What is wrong with a folder. `told` gets what is said of it in any case."""
    name = name_of(folder)
    status, _, how, *_ = (folder / "status").read_text("utf-8").split()
    results, plain = results_of(folder), folder.parent / f"{name}-unrecorded"
    if status != status_due(name):
        yield f"status {status}"
    failed = {result for result in results if result.startswith("FAIL")}
    if results and (others := failed ^ FAILS.get(name, set())):
        yield f"others fail than should: {', '.join(sorted(others))}"
    if plain.is_dir():
        told.append(f"{sum(result.startswith(('OK', 'PASS')) for result in results)} of {len(results)} passed")
        if results != results_of(plain):
            yield f"other results than unrecorded: {' '.join(sorted(set(results) ^ set(results_of(plain))))}"
    if folder == plain:
        return
    output = (folder / "output").read_text("utf-8", errors="replace")
    lost, frames = lost_of(folder), re.search(r"record: (\d+) frames", output)
    told += [f"{frames[1] if frames else 'no'} frames", f"{len(lost)} lost"]
    if [why for why in lost if why != MAY_BE_LOST.get(line_of(name))] != LOST.get(line_of(name), []):
        yield f"lost: {' '.join(lost)}"
    came = viewed(folder, symbols.get(release_of(name)) if how == "--stacks" else None)
    if isinstance(came, str):
        yield came
        return
    told.append(f"books of {came.compared} openings, {len(came.differences)} differences")
    told.append(told_of_groups(came))
    if not came.compared:
        yield "no opening could be compared with the books"
    yield from (f"the books differ: {difference}" for difference in came.differences)
    yield from faults_of_groups(came.groups, due := groups_due(name))
    yield from faults_of_stacks(came, due)


def judged(folder: pathlib.Path, symbols: dict[str, pathlib.Path]) -> tuple[list[str], list[str]]:
    """What is said of a recording, and what is wrong with it."""
    told: list[str] = []
    return told, list(faults_of(folder, told, symbols)) if (folder / "status").exists() else ["not played"]


def judged_all(source: pathlib.Path, names: Sequence[str], symbols: dict[str, pathlib.Path]) -> Iterator[str]:
    """Prints a line for each recording, and returns what is wrong with them. For each release of Android there is a
    folder of what was built, which names functions."""
    with ThreadPoolExecutor(os.cpu_count()) as pool:
        for name, (told, faults) in zip(names, pool.map(lambda name: judged(source / name, symbols), names)):
            print(f"{name}: {'; '.join(told)}", flush=True)
            yield from (f"{name}: {fault}" for fault in faults)
