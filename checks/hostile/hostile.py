"""Plays hostile inputs to the commands: captures, side lists, books, sources and tables of methods, kept databases,
results, labs, and names of files, each changed by chance.

    checks/run hostile                                          a few inputs of each kind, which are always the same
    checks/run hostile -- --inputs N [--seed S] [--kind K]..    N inputs of each kind, of another seed; prints a table
    checks/run hostile -- --kind K --first I --inputs 1 ..      the input I again; --keep FOLDER keeps its files
    checks/run hostile -- --ends N                              ends the viewer N times while it writes, and no more

What must hold of each run:

- It ends, in 30 s of the processor and with 1 GiB at most, with a status that the command's `--help` documents.
- No exception of Python comes to a user, and each line on standard error begins with the name of the command. A status
  that says that something is wrong comes with a line.
- No control character, no mark of direction and nothing that is no UTF-8 comes to a terminal.
- Each file that comes was asked for, and is whole: a page ends and has no markup but that of its templates, a database
  passes the check of its integrity, a timeline and a result are read to the end. Nothing is left in TMPDIR.
- The viewer says of a malformed capture what the auditor says, and names it. A lab of which all is said to be done has
  a result of each session, and no name of a file is run.
- A viewer that is killed, or whose disk is full, leaves no half file under a final name; and the next one removes what
  the others left.
"""

import argparse
import pathlib
import random
import re
import shutil
from collections import Counter
from typing import Iterator, NamedTuple

from checks.hostile.ended import faults_of_ends
from checks.hostile.kinds import KINDS, Stock, stock_of
from checks.hostile.oracle import faults_between, faults_of, files_in
from checks.hostile.plays import Came, Play, Player
from checks.kit.checking import Fail, check, row
from checks.kit.programs import built_programs

# How many inputs of each kind there are without words, and how often the viewer is ended then.
INPUTS, ENDS = 2, 1

# Which part of the runs is started in full.
IN_FULL = 0.05


class Input(NamedTuple):
    """An input: all of it follows from these."""
    kind: str
    seed: int
    number: int

    def chance(self) -> random.Random:
        return random.Random(f"{self.kind} {self.seed} {self.number}")

    def __str__(self) -> str:
        return f"--kind {self.kind} --seed {self.seed} --first {self.number}"


class Tally:
    """What came of all runs: how often which status, and each fault once, with its first input."""

    def __init__(self) -> None:
        self.statuses: Counter[tuple[str, str, int]] = Counter()
        self.faults: dict[str, list[str]] = {}

    def add(self, one: Input, runs: list[tuple[Play, Came]]) -> None:
        for play, came in runs:
            self.statuses[one.kind, command_of(play), came.status] += 1

    def add_fault(self, one: Input, play: Play, what: str) -> bool:
        """Returns whether no such fault was met before. Faults are alike if only their numbers and names differ."""
        alike = re.sub(r"\d+|'[^']*'", "..", f"{one.kind} {command_of(play)} {what}")
        met = self.faults.setdefault(alike, [])
        met.append(f"{one}: {play}: {what}")
        return len(met) == 1

    def lines(self) -> Iterator[str]:
        for met in self.faults.values():
            yield met[0] + (f" (and {len(met) - 1} more)" if len(met) > 1 else "")

    def print(self) -> None:
        row("inputs", "command", "runs", "by status")
        row(*["---"] * 4)
        for kind, command in sorted({(kind, command) for kind, command, _ in self.statuses}):
            by = {status: n for (*of, status), n in sorted(self.statuses.items()) if of == [kind, command]}
            row(kind, command, sum(by.values()), ", ".join(f"{status}: {n}" for status, n in by.items()))


def command_of(play: Play) -> str:
    """The command, with its first word if that tells it from others."""
    return f"{play.program} {play.words[0]}" if play.program in ("./audit", "./fleet") else play.program


def play_input(player: Player, stock: Stock, one: Input, room: pathlib.Path, tally: Tally) -> Iterator[str]:
    """Plays an input to its commands. Yields the faults that were not met before."""
    runs: list[tuple[Play, Came]] = []
    fulls = random.Random(f"{one} in full")
    for play in KINDS[one.kind](one.chance(), stock, room):
        before, play = files_in(room), play._replace(in_full=play.in_full or fulls.random() < IN_FULL)
        came = player.play(play, room)
        runs.append((play, came))
        for what in faults_of(play, came, room, before):
            if tally.add_fault(one, play, what):
                yield what
    for play, what in faults_between(runs):
        if tally.add_fault(one, play, what):
            yield what
    tally.add(one, runs)


def kept(room: pathlib.Path, folder: pathlib.Path, one: Input) -> None:
    """Keeps the files of an input."""
    shutil.copytree(room, folder / f"{one.kind}-{one.seed}-{one.number}", symlinks=True, dirs_exist_ok=True,
                    ignore=lambda at, names: [name for name in names if (pathlib.Path(at) / name).is_fifo()])


def judge(given: argparse.Namespace, room: pathlib.Path, fail: Fail) -> Iterator[str]:
    (room / "streams").mkdir()
    player = Player(built_programs(room, given.programs[0]), room / "streams")
    if given.ends is None:
        yield from judge_inputs(player, given, room)
    if given.ends or given.inputs is None:
        yield from faults_of_ends(player, random.Random(given.seed), room / "ends", given.ends or ENDS)


def judge_inputs(player: Player, given: argparse.Namespace, room: pathlib.Path) -> Iterator[str]:
    (room / "stock").mkdir()
    stock, tally = stock_of(player, room / "stock"), Tally()
    for kind in given.kind or KINDS:
        for number in range(given.first, given.first + (given.inputs or INPUTS)):
            one, at = Input(kind, given.seed, number), room / "input"
            (at / "tmp").mkdir(parents=True)
            if list(play_input(player, stock, one, at, tally)) and given.keep:
                kept(at, given.keep, one)
            shutil.rmtree(at)
    if given.inputs:
        tally.print()
    yield from tally.lines()


if __name__ == "__main__":
    check(judge, inputs={"type": int, "metavar": "N", "help": "how many inputs of each kind"},
          seed={"type": int, "metavar": "S", "default": 1, "help": "another seed gives other inputs"},
          kind={"choices": tuple(KINDS), "action": "append", "help": "only this kind; may come several times"},
          first={"type": int, "metavar": "I", "default": 0, "help": "the number of the first input"},
          keep={"type": pathlib.Path, "metavar": "FOLDER", "help": "keeps the inputs of faults"},
          ends={"type": int, "metavar": "N", "help": "how often the viewer is ended"})
