"""Checks how a flight recorder keeps its files while it goes on: by each trigger, by a signal and by `record --keep`.

    checks/run keeping [-- CASE..]

It builds the recorder with a driver that is made up (keeping.c), in a time of its own: 500 calls a second, and what a
plan says. What must hold:

- What is kept are the newest files up to one moment: each number up to that once, in a frame and in a side list; copies
  of the driver's books, of the length that the list names; and one line `kept`, which says why, and of which record.
  The recording goes on: each of its frames once, none lost, and no more files than it may have.
- A call that hangs keeps a set once, and no trigger keeps one within a minute of another. What has not come keeps
  none.
- If too many sets are there, or the disk has not the room, one line says so, and nothing of a set is left.
- Whenever the recorder is killed, the disk becomes full or the power is lost while a set is kept, there is a whole set
  or none under its last name; a full disk ends no recording and leaves nothing.
"""

import argparse
import functools
import os
import pathlib
import re
import signal
import struct
import subprocess
import time
from typing import Callable, NamedTuple

from checks.kit.captures import BC_TRANSACTION
from checks.kit.checking import Fail, check
from checks.kit.frames import Frame, end_of, frames_of
from checks.kit.programs import CHECKS

WRAPPED = ("open", "clock_gettime", "nanosleep", "mkdir", "linkat", "write", "fsync", "rename", "fstatvfs")
FILES, SIZE = 4, 1_000_000

# ---- what was recorded


class Files(NamedTuple):
    """Files of a recording, or of a set: by number, the frames of each; and the lines of its list."""
    frames: dict[int, list[Frame]]
    lines: dict[int, list[str]]

    def numbers(self) -> list[int]:
        return [frame.sequence for at in sorted(self.frames) for frame in self.frames[at]]

    def told(self) -> list[int]:
        """The numbers of the frames of all lists, without what each list begins with."""
        return [number for at in sorted(self.lines) for line in self.lines[at] for number in numbers_in(line)]

    def are_whole(self) -> bool:
        """Each number is there once, in a frame and in a list."""
        numbers = self.numbers()
        return numbers == list(range(numbers[0], numbers[-1] + 1)) == self.told()


def numbers_in(line: str) -> range:
    _, word, *rest = line.split()
    return range(int(rest[0]), int(rest[0]) + len(rest)) if word == "frames" else range(0)


def files_of(out: pathlib.Path) -> Files:
    found = Files({}, {})
    for path in out.parent.glob(f"{out.name}-*"):
        number = int(path.stem.rpartition("-")[2])
        if path.suffix == ".cap":
            data = path.read_bytes()
            found.frames[number] = frames_of(data)
            assert end_of(found.frames[number]) == len(data), path
        else:
            found.lines[number] = path.read_text("utf-8").splitlines()[1:]
    return found


class Run(NamedTuple):
    out: pathlib.Path
    status: int
    said: str

    @property
    def name(self) -> str:
        return self.out.parent.name

    def folders(self) -> list[pathlib.Path]:
        return list(self.out.parent.glob(f"{self.out.name}.kept-*"))

    def sets(self) -> list[pathlib.Path]:
        """The folders of whole sets, the oldest one first."""
        return sorted(self.folders(), key=lambda it: last_line(it, self.out.name)[0])

    def told(self) -> list[str]:
        """The line `kept` of each."""
        return ["".join(line.partition(" ")[2] for line in last_list(folder, self.out.name)
                        if line.split(" ")[1] == "kept") for folder in self.sets()]


def last_list(folder: pathlib.Path, name: str) -> list[str]:
    lines = files_of(folder / name).lines
    return lines[max(lines)]


def last_line(folder: pathlib.Path, name: str) -> tuple[int, str]:
    time_of, _, rest = last_list(folder, name)[-1].partition(" ")
    return int(time_of), rest


# ---- the recorder

# What logcat says after a moment.
LOGCAT = """#!/bin/sh
echo old
sleep 0.3
echo x
printf '12-01 06:30:00.000   412   430 E ActivityManager: ANR in com.example\\033[2J.camera\\n'
exec sleep 60
"""


class Recorder(NamedTuple):
    room: pathlib.Path
    fail: Fail

    def words(self, out: pathlib.Path, *more: str) -> list[str]:
        return [str(self.room / "keeping"), "-o", str(out), "--files", str(FILES), "--size", str(SIZE), *more]

    def run(self, name: str, plan: str, *words: str, **environment: str) -> Run:
        out = self.room / name / "o"
        out.parent.mkdir(exist_ok=True)
        return self.ended(out, self.words(out, *words), PLAN=plan, **environment)

    def ended(self, out: pathlib.Path, words: list[str], **environment: str) -> Run:
        """What becomes of the recorder by these words, on a system whose logcat is made up."""
        names = {**os.environ, "PATH": f"{self.room}/log:{os.environ['PATH']}", **environment}
        ended = subprocess.run(words, env=names, capture_output=True, encoding="utf-8", timeout=120)
        return Run(out, ended.returncode, ended.stderr)

    def must(self, run: Run, holds: bool, what: str = "") -> None:
        if not holds:
            self.fail(f"{run.name}: {what or 'ended'} with {run.status}, sets {run.sets()}: {run.said}")

    def judge_recording(self, run: Run) -> None:
        """The recording went on to its end."""
        files = files_of(run.out)
        if not files.are_whole():
            self.fail(f"{run.name}: the frames of the recording are not those of its lists, each once")
        if len(files.frames) != FILES or files.frames.keys() != files.lines.keys():
            self.fail(f"{run.name}: expected {FILES} files, came {sorted(files.frames)} and {sorted(files.lines)}")
        self.must(run, not run.status and bool(re.search(r"record: [0-9]+ frames, 0 lost", run.said)))
        if (run.out.parent / "o.keeping").exists():
            self.fail(f"{run.name}: a part of a set is left")

    def judge_set(self, run: Run, folder: pathlib.Path) -> None:
        """A set is whole."""
        files, name = files_of(folder / run.out.name), f"{run.name}: {folder.name}"
        numbers, newest = files.numbers(), max(files.lines)
        end = re.fullmatch(r"end recording after=(\d+) frames=(\d+) lost=0", last_line(folder, run.out.name)[1])
        if not files.are_whole():
            self.fail(f"{name}: the frames are not those of its lists, each once")
        if not end or int(end[1]) != numbers[-1] or int(end[2]) != numbers[-1]:
            self.fail(f"{name}: ends with {numbers[-1]}: {last_line(folder, run.out.name)[1]}")
        most = FILES if min(files.frames) > 1 else newest
        if files.frames.keys() != files.lines.keys() or len(files.frames) != most:
            self.fail(f"{name}: has {sorted(files.frames)} and {sorted(files.lines)}")
        if any(line.split(" ")[1] in ("kept", "end recording") for at in files.lines if at != newest
               for line in files.lines[at]):
            self.fail(f"{name}: an older list says why it was kept, or ends the recording")
        self.judge_times(files.lines[newest], name)
        self.judge_books(folder / run.out.name, files.lines, name)

    def judge_times(self, lines: list[str], name: str) -> None:
        end = int(lines[-1].split(" ")[0])
        late = [line for line in lines if int(line.split(" ")[0]) > end]
        if late or [line.split(" ")[1] for line in lines].count("kept") != 1:
            self.fail(f"{name}: expected one line `kept`, and nothing later than the end: {late}")

    def judge_books(self, out: pathlib.Path, lists: dict[int, list[str]], name: str) -> None:
        told = {f"{out.name}.{found[1]}.{found[2]}": int(found[3]) for lines in lists.values() for line in lines
                if (found := re.search(r" books (\w+) (\w+) .*bytes=(\d+)$", line))}
        there = {path.name: path.stat().st_size for path in out.parent.glob(f"{out.name}.*")}
        if there != told or sum(1 for book in told if ".end." in book) != 3:
            self.fail(f"{name}: the lists name {told}, and there are {there}")

    def judge_sets(self, run: Run) -> None:
        for folder in run.sets():
            self.judge_set(run, folder)

    def judge_run(self, run: Run, *lines: str) -> None:
        """The recording, and its sets, whose lines say this."""
        self.judge_recording(run)
        told = run.told()
        if len(told) != len(lines) or not all(map(re.fullmatch, lines, told)):
            self.fail(f"{run.name}: expected {lines}, came {told}: {run.said}")
        self.judge_sets(run)


# ---- cases: first those that are a recording and its set, or none


class Case(NamedTuple):
    """A plan and what --keep-on has; the line of the one set, if one is kept; something that the recorder says; more
    words for it, and its environment. ROOM stands for the folder of all cases."""
    plan: str
    on: str = ""
    line: str = ""
    said: str = ""
    words: tuple[str, ...] = ()
    environment: dict[str, str] = {}

    def play(self, it: Recorder, name: str) -> Run:
        words = [word.replace("ROOM", str(it.room)) for word in (*["--keep-on", self.on] * bool(self.on), *self.words)]
        names = {key: text.replace("ROOM", str(it.room)) for key, text in self.environment.items()}
        run = it.run(name, self.plan, *words, **names)
        it.judge_run(run, *[self.line.replace("ROOM", re.escape(str(it.room)))] * bool(self.line))
        it.must(run, self.said in run.said and "\x1b" not in run.said, f"expected {self.said!r}, ended")
        return run


HANG = "10:hang 30:end"
HANG_LINE = r"kept hang after=\d+ frame=(\d+) at=0 pid=4000 since=1010000000000 limit=5000000000 name="
ASKED_LINE = r"kept asked after=\d+ name="
SIGNALLED = "10:signal 30:end"
TABLE = {
    "hang_is_short": Case(HANG, "hang:13s"),
    "hang_is_long": Case("10:long 120:end", "hang:5s", HANG_LINE),  # after a minute it is still the same call
    "pool": Case("10:pool 30:end", "pool:2s",
                 r"kept pool after=\d+ frame=\d+ at=0 pid=3000 since=1010000000000 limit=2000000000 name=",
                 "because all 2 threads of service (3000) serve, and a call of process 5000 has waited for 2.0 s"),
    "pool_is_short": Case("10:pool 30:end", "pool:5s"),
    "refused": Case("10:refused 30:end", "refused:200/s",
                    r"kept refused after=\d+ frame=\d+ at=0 pid=5000 since=10\d+ limit=200 name="),
    "few_refused": Case("10:refused 30:end", "refused:400/s"),
    "death": Case("10:death 30:end", "death:victim", r"kept death after=\d+ pid=6000 name=victim"),
    "death_of_another": Case("10:death 30:end", "death:vict"),
    "watched": Case("10:touch 30:end", "", r"kept file after=\d+ name=ROOM/a file\\x0a", "",
                    ("--keep-when-file", "ROOM/a file\n"), {"WATCHED": "ROOM/a file\n"}),
    "watched_before": Case("30:end", words=("--keep-when-file", "ROOM/keeping")),
    "log": Case("300:end", "logcat:ANR in [a-z.]+",
                r"kept logcat after=\d+ name=12-01 .* ANR in com\.example\\x1b\[2J\.camera"),
    "log_is_redacted": Case("300:end", "logcat:ANR in", r"kept logcat after=\d+ name=", words=("--redact",)),
    "log_has_another": Case("300:end", "logcat:ANR of"),
    "signalled": Case(SIGNALLED, "", ASKED_LINE),
    "too_many": Case("10:signal 20:signal 30:end", "", ASKED_LINE, "nothing is kept, though somebody asked for it: 1"
                     " sets are kept, and --keep-most allows 1", ("--keep-most", "1")),
    "no_room": Case(SIGNALLED, said="the disk has 4194304 bytes free, and the files", environment={"FREE": "4194304"}),
    "no_links": Case(HANG, "hang:5s", HANG_LINE, environment={"NO_LINKS": "1"}),
    "no_room_for_copies": Case(SIGNALLED, said="No space left on device",
                               environment={"NO_LINKS": "1", "FREE": "5505024"}),
}


def hang(it: Recorder) -> None:
    """The line of the set names the call that hangs, by its process and its code."""
    run = Case(HANG, "hang:5s", HANG_LINE, "because a call of camera_app (4000), ICamera code 7, has been open for 5.0"
               " s; next: ").play(it, "hang")
    for folder, line in zip(run.sets(), run.told()):
        found = re.fullmatch(HANG_LINE, line)
        frames = {frame.sequence: frame for some in files_of(folder / "o").frames.values() for frame in some}
        frame = frames.get(int(found[1])) if found else None
        if not frame or (frame.process, frame.commands[:4], frame.commands[20:24]) != (
                4000, struct.pack("<I", BC_TRANSACTION), struct.pack("<I", 7)):
            it.fail(f"hang: the record that the list names is no call of the process that hangs: {frame!r}")


def hangs_often(it: Recorder) -> None:
    """The second one within a minute of the first one's set, the third one later."""
    later = HANG_LINE.replace("1010000000000", "1090000000000")
    it.judge_run(it.run("hangs_often", "10:hang 30:hang 90:hang 110:end", "--keep-on", "hang:5s"), HANG_LINE, later)


def first_file(it: Recorder) -> None:
    """The copies of the beginning are in a set that has the first file."""
    run = Case("1:signal 30:end", "", ASKED_LINE).play(it, "first_file")
    for folder in run.sets():
        if not (folder / "o.begin.state").exists() or not (folder / "o-1.cap").exists():
            it.fail(f"first_file: {sorted(folder.iterdir())}")


def no_log(it: Recorder) -> None:
    run = it.run("no_log", "1:end", "--keep-on", "logcat:x", PATH="/nowhere")
    it.must(run, run.status == 1 and "--keep-on logcat: there is no program logcat" in run.said
            and not list(run.out.parent.glob("*.cap")))


def signalled_when_quiet(it: Recorder) -> None:
    """No frame comes that would begin the next file."""
    run = it.run("quiet", "10:quiet 11:signal 30:end")
    it.must(run, not run.status and len(run.sets()) == 1 and "0 lost" in run.said)
    it.judge_sets(run)


def signalled_without_files(it: Recorder) -> None:
    run = it.ended(it.room / "whole", [str(it.room / "keeping"), "-o", str(it.room / "whole")], PLAN="2:signal 4:end")
    it.must(run, not run.status and "nothing is kept: only a recording with --files removes files" in run.said)


def asked(it: Recorder) -> None:
    """By `--keep`: the recorder of these files, or the only one."""
    out = it.room / "asked" / "o"
    out.parent.mkdir()
    with subprocess.Popen(it.words(out), env={**os.environ, "PLAN": ""}, stderr=subprocess.PIPE,
                          encoding="utf-8") as program:
        while not (out.parent / "o-1.cap").exists():
            time.sleep(0.01)
        time.sleep(0.5)
        told = [subprocess.run([it.room / "keeping", "--keep", "-o", name], cwd=out.parent, capture_output=True,
                               encoding="utf-8") for name in ("o", str(out), "p")]
        program.send_signal(signal.SIGINT)
        _, said = program.communicate(timeout=60)
    run = Run(out, program.returncode, said)
    it.judge_recording(run)
    none = f"no recorder runs with --files into {out.parent}/p"
    if [one.returncode for one in told] != [0, 0, 1] or none not in told[2].stderr:
        it.fail(f"asked: {told}")
    if {one.stdout.strip() for one in told[:2]} != {str(folder) for folder in run.sets()} or len(run.sets()) != 2:
        it.fail(f"asked: {told} and {run.sets()}")
    it.judge_sets(run)


def left_over(it: Recorder) -> None:
    """What a killed recorder has left of a set is in the way, and stays."""
    (it.room / "left_over/o.keeping").mkdir(parents=True)
    run = it.run("left_over", "1:end")
    it.must(run, run.status == 1 and f"{run.out}.keeping exists already" in run.said
            and os.listdir(run.out.parent) == ["o.keeping"])


def ends_meanwhile(it: Recorder) -> None:
    """The recording ends while a set is kept: soon after that was asked for, and a while after it."""
    for looks in (1, 2, 3, 4, 6, 8, 12, 20, 40):
        run = it.run(f"ends_meanwhile_{looks}", f"20:signal {20 + looks / 20}:end")
        it.judge_recording(run)
        it.judge_sets(run)
        said = "record: kept " in run.said, "and its own files have it" in run.said
        it.must(run, len(run.sets()) == said[0] and sum(said) == 1)


SHORT = "5:signal 9:end"
LEAST_CALLS, MOST_CALLS = 10, 200  # of the system that a set takes


def whole_or_none(it: Recorder, run: Run) -> int:
    """How many sets there are, each of them whole."""
    for folder in run.folders():
        try:
            it.judge_set(run, folder)
        except (ValueError, AssertionError, IndexError) as error:
            it.fail(f"{run.name}: {folder.name} is not whole: {error!r}")
    return len(run.folders())


def each_call(it: Recorder, name: str, variable: str, **environment: str) -> None:
    """Runs once for each call of the system that a set takes, up to a run in which it does not come so far. A recording
    that is not killed goes on."""
    for at in range(1, MOST_CALLS):
        where = {"POWER": str(it.room / f"{name}_{at}")} if "POWER" in environment else {}
        run = it.run(f"{name}_{at}", SHORT, **{**environment, **where, variable: str(at)})
        sets = whole_or_none(it, run)
        if variable != "KILL_AT":
            it.must(run, not run.status and "0 lost" in run.said and not (run.out.parent / "o.keeping").exists())
        if sets and not run.status:
            break
    if not LEAST_CALLS < at < MOST_CALLS - 1:
        it.fail(f"{name}: a set is kept by {at} calls")


def killed(it: Recorder) -> None:
    each_call(it, "killed", "KILL_AT")


def killed_while_copying(it: Recorder) -> None:
    each_call(it, "killed_while_copying", "KILL_AT", NO_LINKS="1")


def power(it: Recorder) -> None:
    each_call(it, "power", "KILL_AT", POWER="")


def full(it: Recorder) -> None:
    each_call(it, "full", "FULL_AT")


CASES: dict[str, Callable[[Recorder], object]] = {
    **{name: functools.partial(case.play, name=name) for name, case in TABLE.items()},
    **{case.__name__: case for case in (hang, hangs_often, first_file, no_log, signalled_when_quiet,
                                        signalled_without_files, asked, left_over, ends_meanwhile, killed,
                                        killed_while_copying, power, full)}}


def judge_all(given: argparse.Namespace, room: pathlib.Path, fail: Fail) -> None:
    wrapped = "".join(f",--wrap={name}" for name in WRAPPED)
    subprocess.run([CHECKS / "recorder/build.sh", "keeping", room, f"-Wl{wrapped}"], check=True)
    (room / "log").mkdir()
    (room / "log/logcat").write_text(LOGCAT, "utf-8")
    (room / "log/logcat").chmod(0o700)
    for name in given.cases:
        CASES[name](Recorder(room, fail))


if __name__ == "__main__":
    check(judge_all, cases=lambda: list(CASES))
