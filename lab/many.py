#!/usr/bin/env python3
"""Makes the results of sessions of a lab, LAB/results/BUILD/DEVICE/SESSION.json.

    many.py LAB [--at-once N] < SESSIONS

SESSIONS are lines of sessions.py. Modules, rules and statements are read once by each of N processes, by default 1: of
a small capture these take longer than all else. Each makes one result after another; of large captures, and of those
that are not as usual, each result is made by a process that is forked for it.

Tables of methods in LAB/BUILD, SOMETHING.methods, are for all captures of the build. A line on standard error says how
far the lab is, if LAB/results/.progress says how many sessions there are to do.

Status 0: all are done. 1: some have no result; a line says why. 4: LAB can't be read or written.
"""

import argparse
import contextlib
import fcntl
import pathlib
import re
import resource
import signal
import sys
import time
from typing import Callable, Iterable, Iterator, NamedTuple

HERE = pathlib.Path(__file__).resolve().parent
sys.path.insert(0, str(HERE.parent))
sys.dont_write_bytecode |= not (HERE.parent / "crates/build").exists()
from viewer.whole_python import need_whole_python  # noqa: E402
need_whole_python("fleet")
from lab import crew  # noqa: E402
from lab.basis import basis_of  # noqa: E402
from lab.one import Inputs, Starting, one, result_of, version  # noqa: E402
from lab.worker import Maker  # noqa: E402
from viewer.files import Stopped  # noqa: E402
from viewer.scratch import folder_in  # noqa: E402
from viewer.terminal import tell  # noqa: E402

# How long a capture may take, in seconds.
LONGEST = 3600

# The most memory that a process may have taken that goes on to the next capture, in KiB.
MOST_MEMORY = 2**18


# ---- the files of a session


def part_of(path: pathlib.Path) -> int:
    return int(path.stem.rpartition("-")[2])


def inputs_of(lab: pathlib.Path, session: str) -> Inputs:
    """The files of a session: SESSION.cap, or its parts SESSION-1.cap, SESSION-2.cap and so on, with SESSION.side or a
    side list for each part; and the tables of methods of its build."""
    at = lab / session
    files = [at.with_name(f"{at.name}.cap")]
    if not files[0].exists():
        parts = re.compile(re.escape(at.name) + r"-[0-9]+\.cap")
        files = sorted((it for it in at.parent.iterdir() if parts.fullmatch(it.name)), key=part_of)
        if not files:
            raise Stopped(4, f"{at}.cap: it is no longer there")
    sides = [at.with_name(f"{at.name}.side")]
    if not sides[0].exists():
        sides = [it.with_suffix(".side") for it in files]
    tables = sorted((lab / session.partition("/")[0]).glob("*.methods"))
    return Inputs([str(it) for it in files], [str(it) for it in sides if it.exists()], [str(it) for it in tables])


# ---- how far the lab is


class Progress:
    """The files in LAB/results/.progress: `total` has how many sessions there are to do; `done` and `failed` have a
    byte for each that is. One process at a time appends and tells, so that the lines come in their order."""

    def __init__(self, lab: pathlib.Path) -> None:
        self.folder = lab / "results/.progress"

    def size(self, name: str) -> int:
        with contextlib.suppress(FileNotFoundError):
            return (self.folder / name).stat().st_size
        return 0

    def note(self, is_done: bool) -> None:
        if not self.folder.is_dir():
            return
        with open(self.folder / ("done" if is_done else "failed"), "ab", buffering=0) as file:
            fcntl.flock(file, fcntl.LOCK_EX)
            file.write(b".")
            if is_done:
                self.tell_all()

    def tell_all(self) -> None:
        try:
            total = int((self.folder / "total").read_text("ascii"))
        except FileNotFoundError:
            return
        done, failed = self.size("done"), self.size("failed")
        ended, seconds = done + failed, int(time.time() - (self.folder / "total").stat().st_mtime)
        if ended % (total // 100 + 1) == 0 or ended >= total:
            left = max(total - ended, 0)
            tell("fleet", f"{done} done, {failed} failed, {left} left, {seconds * left // ended} s to go")


# ---- results


class By(NamedTuple):
    """What makes results: the programs in a folder, with what is known of them."""
    root: pathlib.Path
    basis: str


def write_one(by: By, lab: pathlib.Path, session: str, inputs: Inputs, make: Callable[[Inputs], dict]) -> None:
    """Writes the result of a session, and a line if it does not have all defects."""
    build, device, _ = session.split("/", 2)
    if why := one(by.root, inputs, build, device, lab / "results" / f"{session}.json", make, by.basis):
        tell("fleet", why)


def made_alone(by: By, lab: pathlib.Path, session: str) -> int:
    """Makes the result of a session. Its status."""
    try:
        write_one(by, lab, session, inputs_of(lab, session),
                  lambda inputs: result_of(by.root, inputs, LONGEST, Starting.FORKED))
        return 0
    except Stopped as stopped:
        tell("fleet", str(stopped))
        return stopped.status
    except OSError as error:
        tell("fleet", f"{error.filename}: {error.strerror}")
        return 4


@contextlib.contextmanager
def worker(by: By, lab: pathlib.Path) -> Iterator[crew.Take]:
    """Makes the results of small captures. It says nothing of one that it can't make."""
    with folder_in(None, "fleet") as room, contextlib.closing(Maker(by.root, room)) as maker:

        def take(session: str) -> crew.Said:
            try:
                inputs = inputs_of(lab, session)
                if not maker.takes(inputs):
                    return crew.Said(None, True)
                write_one(by, lab, session, inputs, maker.result_of)
            except Exception:
                return crew.Said(None, False)
            return crew.Said(0, resource.getrusage(resource.RUSAGE_SELF).ru_maxrss < MOST_MEMORY)
        yield take


def make_all(by: By, lab: pathlib.Path, sessions: Iterable[str], at_once: int) -> bool:
    """Makes the results, so many at once. Whether all are done."""
    progress, are_done = Progress(lab), True
    work = crew.Work(lambda: worker(by, lab), lambda session: made_alone(by, lab, session))
    with contextlib.closing(crew.statuses(work, sessions, at_once)) as statuses:
        for status in statuses:
            try:
                progress.note(status == 0)
            except OSError as error:  # what is done is done
                tell("fleet", f"{error.filename or progress.folder}: {error.strerror}")
            are_done = are_done and status == 0
    return are_done


def read_once(root: pathlib.Path) -> By:
    """Reads here what each result takes, so that the forks have it."""
    from viewer import showing  # noqa: F401
    from viewer.database import raw_tables
    from viewer.database.programs import build_programs
    from viewer.page import group_lines  # noqa: F401
    from viewer.rules import judging
    build_programs(root)
    raw_tables.loader()
    raw_tables.schema()
    judging.plan_of(judging.FOLDER)
    version(root)
    return By(root, basis_of(root))


def sessions_in(lines: Iterable[str]) -> Iterator[str]:
    yield from filter(None, (line.rstrip("\n") for line in lines))


def main() -> int:
    line = argparse.ArgumentParser(description=__doc__, formatter_class=argparse.RawDescriptionHelpFormatter)
    line.add_argument("lab", type=pathlib.Path)
    line.add_argument("--at-once", type=int, default=1, dest="at_once")
    asked = line.parse_args()
    signal.signal(signal.SIGTERM, lambda *_: sys.exit(128 + signal.SIGTERM))
    try:
        by = read_once(HERE.parent)
        return 0 if make_all(by, asked.lab, sessions_in(sys.stdin), max(asked.at_once, 1)) else 1
    except Stopped as stopped:
        tell("fleet", str(stopped))
        return stopped.status
    except OSError as error:
        tell("fleet", f"{error.filename or asked.lab}: {error.strerror}")
        return 4


if __name__ == "__main__":
    sys.exit(main())
