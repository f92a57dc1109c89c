"""A capture to its result: `./view` makes its database, in a folder that is removed also if this is killed."""

import contextlib
import ctypes
import enum
import functools
import hashlib
import os
import pathlib
import select
import signal
import subprocess
import sys
import time
import traceback
from typing import Callable, NamedTuple, NoReturn

from lab import result
from lab.basis import basis_of, tables_of
from lab.wrong_list import why_wrong
from viewer.database import side_belongs
from viewer.defects.seen import kept_database
from viewer.files import Stopped, shown_name, unchanged
from viewer.malformed import fault_of
from viewer.program_names import PACKED
from viewer.scratch import folder_in

# The option of prctl by which the system ends a process when its parent ends.
PR_SET_PDEATHSIG = 1

# The statuses of `./view` after which there is a database, and those that mean the same here.
VIEWED, SAME = (0, 2), (3, 4, 64)

# A disk with fewer free bytes is full.
LITTLE = 2**16


class Inputs(NamedTuple):
    """The files of a capture, its side lists, and the tables of methods."""
    files: list[str]
    sides: list[str]
    methods: list[str]

    def options(self) -> list[str]:
        sides = [f"--side={side}" for side in self.sides] or ["--no-side"]
        return sides + [f"--methods={table}" for table in self.methods]


def digest_of(files: list[str]) -> str:
    """The name of a capture, so that it counts once."""
    whole = hashlib.blake2b(digest_size=16)
    for name in files:
        try:
            with open(name, "rb") as file:
                while piece := file.read(1 << 20):
                    whole.update(piece)
        except OSError as error:
            raise Stopped(4, f"{name}: {error.strerror}") from error
    return whole.hexdigest()


@functools.cache
def version(root: pathlib.Path) -> str | None:
    """Which programs made a result: the version of a package, or the commit of the repository."""
    if PACKED:
        with contextlib.suppress(OSError):
            return (root / "version").read_text("utf-8").split("\n")[0]
        return None
    try:
        asked = subprocess.run(["git", "-C", root, "describe", "--always", "--dirty", "--abbrev=12"],
                               capture_output=True, encoding="utf-8", errors="replace")
    except OSError:
        return None
    return asked.stdout.strip() or None


def ends_with_parent() -> None:
    """Runs in the child: if the job is killed, so is what it started."""
    ctypes.CDLL(None, use_errno=True).prctl(PR_SET_PDEATHSIG, signal.SIGTERM)


class Starting(enum.Enum):
    """How `./view` is started: as a program, or as a fork of this one, which has its modules."""
    EXECUTED, FORKED = range(2)


def view_here(words: list[str], room: pathlib.Path, told: int, starting: Starting) -> NoReturn:
    """Becomes `./view`, in a group of its own. It has the standard input of this program, which a capture may be."""
    status = 1
    try:
        os.setsid()
        ends_with_parent()
        os.environ["TMPDIR"] = str(room)
        os.dup2(os.open(os.devnull, os.O_WRONLY), 1)
        os.dup2(told, 2)
        if starting is Starting.EXECUTED:
            os.execv(words[0], words)
        sys.argv = words
        from viewer.showing import main
        status = main(pathlib.Path(words[0]).parent)
    except SystemExit as ended:
        status = ended.code if isinstance(ended.code, int) else 1
    except BaseException:
        traceback.print_exc()
    finally:
        sys.stderr.flush()
        os._exit(status)


def status_in(pid: int, seconds: float) -> int | None:
    """The status of a program, or -SIGNAL; None if it has not ended after so many seconds."""
    end = os.pidfd_open(pid)
    try:
        if not select.select([end], [], [], max(seconds, 0))[0]:
            return None
    finally:
        os.close(end)
    return os.waitstatus_to_exitcode(os.waitpid(pid, 0)[1])


def viewed(words: list[str], room: pathlib.Path, seconds: float, starting: Starting) -> tuple[int | None, list[str]]:
    """The status of `./view`, and the lines that it says; None if it took too long. Of its group nothing is left then.
    The lines are kept in memory, because the disk may be full."""
    with open(os.memfd_create("told"), "w+b") as told:
        status, pid = None, os.fork()
        if not pid:
            view_here(words, room, told.fileno(), starting)
        try:
            status = status_in(pid, seconds)
        finally:
            with contextlib.suppress(ProcessLookupError):
                os.killpg(pid, signal.SIGKILL)
            if status is None:
                os.waitpid(pid, 0)
        told.seek(0)
        return status, told.read().decode("utf-8", "replace").splitlines()


def why_no_answer(status: int, told: list[str]) -> str:
    """Why `./view` has not answered: its words, and those of the programs that it calls, or the last line of others."""
    if status < 0:
        return f"killed by signal {-status}"
    known = [line for line in told if line.startswith(("view: ", "fault "))]
    return "; ".join(known or told[-1:]) or f"status {status}"


def no_room_in(room: pathlib.Path) -> str:
    """Words about a scratch disk that is full, of which the programs only know that they can't write."""
    with contextlib.suppress(OSError):
        disk = os.statvfs(room)
        if disk.f_bavail * disk.f_frsize < LITTLE or disk.f_files and not disk.f_favail:
            return f"; the disk of {room.parent} is full"
    return ""


def result_of(root: pathlib.Path, inputs: Inputs, seconds: float, starting: Starting) -> dict:
    """The result of a capture, without what only the caller knows. There is one only if another run would say the same.
    What else ends `./view`, such as a full disk, has none, and the next run tries again."""
    with folder_in(None, "fleet") as room:
        made = room / "capture.db"
        words = [str(root / "view"), "--groups", "--database", str(made), *inputs.options(), "--", *inputs.files]
        status, told = viewed(words, room, seconds, starting)
        if status is None:
            return result.failed(f"it took longer than {seconds:g} s")
        if status == 1 and told and side_belongs.OTHER in told[-1]:
            return result.failed(told[-1])
        if status not in VIEWED:
            if status == 4 and (why := why_wrong(inputs.sides, told, room)):
                return result.failed(why)
            raise Stopped(status if status in SAME else 1,
                          f"{inputs.files[0]}: {why_no_answer(status, told)}{no_room_in(room)}")
        database = kept_database(str(made))
        try:
            return result.summary(database)
        finally:
            database.close()


def one(root: pathlib.Path, inputs: Inputs, build: str, device: str, to: pathlib.Path,
        make: Callable[[Inputs], dict], basis: str | None = None) -> str | None:
    """Writes the result of a capture, which `make` makes by the programs in this folder. Returns why it does not have
    all defects, if it is malformed or can't be viewed."""
    with unchanged([*inputs.files, *inputs.sides, *inputs.methods]):
        digest = digest_of(inputs.files)
        made = make(inputs)
        # Not by time.time(), which can't say the time of a clock that is wrong by centuries.
        made["capture"] = {"digest": digest, "basis": basis or basis_of(root), "tables": tables_of(inputs.methods),
                           "build": build, "device": device,
                           "file": result.short(shown_name(inputs.files)), **made["capture"],
                           "made": time.clock_gettime(time.CLOCK_REALTIME), "version": version(root)}
    result.write(made, to)
    if malformed := made["capture"].get("malformed"):
        return str(fault_of(malformed, inputs.files))
    return (why := made["capture"].get("failed")) and f"{inputs.files[0]}: {why}"
