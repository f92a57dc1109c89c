"""Plays command lines on hostile inputs: each in a process of its own, under limits, with its streams in files.

Most of a run of a script is the start of Python and its imports. So a script is mostly run in a fork of this process,
which has imported all modules of the scripts before. What runs is the script as it is, from its first line on. The
proved programs are mostly started without the scripts that look whether they are built.
"""

import contextlib
import gc
import importlib
import os
import pathlib
import resource
import select
import signal
import sys
import tempfile
import traceback
import types
from typing import NamedTuple, NoReturn

from checks.kit.programs import AUDITOR, ROOT

# The limits of a run: seconds of the processor, bytes of address space, and seconds by the clock.
PROCESSOR, SPACE, CLOCK = 30, 4 << 30, 120

# The scripts in Python, and the proved program behind another script, by the names that messages give them.
SCRIPTS = {"./view": "view", "./fleet": "fleet", "./listing": "listing",
           **{name: name for name in ("viewer/methods/table.py", "lab/sessions.py")}}
PROVED = {"./audit": AUDITOR}


class Play(NamedTuple):
    """A command line. `in_full`: it is started as users start it, and not in the way that takes the least time."""
    program: str
    words: tuple[str, ...]
    in_full: bool = False

    def __str__(self) -> str:
        return " ".join((self.program, *map(ascii, self.words)))


class Came(NamedTuple):
    """What came of it: its status, or the signal that ended it, below 0; its streams; the most memory of a process, in
    KiB; and the seconds by the clock."""
    status: int
    out: bytes
    err: bytes
    peak: int
    seconds: float


def import_all() -> None:
    """Imports what the scripts import when they need it."""
    for folder in ("viewer", "lab"):
        for path in sorted((ROOT / folder).rglob("*.py")):
            importlib.import_module(".".join(path.relative_to(ROOT).with_suffix("").parts))
    importlib.import_module("jinja2.ext")
    gc.freeze()


class Player:
    """Plays command lines, by the scripts of a folder in place of the repository."""

    def __init__(self, folder: pathlib.Path, streams: pathlib.Path):
        import_all()
        self.folder, self.streams = folder, streams
        self.code = {name: compile((folder / path).read_bytes(), str(folder / path), "exec")
                     for name, path in SCRIPTS.items()}

    def play(self, play: Play, room: pathlib.Path, kill_after: float | None = None, file_size: int | None = None
             ) -> Came:
        """Runs a command line in a folder. It may be killed after so many seconds, or write no longer files."""
        since = os.times().elapsed
        pid = os.fork()
        if pid == 0:
            try:
                self.become(play, room, file_size)
            finally:
                traceback.print_exc()
                os._exit(99)
        status, used = ended(pid, CLOCK if kill_after is None else kill_after)
        out, err = ((self.streams / name).read_bytes() for name in ("out", "err"))
        return Came(os.waitstatus_to_exitcode(status), out, err, used.ru_maxrss, os.times().elapsed - since)

    def become(self, play: Play, room: pathlib.Path, file_size: int | None) -> NoReturn:
        """Becomes the program, in a group of its own, which ends with it."""
        os.setpgid(0, 0)
        os.chdir(room)
        for number in (signal.SIGINT, signal.SIGTERM):
            signal.signal(number, signal.SIG_DFL)
        for descriptor, name in enumerate((os.devnull, self.streams / "out", self.streams / "err")):
            opened = os.open(name, os.O_RDWR | (os.O_CREAT | os.O_TRUNC if descriptor else 0), 0o600)
            os.dup2(opened, descriptor)
            os.close(opened)
        os.environ["TMPDIR"] = str(room / "tmp")
        resource.setrlimit(resource.RLIMIT_CPU, (PROCESSOR, PROCESSOR + 1))
        resource.setrlimit(resource.RLIMIT_AS, (SPACE, SPACE))
        if file_size is not None:
            resource.setrlimit(resource.RLIMIT_FSIZE, (file_size, file_size))
        if play.program in self.code and not play.in_full:
            self.run_script(play)
        if "/" not in play.program:
            os.execvp(play.program, [play.program, *play.words])
        path = ROOT / play.program if play.in_full else self.path_of(play)
        os.execv(path, [str(path), *play.words])

    def path_of(self, play: Play) -> pathlib.Path:
        """The program behind a script, or the script."""
        return PROVED.get(play.program) or ROOT / play.program

    def run_script(self, play: Play) -> NoReturn:
        """Does what Python does from the first line of a script on."""
        tempfile.tempdir = None
        path = str(self.folder / SCRIPTS[play.program])
        sys.argv = [path, *play.words]
        sys.stdout = open(1, "w", encoding="utf-8", closefd=False)
        sys.stderr = open(2, "w", encoding="utf-8", errors="backslashreplace", closefd=False, buffering=1)
        script = types.ModuleType("__main__")
        script.__file__ = path
        sys.modules["__main__"] = script
        status: object = 0
        try:
            exec(self.code[play.program], script.__dict__)
        except SystemExit as end:
            status = end.code
        except BaseException:
            traceback.print_exc()
            status = 1
        if isinstance(status, str):
            sys.stderr.write(f"{status}\n")
            status = 1
        gc.collect()  # as at the end of Python: it closes databases
        for stream in (sys.stdout, sys.stderr):
            stream.flush()
        os._exit(int(status or 0) & 255)  # type: ignore[call-overload]


def ended(pid: int, seconds: float) -> tuple[int, resource.struct_rusage]:
    """Waits for a process at most so long, and then kills it, and what is left of its group. Returns its status, and
    what it used."""
    with contextlib.suppress(OSError):
        os.setpgid(pid, pid)  # as the process does, whoever is first
    descriptor = os.pidfd_open(pid)
    select.select([descriptor], [], [], seconds)
    os.close(descriptor)
    with contextlib.suppress(ProcessLookupError):
        os.killpg(pid, signal.SIGKILL)
    _, status, used = os.wait4(pid, 0)
    return status, used
