"""Runs the program that reads a capture, and the printer of its rows in place of this one. Few modules are loaded here:
what reads options takes longer to load than a small capture to list."""

import fcntl
import os
import signal

TYPE_CHECKING = False
if TYPE_CHECKING:
    from typing import NoReturn

FOLDER = os.path.dirname(os.path.realpath(__file__))
VIEWER = os.path.dirname(FOLDER)
PRINTER = "lines"
# What the printer is made of beside its own files in C: the reader of side lists, and names of numbers.
READER = "../database/side_reader"
MADE_OF = (f"{FOLDER}/{READER}.c", f"{FOLDER}/{READER}.h", f"{FOLDER}/numbers.py", f"{VIEWER}/database/numbers.sql",
           f"{VIEWER}/malformed.py")
PACKED = not os.path.exists(f"{VIEWER}/database/load.c")
# So many bytes the pipe between the two holds.
PIPE = 2**20


def path() -> str:
    """Where the printer is."""
    if PACKED:
        return f"{os.path.dirname(os.path.dirname(os.path.dirname(VIEWER)))}/lib/binder-audit/{PRINTER}"
    return f"{FOLDER}/out/{PRINTER}"


def is_ready() -> bool:
    """Whether the printer is there, and not older than a source."""
    if PACKED:
        return True
    sources = [f"{FOLDER}/{name}" for name in os.listdir(FOLDER) if name.endswith((".c", ".h"))]
    try:
        return os.stat(path()).st_mtime_ns >= max(os.stat(name).st_mtime_ns for name in (*sources, *MADE_OF))
    except OSError:
        return False


def kept_open(file: int) -> int:
    """An open file by a number that no standard file has, and open in what is run from here."""
    moved = fcntl.fcntl(file, fcntl.F_DUPFD, 3)
    os.close(file)
    return moved


def pipe_of(words: list[str]) -> int:
    """Starts a program, and returns the pipe that it writes to."""
    comes, goes = os.pipe()
    comes = kept_open(comes)
    if hasattr(fcntl, "F_SETPIPE_SZ"):
        try:
            fcntl.fcntl(comes, fcntl.F_SETPIPE_SZ, PIPE)
        except OSError:  # pipes of this user hold too much already
            pass
    os.posix_spawn(words[0], words, os.environ,
                   file_actions=[(os.POSIX_SPAWN_CLOSE, comes), (os.POSIX_SPAWN_DUP2, goes, 1)],
                   setsigdef=(signal.SIGPIPE, signal.SIGXFSZ))
    os.close(goes)
    return comes


def run(root: str, program: list[str], words: list[str]) -> "NoReturn":
    """Lists what the words ask for, and ends as the printer does, which takes the status of the program if that
    fails."""
    comes = pipe_of([f"{root}/crates/run", "listing", "binder_tables", "--", *program])
    os.execv(path(), [path(), "--stream", str(comes), *words])
