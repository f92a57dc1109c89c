"""Runs `fleet` in a fork of the check, which has imported what it takes: the start of Python is most of a short run."""

import os
import pathlib
import signal
import sys
import tempfile
import traceback
from typing import NoReturn

# What `fleet` imports when it needs it.
from lab import ask, chance, compare, form, known_until, one, result, store, wrong_list  # noqa: F401
from viewer.defects import known_keys  # noqa: F401


def become(program: pathlib.Path, words: list[str], is_closed: bool) -> NoReturn:
    """Runs the program in this process, as a new one would. Standard output may be closed."""
    for number in (signal.SIGINT, signal.SIGTERM):
        signal.signal(number, signal.SIG_DFL)
    sys.argv = [str(program), *words]
    sys.stdout = None if is_closed else open(1, "w", encoding="utf-8", closefd=False)  # type: ignore[assignment]
    sys.stderr = open(2, "w", encoding="utf-8", errors="backslashreplace", buffering=1, closefd=False)
    exec(compile(program.read_bytes(), str(program), "exec"), {"__name__": "__main__", "__file__": str(program)})
    os._exit(0)


def played(program: pathlib.Path, *words: object, cwd: pathlib.Path = pathlib.Path(), stdin: object = os.devnull,
           stdout: str = "", is_closed: bool = False) -> tuple[int, str, str]:
    """The status of `fleet` with these words, and what it says on both streams. Standard output may be a file."""
    with tempfile.TemporaryFile() as out, tempfile.TemporaryFile() as err:
        pid = os.fork()
        if pid == 0:
            try:
                os.chdir(cwd)
                os.dup2(os.open(str(stdin), os.O_RDONLY), 0)
                os.dup2(os.open(stdout, os.O_WRONLY) if stdout else out.fileno(), 1)
                os.dup2(err.fileno(), 2)
                become(program, list(map(str, words)), is_closed)
            except SystemExit as ended:
                os._exit(ended.code if isinstance(ended.code, int) else 1)
            except BaseException:
                traceback.print_exc()
            finally:
                os._exit(1)
        status = os.waitstatus_to_exitcode(os.waitpid(pid, 0)[1])
        said = []
        for stream in out, err:
            stream.seek(0)
            said.append(stream.read().decode("utf-8", "surrogateescape"))
        return status, said[0], said[1]
