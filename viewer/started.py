"""Programs that are started. Python's module subprocess does more, and takes a tenth of the time of a small capture to
load."""

import contextlib
import fcntl
import os
import signal
from typing import Mapping

# What Python ignores, and a program should not.
IGNORED = (signal.SIGPIPE, signal.SIGXFSZ)

# The first number of a file that is none of the standard ones.
FIRST_OTHER = 3

Word = str | os.PathLike[str]


def other(file: int) -> int:
    """This file, by another number than those of the standard files, which are free if they were closed."""
    if file >= FIRST_OTHER:
        return file
    moved = fcntl.fcntl(file, fcntl.F_DUPFD_CLOEXEC, FIRST_OTHER)
    os.close(file)
    return moved


class Started:
    """A program at work. `files` says which file here each of its standard files is, None: it is empty, and takes
    anything. Of what it does not say the program has those of this one. `status` is -SIGNAL of one that a signal ended,
    and None of one that was at work when it was looked at last."""

    def __init__(self, words: list[Word], files: Mapping[int, int | None],
                 environment: Mapping[str, str] | None = None) -> None:
        self.status: int | None = None
        actions = [(os.POSIX_SPAWN_OPEN, to, os.devnull, os.O_RDWR, 0) if file is None
                   else (os.POSIX_SPAWN_DUP2, file, to) for to, file in files.items()]
        self.pid = os.posix_spawn(words[0], words, os.environ if environment is None else environment,
                                  file_actions=actions, setsigdef=IGNORED)

    def take(self, how: int) -> int | None:
        if self.status is None:
            pid, status = os.waitpid(self.pid, how)
            if pid:
                self.status = os.waitstatus_to_exitcode(status)
        return self.status

    def look(self) -> int | None:
        """The status, if it has ended."""
        return self.take(os.WNOHANG)

    def wait(self) -> int:
        """The status, when it has ended."""
        status = self.take(0)
        assert status is not None
        return status

    def end(self) -> None:
        """Ends it, if it has not ended, and waits."""
        if self.status is None:
            with contextlib.suppress(ProcessLookupError):
                os.kill(self.pid, signal.SIGKILL)
            self.wait()
