"""The proved programs that read a capture."""

import os
import pathlib

from viewer.files import Stopped
from viewer.program_names import BEHIND, LIBRARY, PACKED, called
from viewer.started import Started, other

# Large pages, as in crates/run.
LARGE_PAGES = {"GLIBC_TUNABLES": "glibc.malloc.hugetlb=1"}


def are_as_proved(root: pathlib.Path) -> bool:
    """Whether the programs and their sources are as they were when the programs were proved. crates/run finds that by
    several programs, which takes longer than to read a small capture. A folder that has no crates is left to it."""
    if not (root / "crates.txt").is_file():
        return False
    from crates.stamps import Stamps
    stamps = Stamps(root)
    return all(stamps.is_as_it_was(name) for name in BEHIND.values())


def build_programs(root: pathlib.Path) -> None:
    """Builds the auditor, and the program of the listing for tables, if they are missing or are not those that were
    proved from the sources: in one go, since they share most crates. A package has them."""
    if PACKED or are_as_proved(root):
        return
    import subprocess
    try:
        built = subprocess.run([root / "crates/run", "view", *BEHIND.values()], stdin=subprocess.DEVNULL)
    except OSError as error:
        raise Stopped(1, f"crates/run: {error.strerror}") from error
    if built.returncode:
        raise Stopped(1, f"{called('audit')} and {called('listing')} could not be built")


def path_of(root: pathlib.Path, name: str) -> pathlib.Path:
    """Where the program of a command is, once it is built."""
    built = BEHIND[name]
    return LIBRARY / built if PACKED else root / "crates" / built / "out" / built


class Asked:
    """A program at work that is built, by the name of its command. Its standard output goes into a file, since a report
    may be as long as the capture. Its standard error is not redirected. The scripts by which users call it would take
    more time than it does on a small capture."""

    def __init__(self, root: pathlib.Path, to: pathlib.Path, name: str, *words: object) -> None:
        self.name = name
        try:
            out = other(os.open(to, os.O_WRONLY | os.O_CREAT | os.O_TRUNC | os.O_CLOEXEC, 0o666))
            try:
                self.program = Started([path_of(root, name), *map(str, words)], {0: None, 1: out},
                                       {**LARGE_PAGES, **os.environ})
            finally:
                os.close(out)
        except OSError as error:
            raise Stopped(1, f"{called(name)}: {error.strerror}") from error

    def __enter__(self) -> "Asked":
        return self

    def __exit__(self, *_: object) -> None:
        """If something else has failed, nothing goes on."""
        self.program.end()

    def status(self) -> int:
        """Waits until it ends. Its status, 0 or 2."""
        ended = self.program.wait()
        if ended not in (0, 2):
            raise Stopped(ended if ended in (3, 4) else 1, f"{called(self.name)} ended with status {ended}")
        return ended


def answer(root: pathlib.Path, to: pathlib.Path, name: str, *words: object) -> int:
    """Runs such a program. Its status, 0 or 2."""
    with Asked(root, to, name, *words) as asked:
        return asked.status()


def fault_in(status: int, answered: pathlib.Path) -> str | None:
    """The line of the first fault that a program wrote; None if it found no fault."""
    return answered.read_text("utf-8").strip() if status else None
