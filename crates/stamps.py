"""Stamps of programs: what tells cheaply that a program, and all sources that it was proved from, are as they were.

A stamp has a line for crates.txt, the program and each source: the file's name, its size, and when the file and its
inode were changed. Nothing sets the last one to an earlier time, so it also shows a source that is put back with an
older date. crates/run makes the same lines by `find`, since Python takes longer to start than a small capture takes.
"""

import os
import pathlib
from typing import Iterable, Iterator

# The endings and folders of sources.
ENDINGS, FOLDERS = (".rt", ".antt"), ("src", "specs", "proofs")


def line_of(name: str, of: os.stat_result) -> str:
    times = " ".join(f"{it // 10**9}.{it % 10**9:09}0" for it in (of.st_mtime_ns, of.st_ctime_ns))
    return f"{name} {of.st_size} {times}\n"


def lines_in(folder: str, name: str) -> Iterator[str]:
    with os.scandir(folder) as entries:
        for entry in entries:
            if entry.is_dir(follow_symlinks=False):
                yield from lines_in(entry.path, f"{name}/{entry.name}")
            elif entry.name.endswith(ENDINGS):
                yield line_of(f"{name}/{entry.name}", entry.stat(follow_symlinks=False))


class Stamps:
    """The stamps of the programs of a repository, as its files are. Those of a crate are looked at once."""

    def __init__(self, root: pathlib.Path) -> None:
        self.crates = root / "crates"
        self.listed = (root / "crates.txt").read_text("utf-8")
        self.list = line_of("../crates.txt", (root / "crates.txt").stat())
        self.known: dict[str, list[str]] = {}

    def below(self, program: str) -> Iterable[str]:
        """The crates that a program is made of. In crates.txt a crate comes after the crates that it uses."""
        below = {program}
        for line in reversed(self.listed.splitlines()):
            name, _, others = line.partition(":")
            if name in below:
                below.update(others.split())
        return below

    def of_crate(self, name: str) -> list[str]:
        if name not in self.known:
            self.known[name] = [line for folder in FOLDERS if (self.crates / name / folder).is_dir()
                                for line in lines_in(str(self.crates / name / folder), f"{name}/{folder}")]
        return self.known[name]

    def of_sources(self, program: str) -> list[str]:
        return [self.list, *(line for name in self.below(program) for line in self.of_crate(name))]

    def whole(self, program: str, of_sources: list[str]) -> str:
        """The stamp of a program with these lines of its sources."""
        name = f"{program}/out/{program}"
        return "".join(sorted([*of_sources, line_of(name, (self.crates / name).stat())]))

    def path(self, program: str) -> pathlib.Path:
        return self.crates / program / "out" / f"{program}.stamp"

    def is_as_it_was(self, program: str) -> bool:
        """Whether a program and its sources are as the stamp beside the program has them."""
        try:
            return self.path(program).read_text("utf-8") == self.whole(program, self.of_sources(program))
        except OSError:
            return False
