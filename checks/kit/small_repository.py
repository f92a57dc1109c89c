"""A small repository of a library and a program, with the scripts that prove and build crates, and clones of it."""

import os
import pathlib
import shutil
import subprocess

from checks.kit.checking import Fail, compare
from checks.kit.programs import ROOT

LIBRARY = """\
//! The number that the program takes.
#![tactic(auto)]

pub fn seven() -> u64 {
    7
}
"""
PROGRAM = """\
//! Takes a number, and does nothing with it.
#![tactic(auto)]

fn main(_rt: HostRuntime) {
    let _number = low::seven();
}
"""
# What prove and build crates.
SCRIPTS = ("build", "prove", "run", "kept.py", "sources.py", "stamps.py")
# What crates/build says where nothing is kept, and where only the library is.
BUILT = """\
build: proving and building little
build: nothing is kept of an earlier build; from nothing this takes 10 to 20 minutes on four cores
build: low is proved, crate 1 of 2
build: little is proved, crate 2 of 2
build: built crates/little/out/little
"""
BUILT_AGAIN = """\
build: proving and building little
build: little is proved, crate 2 of 2
build: built crates/little/out/little
"""


class Repository:
    """A repository, and the cache of its user. `path` is where commands are looked for first."""

    def __init__(self, folder: pathlib.Path, cache: pathlib.Path, path: pathlib.Path | None = None) -> None:
        self.folder, self.cache = folder, cache
        self.library, self.program = folder / "crates/low/src/lib.rt", folder / "crates/little/src/main.rt"
        for file, text in (self.library, LIBRARY), (self.program, PROGRAM):
            file.parent.mkdir(parents=True)
            file.write_text(text, "utf-8")
        (folder / "crates.txt").write_text("low:\nlittle: low\n", "utf-8")
        (folder / "HANDLES").write_text("Handles allowed: none.\n", "utf-8")
        for script in SCRIPTS:
            shutil.copy(ROOT / "crates" / script, folder / "crates")
        self.environment = {**os.environ, "XDG_CACHE_HOME": str(cache)}
        if path:
            self.environment["PATH"] = f"{path}:{os.environ['PATH']}"

    @property
    def made(self) -> pathlib.Path:
        return self.folder / "crates/little/out/little"

    def said(self, *words: str, **environment: str) -> tuple[int, str]:
        """The status of a command in the repository, and what it says."""
        ended = subprocess.run(words, cwd=self.folder, stdin=subprocess.DEVNULL, stdout=subprocess.PIPE,
                               stderr=subprocess.STDOUT, encoding="utf-8", env=self.environment | environment)
        return ended.returncode, ended.stdout

    def build(self, due: str, what: str, fail: Fail) -> None:
        compare(what, self.said("crates/build", "little"), (0, due), fail)
