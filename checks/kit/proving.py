"""The prover over single crates, with the libraries that crates/build keeps."""

import contextlib
import importlib.machinery
import os
import pathlib
import subprocess
import types
from typing import Iterable, Iterator

from checks.kit.programs import ROOT

# The most memory that a check of a crate was seen to take, and some more.
MEMORY_OF_A_CHECK = 4_000_000_000


def build_script() -> types.ModuleType:
    """crates/build, as a module."""
    loader = importlib.machinery.SourceFileLoader("crates_build", str(ROOT / "crates/build"))
    made = types.ModuleType(loader.name)
    made.__file__ = loader.path
    loader.exec_module(made)
    return made


BUILD = build_script()


class Libraries:
    """The libraries that some crates use. No build changes them until they are let go."""

    Stopped: type[Exception] = BUILD.Stopped

    def __init__(self, crates: Iterable[str]) -> None:
        self.crates = BUILD.crates_in((ROOT / "crates.txt").read_text("utf-8"))
        below = [used for name in crates for used in self.crates[name].own]
        made = BUILD.Build("wrong", [], below)
        made.run()
        self.toolchain = made.toolchain

    @classmethod
    @contextlib.contextmanager
    def below(cls, crates: Iterable[str]) -> Iterator["Libraries"]:
        """Makes those that are not kept."""
        held = BUILD.wait_for_others("wrong")
        try:
            yield cls(crates)
        finally:
            os.close(held)

    @staticmethod
    def checks_at_once() -> int:
        return BUILD.cores_to_use(MEMORY_OF_A_CHECK)

    def size(self, crate: str) -> int:
        return sum(file.stat().st_size for file in self.crates[crate].sources())

    def check(self, crate: str, folder: pathlib.Path, functions: list[str]) -> str:
        """What the prover says of a crate with the sources in this folder: of these functions and of those that they
        call, past holes in proofs; or of all functions if there are none."""
        words = ["setpriv", "--pdeathsig", "KILL", f"{self.toolchain.folder}/bin/rattle", "check"]
        words += [*BUILD.words_over_libraries(self.crates[crate], self.toolchain), "--jobs", "1"]
        words += [word for name in functions for word in ("--only", name)] + ["--allow-holes"] * bool(functions)
        ended = subprocess.run(words, cwd=folder, stdin=subprocess.DEVNULL, stdout=subprocess.PIPE,
                               stderr=subprocess.STDOUT, encoding="utf-8", errors="replace")
        return ended.stdout
