"""What a linter has found no fault in. It need not look at that again: the sums stand in checks/out/lint, and go with
this folder of the repository."""

import hashlib
import os
import pathlib
import re
import subprocess
import tempfile
from typing import Callable, Iterable

from checks.kit.programs import CHECKS, ROOT

KEPT = CHECKS / "out/lint"
SETTINGS = ".flake8", ".shellcheckrc"


def sum_of(*parts: bytes) -> str:
    return hashlib.sha256(b"".join(len(part).to_bytes(8, "little") + part for part in parts)).hexdigest()


def version_of(tool: str) -> bytes:
    """The linter and its settings, on which all that it says depends besides the files."""
    said = subprocess.run([tool, "--version"], stdin=subprocess.DEVNULL, stdout=subprocess.PIPE).stdout
    return repr([tool, said, *((ROOT / name).read_bytes() for name in SETTINGS)]).encode()


def alone(names: list[str]) -> dict[str, list[str]]:
    """Files of which each is looked at without any other."""
    return {name: [name] for name in names}


def with_named(names: list[str]) -> dict[str, list[str]]:
    """Scripts, each with those that it may read: those whose names stand in it, and in these."""
    of_name = {pathlib.PurePath(name).name: name for name in names}
    any_name = re.compile(rb"[\w.-]+")
    named = {name: {of_name[word.decode()] for word in any_name.findall((ROOT / name).read_bytes())
                    if word.decode() in of_name} for name in names}
    found = {}
    for name in names:
        reached, left = {name}, [name]
        while left:
            left += (new := named[left.pop()] - reached)
            reached |= new
        found[name] = [name, *sorted(reached - {name})]
    return found


class Clean:
    """The files of a linter that are known to have no fault."""

    def __init__(self, tool: str, files: dict[str, list[str]]):
        self.kept = KEPT / f"{tool}.clean"
        version = version_of(tool)
        self.sums = {name: sum_of(version, name.encode(), *((ROOT / read).read_bytes() for read in reads))
                     for name, reads in files.items()}
        self.known: set[str] = set()
        if self.kept.exists():
            self.known.update(self.kept.read_text("utf-8").split())

    def others(self) -> list[str]:
        """The files that the linter must look at."""
        return [name for name, made in self.sums.items() if made not in self.known]

    def keep(self, faults: Iterable[str]) -> None:
        """Keeps which of all files have none of these faults; if one is of no file, nothing new."""
        of = [line.partition(":")[0] for line in faults]
        seen = set(self.sums) if all(name in self.sums for name in of) else set()
        clean = {made for name, made in self.sums.items() if made in self.known or name in seen and name not in of}
        self.kept.parent.mkdir(parents=True, exist_ok=True)
        with tempfile.NamedTemporaryFile("w", encoding="utf-8", dir=self.kept.parent, delete=False) as file:
            file.write("".join(f"{made}\n" for made in sorted(clean)))
        os.replace(file.name, self.kept)


READS: dict[str, Callable[[list[str]], dict[str, list[str]]]] = {"flake8": alone, "shellcheck": with_named}
