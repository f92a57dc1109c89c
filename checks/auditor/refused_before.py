"""The stacks of wrong bodies that earlier runs saw refused, each by a sum of all that its check reads.

They are kept in the cache of crates/build, in `refused`, for all clones of this user: a file for each stack, of the
lines that say at which goals its edits were refused, and of the edits that were then tried alone.
"""

import hashlib
import json
import pathlib
import time
from typing import NamedTuple

from checks.kit.programs import ROOT
from checks.kit.proving import BUILD
from crates.kept import CACHE

FOLDER = CACHE / "refused"
# How many days a file is kept that no run asks for.
MOST_DAYS = 60
# The code that says what a check of a stack has shown.
JUDGED_BY = ("checks/auditor/wrong.py", "checks/auditor/bare.py", "checks/auditor/functions.py",
             "checks/kit/proving.py")


class Before(NamedTuple):
    """What came of a stack: the lines of the edits that were refused in it, and the names of the others, each of which
    was then tried alone."""
    lines: list[str]
    alone: list[str]


class RefusedBefore:
    def __init__(self) -> None:
        self.crates = BUILD.crates_in((ROOT / "crates.txt").read_text("utf-8"))
        self.version = BUILD.Toolchain().version
        self.known: dict[str, bytes] = {}
        for path in FOLDER.glob("*.json"):
            if path.stat().st_mtime < time.time() - 86_400 * MOST_DAYS:
                path.unlink(missing_ok=True)

    def sum_of(self, crate: str) -> bytes:
        """The sum of the sources of a crate and of all crates below it, and of the code that judges."""
        total = hashlib.sha256(self.version.encode())
        for one in BUILD.all_below(self.crates[crate]):
            total.update(repr((one.name, one.of_toolchain, [it.name for it in one.own])).encode())
            for file in one.sources():
                total.update(repr((str(file.relative_to(BUILD.CRATES)), file.read_bytes())).encode())
        for path in JUDGED_BY:
            total.update((ROOT / path).read_bytes())
        return total.digest()

    def path_of(self, crate: str, edits: list[pathlib.Path]) -> pathlib.Path:
        """The file of these edits, as the sources were when it was first asked for the crate."""
        if crate not in self.known:
            self.known[crate] = self.sum_of(crate)
        total = hashlib.sha256(self.known[crate])
        for path in edits:
            total.update(repr((path.name, path.read_bytes())).encode())
        return FOLDER / f"{total.hexdigest()[:32]}.json"

    def of(self, crate: str, edits: list[pathlib.Path]) -> Before | None:
        """What came of these edits of a crate in one check, if an earlier run has kept it."""
        path = self.path_of(crate, edits)
        try:
            kept = Before(**json.loads(path.read_text("utf-8")))
            path.touch()
        except (OSError, ValueError, TypeError):
            return None
        return kept

    def keep(self, crate: str, edits: list[pathlib.Path], came: Before) -> None:
        """Keeps what came of a stack, unless a source was changed since this run began."""
        if self.sum_of(crate) != self.known.get(crate):
            return
        FOLDER.mkdir(parents=True, exist_ok=True)
        path = self.path_of(crate, edits)
        new = path.with_suffix(".new")
        new.write_text(json.dumps(came._asdict()), "utf-8")
        new.replace(path)
