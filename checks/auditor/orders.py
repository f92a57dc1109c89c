"""Checks that `./audit` and `.ci/run` work in one clone, in any order, by what they call on a small repository.

    checks/run orders
    checks/run orders -- --whole    also proves all by `rt ci`, in both orders: some minutes

What must hold in a folder with a library and a program:

- After crates/build has built the program, `rt ci` finds no source that no check reads: it stops at a source whose
  layout is not that of `rt fmt`, and with --whole it passes.
- With --whole: after `rt ci` has passed and was noted, crates/build proves nothing, whether it has built before or not.
  If the program is changed then, crates/build proves the program alone, over the library of `rt ci`.

Here the prover is the toolchain's own; `checks/run as_proved` has what must hold by a made-up one.
"""

import argparse
import pathlib
import time

from checks.kit.checking import FLAG, Fail, check, compare
from checks.kit.small_repository import BUILT, BUILT_AGAIN, LIBRARY, PROGRAM, Repository


class Checked(Repository):
    """A repository that `rt ci` checks too."""

    def check(self, fail: Fail) -> None:
        """What `.ci/run` does."""
        began = str(time.time())
        status, said = self.said("rt", "ci")
        if status or not said.endswith("2 passed, 0 failed\n"):
            fail(f"rt ci: {said[-400:]}")
        compare("its note", self.said("crates/build", "--note", began, "little"), (0, ""), fail)

    def refuse_layout(self, fail: Fail) -> None:
        """Has `rt ci` read the repository, and stop before it proves anything."""
        self.library.write_text(f"{LIBRARY}\n\n", "utf-8")
        status, said = self.said("rt", "ci")
        if not status or "run rt fmt in the crate's folder" not in said:
            fail(f"rt ci after crates/build: {said[-400:]}")


def judge(given: argparse.Namespace, room: pathlib.Path, fail: Fail) -> None:
    first = Checked(room / "first", room / "cache of the first")
    first.build(BUILT, "the first build", fail)
    if given.whole:
        first.check(fail)
        first.build("", "a build after a build and rt ci", fail)
        second = Checked(room / "second", room / "cache of the second")
        second.check(fail)
        second.build("", "a build after rt ci", fail)
        second.program.write_text(PROGRAM.replace("_number", "_seven"), "utf-8")
        second.build(BUILT_AGAIN, "a build after rt ci and a change of the program", fail)
    first.refuse_layout(fail)


if __name__ == "__main__":
    check(judge, whole=FLAG)
