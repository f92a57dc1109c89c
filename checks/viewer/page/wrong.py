"""Wrong templates of the page, stored in edits.txt, each of which a check of the page must refuse."""

import os
import pathlib
import shutil
from concurrent.futures import ThreadPoolExecutor
from typing import Callable

from checks.kit.checking import Fail
from checks.kit.programs import CHECKS, ROOT
from checks.viewer.page.edits import Edit, edited, edits_of
from checks.viewer.page.methods import check_hostile_methods
from checks.viewer.page.stacks import built_program, calls_of, check_hostile_stacks
from checks.viewer.page.words import check_hostile


def programs_with(edit: Edit, folder: pathlib.Path, here: pathlib.Path) -> pathlib.Path:
    """The folder of programs, with the edit in its viewer."""
    made = here / "programs"
    made.mkdir(parents=True)
    shutil.copy(folder / "view", made)
    edited(edit._replace(file=f"page/{edit.file}"), ROOT / "viewer", made / "viewer")
    for name in ("crates", "listing", "audit"):
        (made / name).symlink_to((folder / name).resolve())
    for name in ("commands", "packager"):
        (made / name).symlink_to(ROOT / name)
    return made


def check_edits(folder: pathlib.Path, room: pathlib.Path, names: str, fail: Fail) -> None:
    """Tries each edit, and prints which check refuses it."""
    program, seqs = built_program(room), calls_of(folder, room)

    def stacks(made: pathlib.Path, here: pathlib.Path, fail: Fail) -> None:
        check_hostile_stacks(made, here, program, seqs, fail)

    checks: tuple[Callable[..., object], ...] = (check_hostile, check_hostile_methods, stacks)

    def refused(edit: Edit) -> str:
        """What the first check says that refuses it, without what came; nothing if none does."""
        said: list[str] = []
        try:
            made = programs_with(edit, folder, room / edit.name)
            for check in checks:
                check(made, room / edit.name, said.append)
                if said:
                    break
        except (ValueError, OSError) as error:
            fail(f"edit {edit.name}: no edit: {error}")
        return said[0].partition(": expected ")[0] if said else ""

    edits = edits_of(CHECKS / "viewer/page/edits.txt", names)
    with ThreadPoolExecutor(os.cpu_count()) as pool:
        for edit, by in zip(edits, pool.map(refused, edits)):
            print(f"{edit.name}: {by or 'nothing refuses it'}", flush=True)
            if not by:
                fail(f"edit {edit.name}: nothing refuses it")
