"""Where the repository has what the checks run, and how they build what only they run."""

import pathlib
import shutil
import subprocess

from viewer.database.programs import build_programs
from viewer.program_names import PROGRAMS

CHECKS = pathlib.Path(__file__).resolve().parents[1]
ROOT = CHECKS.parent
AUDITOR = ROOT / "crates/binder_audit/out/binder_audit"
BY_RATTLE = AUDITOR.with_suffix(".by-rattle")
# It reads what ./listing lists.
TABLES = ROOT / "crates/binder_tables/out/binder_tables"
# The programs that a package has, by their names there.
PACKAGED = {f"binder-{name}": ROOT / command for name, command in PROGRAMS.items()}

# The captures of the cases, and those of the real driver.
CASES = ROOT / "crates/audit_cases/data"
DRIVER = ROOT / "samples/driver"
# Small captures: those of the cases, and the samples.
SMALL = [*sorted(CASES.glob("*.cap")), *sorted(ROOT.glob("samples/*.cap"))]


def edits_of(crate: pathlib.Path) -> list[pathlib.Path]:
    """The wrong bodies that are stored for a crate. `rt ci` tries those in `must-fail/` too."""
    return sorted(it for folder in ("must-fail", "wrong") for it in (crate / folder).glob("*.edit"))


def compiled(room: pathlib.Path, source: str, *options: str) -> pathlib.Path:
    """Compiles a C file of checks/ to a program, or to a library to preload. Returns its path."""
    made = room / pathlib.Path(source).stem
    subprocess.run(["cc", "-O1", *options, "-o", made, CHECKS / source, "-ldl", "-lpthread"], check=True)
    return made


def preloadable(room: pathlib.Path, source: str) -> pathlib.Path:
    """Compiles a C file to a library that can be preloaded into a program."""
    return compiled(room, source, "-shared", "-fPIC")


# ---- a folder in place of the repository

# In place of crates/run: it runs what that runs.
RUNS_AT_ONCE = """#!/bin/sh
program=${0%/*}/$2/out/$2
while [ $# -gt 0 ] && [ "$1" != -- ]; do shift; done
[ $# -eq 0 ] || shift && [ $# -eq 0 ] || exec "$program" "$@"
"""


def linked(folder: pathlib.Path, targets: dict[str, pathlib.Path]) -> pathlib.Path:
    """A folder with links of these names, which is made if it is not there."""
    folder.mkdir(exist_ok=True)
    for name, target in targets.items():
        (folder / name).symlink_to(target)
    return folder


def programs(room: pathlib.Path, auditor: pathlib.Path) -> pathlib.Path:
    """A folder with `view` and what it calls. The auditor in it is the one that is checked."""
    return folder_of(room / "programs", auditor)


def built_programs(room: pathlib.Path, auditor: pathlib.Path) -> pathlib.Path:
    """The same without the script that looks each time whether a program must be built: it looks once here."""
    build_programs(ROOT)
    made = folder_of(room / "built", auditor)
    (made / "crates/run").unlink()
    (made / "crates/run").write_text(RUNS_AT_ONCE, "utf-8")
    (made / "crates/run").chmod(0o755)
    return made


def folder_of(folder: pathlib.Path, auditor: pathlib.Path) -> pathlib.Path:
    """A folder in place of the repository, with an auditor of its own."""
    linked(folder, {"audit": auditor, **{name: ROOT / name for name in ("commands", "lab", "viewer")}})
    linked(folder / "crates", {"run": ROOT / "crates/run"})
    for name, built in (("binder_audit", auditor), ("binder_tables", TABLES)):
        (folder / "crates" / name).mkdir()
        linked(folder / "crates" / name / "out", {name: built})
    for name in ("view", "fleet", "listing"):  # copies, since they call what is in their own folder
        shutil.copy(ROOT / name, folder)
    return folder
