"""Names of files as data: labs whose builds, devices, sessions and tables of methods have names that make or a shell
would obey, by lab/Makefile, and by lab/slurm.sh with an sbatch that is made up."""

import os
import pathlib
import shutil
import subprocess

from checks.kit.checking import Fail, compare
from checks.kit.programs import ROOT
from viewer.terminal import is_sign, shown

# What a shell or make would do something with, or a terminal; a byte that is no UTF-8; and what looks like an option.
HOSTILE = ("`touch pwned`", "a$(touch pwned)", "b&touch pwned", "y;touch pwned", "b|c", "f:g", "e%", "two words",
           "quo'te", 'quo"te', "$HOME", "$@", "#", "back\\slash", "line\nfeed", "tab\tstop", "\x1b]0;owned\x07",
           "\u202egnp", "é", "\udcff", "-dash", ".dot", "*")

# In place of Slurm: runs the tasks one after another.
SBATCH = """#!/bin/bash
while [[ $1 == -* ]]; do [[ $1 != --array=1-* ]] || last=${1#--array=1-}; shift; done
for ((task = 1; task <= last; task++)); do SLURM_ARRAY_TASK_ID=$task bash "$@"; done
"""


def write_script(path: pathlib.Path, text: str) -> None:
    path.parent.mkdir(parents=True, exist_ok=True)
    path.write_text(text, "utf-8")
    path.chmod(0o755)


def made_up(folder: pathlib.Path, view: str) -> pathlib.Path:
    """A folder in place of the repository, with `fleet`, the lab, and this script in place of `view`."""
    folder.mkdir(parents=True)
    for name in ("commands", "viewer"):
        (folder / name).symlink_to(ROOT / name)
    shutil.copytree(ROOT / "lab", folder / "lab", ignore=shutil.ignore_patterns("__pycache__"))
    shutil.copy(ROOT / "fleet", folder)
    write_script(folder / "view", view)
    return folder


def with_programs(folder: pathlib.Path) -> pathlib.Path:
    """The same with the programs."""
    made_up(folder, "")
    shutil.copy(ROOT / "view", folder)
    for name in ("crates", "crates.txt", "packager"):
        (folder / name).symlink_to(ROOT / name)
    return folder


def put(lab: pathlib.Path, *names: str) -> None:
    """Captures of these paths in a lab, no two alike, and none with a good header."""
    for name in names:
        path = lab / name
        path.parent.mkdir(parents=True, exist_ok=True)
        path.write_bytes(os.fsencode(name))


def hostile_lab(lab: pathlib.Path) -> list[str]:
    """Makes a lab with two good sessions, of which one has parts. Returns the paths that are to be refused."""
    put(lab, "b1/d1/good.cap", "b1/d1/parts-1.cap", "b1/d1/parts-2.cap")
    wrong = [[f"b1/d1/{name}.cap" for name in HOSTILE], [f"b1/{name}" for name in HOSTILE], list(HOSTILE)]
    for paths, below in zip(wrong, ("", "/s.cap", "/d1/s.cap")):
        put(lab, *(f"{path}{below}" for path in paths))
    put(lab, "b2/d1/s.cap", "b2/two words.methods")
    os.mkfifo(lab / "b1/d1/pipe.cap")
    return [*sum(wrong, []), "b2/two words.methods", "b1/d1/pipe.cap"]


def check_made(what: str, room: pathlib.Path, lab: pathlib.Path, due: set[str], out: bytes, err: bytes,
               fail: Fail) -> None:
    """The results are there, no name was run, and nothing that was said moves a terminal."""
    made = {str(path.relative_to(lab / "results").with_suffix("")) for path in (lab / "results").rglob("*.json")}
    compare(f"{what}: results", made, due, fail)
    compare(f"{what}: what was run of names", list(room.rglob("pwned*")), [], fail)
    said = (out + err).decode("utf-8", "backslashreplace")
    compare(f"{what}: signs", {one for one in said if is_sign(one) and one != "\n"}, set(), fail)


def check_refused_names(how: str, words: list[object], room: pathlib.Path, status: int, fail: Fail) -> None:
    """A lab with names that are refused: a line for each, and the other sessions are done."""
    room.mkdir()
    lab = room / "lab"
    refused = hostile_lab(lab)
    ended = subprocess.run([*map(str, words), *([f"LAB={lab}"] if how == "make" else [str(lab), "1"])], cwd=room,
                           stdin=subprocess.DEVNULL, capture_output=True,
                           env={**os.environ, "PATH": f"{room.parent}/bin:{os.environ['PATH']}"})
    compare(f"{how}: status, output", (ended.returncode, ended.stdout), (status, b"2 added, 0 there already\n"), fail)
    lines = ended.stderr.decode("utf-8", "backslashreplace").splitlines()
    told = sorted(line.partition(" is left out: ")[0] for line in lines if " is left out: " in line)
    compare(f"{how}: lines", told, sorted(f"fleet: {shown(f'{lab}/{path}')}" for path in refused), fail)
    check_made(how, room, lab, {"b1/d1/good", "b1/d1/parts"}, ended.stdout, ended.stderr, fail)


def check_quoted(folder: pathlib.Path, room: pathlib.Path, fail: Fail) -> None:
    """Should a name come through that a shell obeys, it is quoted besides."""
    listed = "b1/d1/`touch${IFS}pwned`\nb1/d1/&touch${IFS}pwned&'\n"
    write_script(folder / "lab/sessions.py", f"#!/bin/sh\n[ $1 = --refused ] || cat <<'END'\n{listed}END\n")
    (room / "quoted").mkdir()
    ended = subprocess.run(["make", "-k", "-s", "-f", folder / "lab/Makefile", "LAB=."], cwd=room / "quoted",
                           capture_output=True)
    compare("names are quoted: status", ended.returncode, 2, fail)
    compare("names are quoted: what was run", list(room.rglob("pwned*")), [], fail)


def check_names(room: pathlib.Path, fail: Fail) -> None:
    room.mkdir()
    folder = with_programs(room / "two words")
    write_script(room / "bin/sbatch", SBATCH)
    make = ["make", "-k", "-j2", "-s", "-f", folder / "lab/Makefile"]
    check_refused_names("make", make, room / "make", 2, fail)
    check_refused_names("slurm.sh", [folder / "lab/slurm.sh"], room / "slurm", 1, fail)
    # The folder of a lab may have any name.
    lab = room / "any" / "".join(name.replace("/", "") for name in ("-", *HOSTILE))
    put(lab, "b1/d1/good.cap")
    ended = subprocess.run([*map(str, make), f"LAB={lab.name}"], cwd=lab.parent, capture_output=True)
    compare("a lab of any name: status, output", (ended.returncode, ended.stdout), (0, b"1 added, 0 there already\n"),
            fail)
    check_made("a lab of any name", room, lab, {"b1/d1/good"}, ended.stdout, ended.stderr, fail)
    made = lab / "results/b1/d1/good.json"
    made.write_text(made.read_text("utf-8").replace('"malformed":"', '"failed":"'), "utf-8")
    ended = subprocess.run([*map(str, make), f"LAB={lab.name}", "again"], cwd=lab.parent, capture_output=True)
    check_made("a result that is forgotten", room, lab, set(), ended.stdout, ended.stderr, fail)
    check_quoted(folder, room, fail)
