"""Checks that what is run is what was proved, in a small repository and its clones, by a prover that is made up.

    checks/run as_proved
    checks/run as_proved -- --real      also has the toolchain's own prover refuse crates: two minutes

The made-up prover ends a proof with the line that it is told, and takes no time. What must hold:

- crates/build takes a proof by the words that the toolchain's `rt` takes, and refuses any other line, with the line: of
  each word that a proof may not have, of one that nobody knows, and of a line that is cut. So it does where a tactic
  chose a part of a contract, a macro writes an impl, or C code stands beside a crate. With --real a crate is refused
  that hides what a contract says, one that declares C functions, and one with a hole in its proof.
- crates/run runs a program only as it was proved. It runs no program that was put there by hand, though it is newer;
  none after an archive has put older-dated sources over those that were proved, or others with the old size and date;
  none of sources that were removed or renamed; and none that was copied with its notes from another machine. What it
  takes from the cache again, it does not prove again. `--version` has the sum of the program.
- The first build in a clone takes what another clone has proved, and proves nothing. A library or a program that was
  changed in the cache is refused by name. Two clones that build at once prove each crate once. What `rt ci` has proved
  is kept while another clone proves it, and stays what is kept, though the prover says something else there. What was
  kept for a clone that is gone, by an older version of crates/build, is removed.
"""

import argparse
import hashlib
import os
import pathlib
import shutil
import subprocess
import tarfile
import time
from concurrent.futures import ThreadPoolExecutor
from typing import Callable

from checks.kit.checking import FLAG, Fail, check, compare
from checks.kit.made_up_kit import GOOD, LAST, Kit
from checks.kit.programs import ROOT
from checks.kit.small_repository import BUILT, BUILT_AGAIN, LIBRARY, PROGRAM, Repository

# Words in the place of `functions=1 sum=..`, each with what `rt` says of it.
BAD_WORDS = {
    "hides=1": "hides", "may-abort=1": "Abort", "partial=1": "may have", "may-serve=1": "may have", "bugs=1": "refused",
    "foreign=low::close": "C functions", "may-wait=1": "HANDLES", "main=Threads": "HANDLES",
    "target=wasm64-unknown-unknown": "wasm64", "incremental=trusted": "does not know", "pinned=no": "does not know",
    "cache=trusted": "does not know", "batches=trusted": "does not know", "holes=1": "does not know",
    "statements=2": "does not know",
}
# Whole lines.
BAD_LINES = (
    "logic=proved native=nat,char,string logic-built=trusted libraries-built=trusted statements=trusted",
    f"{LAST.replace('WORDS', GOOD)} incremental=trusted",
    f"{LAST.replace('WORDS', GOOD)} crate-checked=trusted",
    LAST.replace("WORDS", GOOD).replace("proved", "unproved"),
    LAST.replace("WORDS", GOOD).replace(" statements=trusted", ""),
    "only=1 holes=0",
    "",
)
# What is said before a good last line.
BAD_TEXTS = {
    "warning: calls of a tactic that chose a term: 1": "a tactic chose a term",
    "by-macro: low::mine blocks=1": "writes an impl",
    "by-macro: low::mine blocks=0": "may hide text",
    "specs/Lib.antt:1:1 warning: this pattern binds a variable spelled like a constructor": "matches every value",
}


class Room:
    """A made-up toolchain, and clones whose cache is that of one user."""

    def __init__(self, folder: pathlib.Path, fail: Fail) -> None:
        self.folder, self.fail = folder, fail
        self.kit = Kit(folder / "kit")
        self.count = 0

    def clone(self, cache: str = "cache") -> Repository:
        self.count += 1
        return Repository(self.folder / f"clone{self.count}", self.folder / cache, self.kit.path)

    def built(self, cache: str = "cache") -> Repository:
        """A clone in which the program is built."""
        made = self.clone(cache)
        made.said("crates/build", "little")
        self.kit.proved()
        return made

    def run(self, clone: Repository, what: str, due: str, proved: list[str], said: str = "") -> None:
        """What comes of a run of the program: it writes the source from which it was made, these crates are proved, and
        this is said."""
        status, came = clone.said("crates/run", "audit", "little", "--")
        if status or not came.endswith(due) or said not in came:
            self.fail(f"{what}: status {status}, {came[-400:]}")
        compare(f"{what}: proved", self.kit.proved(), proved, self.fail)


# ---- what the prover says


def refused(room: Room, clone: Repository, last: str, says: str, why: str) -> None:
    """A proof that ends so, and says this before, must be refused with the line, for this reason."""
    made = room.folder / f"made {hashlib.sha256((says + last).encode()).hexdigest()[:8]}.rlib"
    words = ["--crate-name", "low", "src/lib.rt", "-o", str(made)]
    status, said = clone.said("crates/prove", str(room.kit.folder), "low", "build", *words, LAST=last, SAYS=says)
    if not status or why not in said or last not in said:
        room.fail(f"{says}{last}: status {status}, {said[-500:]}")


def judge_lines(room: Room) -> None:
    clone, good = room.clone("cache of lines"), LAST.replace("WORDS", GOOD)
    lines = [(LAST.replace("WORDS", f"{word} {GOOD}"), "", why) for word, why in BAD_WORDS.items()]
    lines += [(line, "", "does not know") for line in BAD_LINES]
    lines += [(good, f"{text}\n", why) for text, why in BAD_TEXTS.items()]
    with ThreadPoolExecutor(4) as pool:
        list(pool.map(lambda it: refused(room, clone, *it), lines))
    room.kit.proved()
    status, said = clone.said("crates/build", "little", LAST=lines[0][0])
    if status != 1 or lines[0][0] not in said or "low is not proved" not in said or clone.made.exists():
        room.fail(f"crates/build: status {status}, {said[-500:]}")
    room.run(clone, "the same, proved", PROGRAM, ["low", "low", "little"])


# ---- what is run


def by_hand(room: Room) -> None:
    clone = room.built()
    room.run(clone, "a program as it was built", PROGRAM, [])
    clone.made.write_text("#!/bin/sh\necho by hand\n", "utf-8")
    room.run(clone, "a program that was put there by hand", PROGRAM, [], "is not what was proved from these sources")
    os.utime(clone.made)
    room.run(clone, "a program that was touched", PROGRAM, [])
    clone.made.unlink()
    room.run(clone, "a program that was removed", PROGRAM, [], "was proved on this machine before")


def older_sources(room: Room) -> None:
    """Sources that an archive puts over those that were proved, with older dates, and then with the same ones."""
    clone = room.built()
    for number, dates in enumerate(("older", "same")):
        text = PROGRAM.replace("_number", f"_numbe{number}")
        of = clone.program.stat()
        other = room.folder / f"archived{number}.rt"
        other.write_text(text, "utf-8")
        os.utime(other, (1_600_000_000, 1_600_000_000) if dates == "older" else (of.st_atime, of.st_mtime))
        with tarfile.open(room.folder / "archive.tar", "w") as archive:
            archive.add(other, "crates/little/src/main.rt")
        clone.said("tar", "xf", str(room.folder / "archive.tar"))
        room.run(clone, f"another source of {dates} date by tar", text, ["little"],
                 "is not known to be proved from these sources")
    shutil.copystat(clone.library, clone.library)
    clone.library.rename(clone.library.with_name("other.rt"))
    shutil.copy(clone.library.with_name("other.rt"), clone.library)
    room.run(clone, "a source more", text, ["low"])


def from_another_machine(room: Room) -> None:
    """A folder that is copied with all that is beside the program, to where the cache has nothing of it."""
    there = room.built("cache of another machine")
    here = room.clone("cache of this machine")
    here.program.write_text(PROGRAM, "utf-8")
    shutil.copytree(there.made.parent, here.made.parent, dirs_exist_ok=True)
    room.run(here, "a copy from another machine", PROGRAM, ["low", "little"], "is not known to be proved")
    other = room.clone("cache of this machine")
    shutil.copytree(there.made.parent, other.made.parent, dirs_exist_ok=True)
    room.run(other, "the same copy, where the machine has proved it", PROGRAM, [])


def version(room: Room) -> None:
    clone = room.built()
    (clone.folder / "viewer").mkdir()
    shutil.copy(ROOT / "viewer/version.sh", clone.folder / "viewer")
    script = clone.folder / "viewer/version.sh"
    script.write_text(script.read_text("utf-8").replace("binder_audit binder_tables", "little"), "utf-8")
    summed = hashlib.sha256(clone.made.read_bytes()).hexdigest()
    if f"little: sha256 {summed}\n" not in clone.said("viewer/version.sh")[1]:
        room.fail(f"--version: {clone.said('viewer/version.sh')[1]}")
    clone.made.write_text("#!/bin/sh\n", "utf-8")
    if "little: not built from these sources\n" not in clone.said("viewer/version.sh")[1]:
        room.fail(f"--version of another program: {clone.said('viewer/version.sh')[1]}")


# ---- what clones share


def second_clone(room: Room) -> None:
    first, second = room.built("cache of two"), room.clone("cache of two")
    room.run(second, "a second clone", PROGRAM, [], "was proved on this machine before, from these sources")
    second.program.write_text(PROGRAM.replace("_number", "_seven"), "utf-8")
    compare("its changed program", second.said("crates/build", "little"), (0, "build: crates/little/out/little is not "
            f"known to be proved from these sources\n{BUILT_AGAIN}"), room.fail)
    compare("its changed program: proved", room.kit.proved(), ["little"], room.fail)
    room.run(first, "the first clone", PROGRAM, [])


def changed_in_the_cache(room: Room) -> None:
    first = room.built("cache that is changed")
    kept = room.folder / "cache that is changed/binder-audit"
    for pattern, crate, proved in (("programs/*/little", "little", []), ("proved/*/low.rlib/*", "low", ["low"]),
                                   ("proved/*/little.log", "little", ["little"])):
        next(kept.glob(pattern)).write_text("changed\n", "utf-8")
        if crate == "low" or pattern.endswith("log"):
            shutil.rmtree(kept / "programs")
        clone = room.clone("cache that is changed")
        room.run(clone, f"{pattern}, changed", PROGRAM, proved,
                 f"what is kept of {crate} was changed since it was proved")
    room.run(first, "the first clone, whose program is there", PROGRAM, [])


def both_at_once(room: Room) -> None:
    """Two clones begin to build at the same time."""
    clones = [room.clone("cache of both") for _ in range(2)]
    builds = [subprocess.Popen(["crates/build", "little"], cwd=it.folder, env=it.environment, stdout=subprocess.PIPE,
                               stderr=subprocess.STDOUT, encoding="utf-8") for it in clones]
    said = [build.communicate()[0] for build in builds]
    if any(build.returncode for build in builds):
        room.fail(f"two builds at once: {said}")
    compare("two builds at once: proved", sorted(room.kit.proved()), ["little", "low"], room.fail)


def noted_beside_a_build(room: Room) -> None:
    """`rt ci` has passed in a clone, and is noted while a build in another one proves the same library."""
    waits = room.folder / "waits"
    noting, other = room.clone("cache of a note"), room.clone("cache of a note")
    waits.touch()
    slow = {"WAITS": str(waits), "SAYS": "statements low: modules loaded=1 checked=0\n"}
    build = subprocess.Popen(["crates/build", "little"], cwd=other.folder, env=other.environment | slow,
                             stdout=subprocess.DEVNULL, stderr=subprocess.DEVNULL)
    while not room.kit.proved():
        time.sleep(0.05)
    for path, text in (noting.library.parents[1] / "out/rlib/low.rlib/statements", LIBRARY), (noting.made, PROGRAM):
        path.parent.mkdir(parents=True)
        path.write_text(text, "utf-8")
    compare("the note", noting.said("crates/build", "--note", str(time.time()), "little"), (0, ""), room.fail)
    for when in "beside the build", "after it":
        logs = [it for it in (noting.cache / "binder-audit/proved").glob("*/low.log") if it.parent.suffix != ".new"]
        compare(f"what is kept {when}", [it.read_text("utf-8") for it in logs], ["proved by rt ci\n"], room.fail)
        waits.unlink(missing_ok=True)
        build.wait()
    room.kit.proved()
    clone, text = room.clone("cache of a note"), PROGRAM.replace("_number", "_seven")
    clone.program.write_text(text, "utf-8")
    room.run(clone, "another program over what is kept", text, ["little"])


def forgets(room: Room) -> None:
    clone = room.built()
    gone = clone.cache / "binder-audit/crates-of-another"
    gone.mkdir(parents=True)
    (gone / "of").write_bytes(os.fsencode(room.folder / "gone"))
    clone.said("crates/build", "little")
    if gone.exists():
        room.fail("what was kept for a clone that is gone is still there")


PLAYS: tuple[Callable[[Room], None], ...] = (
    judge_lines, by_hand, older_sources, from_another_machine, version, second_clone, changed_in_the_cache,
    both_at_once, noted_beside_a_build, forgets)

# ---- by the toolchain's own prover

HIDES = """
/// What is given out may do anything.
pub fn hidden(alloc: Global) -> Result<Box<dyn Fn(u64) -> u64>, AllocError> {
    Ok(Box::new(alloc, |it: u64| it)?)
}
"""
FOREIGN = """
unsafe extern "C" {
    pub safe fn abs(number: i32) -> i32
        ensures { result ≡ 7 };
}
"""
UNPROVED = """
/// A contract that the body does not meet.
pub fn eight() -> u64
    ensures { result ≡ 8 }
{
    7
}
"""


# Each text stands in the library, beside what it takes, and is refused with this word.
CRATES = {
    "hides=": (HIDES, "use std::alloc::{AllocError, Global};"),
    "foreign": (FOREIGN, "ghost use Rattle.std.specs.Prelude.{◌≡◌};"),
    "eight": (UNPROVED, "ghost use Rattle.std.specs.Prelude.{◌≡◌};"),
}


def judge_crates(folder: pathlib.Path, fail: Fail) -> None:
    """Crates that the real prover proves, but with a word, and one that it does not prove."""
    for word, (text, takes) in CRATES.items():
        clone = Repository(folder / f"real {word}", folder / f"cache of {word}")
        clone.library.write_text(LIBRARY.replace("pub fn seven", f"{takes}\n\npub fn seven") + text, "utf-8")
        status, said = clone.said("crates/build", "little")
        if status != 1 or word not in said or "low is not proved" not in said or clone.made.exists():
            fail(f"the crate with {word}: status {status}, {said[-800:]}")


def judge(given: argparse.Namespace, folder: pathlib.Path, fail: Fail) -> None:
    room = Room(folder, fail)
    compare("the first build", room.clone().said("crates/build", "little"), (0, BUILT), fail)
    room.kit.proved()
    for play in PLAYS:
        play(room)
    if given.real:
        judge_crates(folder, fail)


if __name__ == "__main__":
    check(judge, real=FLAG)
