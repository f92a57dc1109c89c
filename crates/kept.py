"""What is proved on this machine is kept in the user's cache, for all clones of this repository.

    proved/KEY/     a library NAME.rlib, or NAME.o of a program; NAME.log, all that the prover said; and `sum`. KEY is a
                    sum of all that the crate is made from: its sources, the libraries below it as they are kept, and
                    the toolchain. While the crate is proved the folder is KEY.new, and locked. What is kept first stays
    programs/SUM/   a linked program, by the sum of all sources that it is made from; and `noted`

The cache is outside of the repository: a kept library holds sources of its crate, and `rt` refuses a repository with
sources that no check reads. An entry says by a sum which bytes were proved. One with other bytes is refused, and
removed.
"""

import fcntl
import hashlib
import os
import pathlib
import shutil
import time
from typing import Callable, Iterator, NamedTuple

from crates.sources import CRATES, Crate, Toolchain, all_below

CACHE = pathlib.Path(os.environ.get("XDG_CACHE_HOME") or pathlib.Path.home() / ".cache") / "binder-audit"
PROVED, PROGRAMS = CACHE / "proved", CACHE / "programs"
# What no build has used for so many days is removed; and of what none has used for a day the oldest, until all that is
# kept has no more than so many bytes.
MOST_DAYS = 30
MOST_BYTES = 12_000_000_000
DAY = 86_400
# What is kept as the log of a library that `rt ci` has proved.
BY_RT_CI = "proved by rt ci\n"


class Noted(NamedTuple):
    """What is noted of a program that was proved: a sum of the sources, that of the program, and the prover's last
    line."""
    sources: str
    program: str
    verdict: str

    def __str__(self) -> str:
        return f"program {self.program}\nsources {self.sources}\nverdict {self.verdict}\n"


def noted_in(path: pathlib.Path) -> Noted | None:
    """What a file notes; None if it is not there, or is no such note."""
    if not path.is_file():
        return None
    words = dict(line.partition(" ")[::2] for line in path.read_text("utf-8", errors="replace").splitlines())
    return Noted(words["sources"], words["program"], words["verdict"]) if {*Noted._fields} <= words.keys() else None


def sum_of(path: pathlib.Path) -> str:
    """The sum of a file, or of all files in a folder."""
    total = hashlib.sha256()
    if path.is_file():
        total.update(path.read_bytes())
    for file in sorted(it for it in path.rglob("*") if it.is_file()):
        total.update(repr((str(file.relative_to(path)), file.read_bytes())).encode())
    return total.hexdigest()


def remove(path: pathlib.Path) -> None:
    shutil.rmtree(path, ignore_errors=True)


class Kept:
    """What is kept of crates and programs, by sums of what they are made from."""

    def __init__(self, toolchain: Toolchain, tell: Callable[[str], None]) -> None:
        self.toolchain = toolchain
        self.tell = tell
        # Of the libraries that are kept.
        self.sums: dict[str, str] = {}
        PROVED.mkdir(parents=True, exist_ok=True)
        PROGRAMS.mkdir(parents=True, exist_ok=True)

    # ---- libraries, and programs that are not linked

    def key(self, crate: Crate) -> str:
        """The sum of all that a crate is made from. Those below it must be kept. Says where the crate is kept."""
        total = hashlib.sha256(f"{self.toolchain.version} {crate.made_from()}".encode())
        for below in all_below(crate)[:-1]:
            total.update(self.sums[below.name].encode())
        crate.entry = PROVED / total.hexdigest()[:32]
        return total.hexdigest()

    def has(self, crate: Crate, key: str) -> bool:
        """Whether a crate is kept that was made from this, with the very bytes that were proved."""
        entry = crate.entry
        if not (entry / "sum").is_file():
            return False
        found = self.sum_in(crate, entry)
        if (entry / "sum").read_text("utf-8") != f"{key} {found}\n":
            self.tell(f"what is kept of {crate.name} was changed since it was proved, and is refused: {entry}")
            remove(entry)
            return False
        os.utime(entry / "sum")
        self.sums[crate.name] = found
        return True

    @staticmethod
    def sum_in(crate: Crate, folder: pathlib.Path) -> str:
        return f"{sum_of(folder / crate.made_name)} {sum_of(folder / f'{crate.name}.log')}"

    def begin(self, crate: Crate) -> "Unfinished | None":
        """Where a crate is to be made; None while another build makes it."""
        folder = crate.entry.with_suffix(".new")
        folder.mkdir(exist_ok=True)
        held = os.open(folder, os.O_RDONLY | os.O_DIRECTORY)
        try:
            fcntl.flock(held, fcntl.LOCK_EX | fcntl.LOCK_NB)
            is_same = os.path.samestat(os.fstat(held), os.stat(folder))
        except OSError:
            is_same = False
        if not is_same:
            os.close(held)
            return None
        for left in folder.iterdir():
            remove(left)
            left.unlink(missing_ok=True)
        return Unfinished(folder, held)

    def keep(self, crate: Crate, key: str, unfinished: "Unfinished") -> bool:
        """Keeps a crate that was made and proved, if no source was changed while it was. Returns whether none was. What
        another clone has kept of the crate meanwhile stays, as crates above it may have been made from that."""
        is_same = self.key(crate) == key
        if is_same and not self.has(crate, key):
            self.put(crate, key, unfinished.folder)
            unfinished.end()
        else:
            unfinished.drop()
        return is_same

    def keep_made(self, crate: Crate, key: str, made: pathlib.Path, said: str) -> None:
        """Keeps a library that was proved elsewhere, even while a build in another clone proves it."""
        folder = crate.entry.with_suffix(f".{os.getpid()}")
        folder.mkdir()
        shutil.move(made, folder / crate.made_name)
        (folder / f"{crate.name}.log").write_text(said, "utf-8")
        self.put(crate, key, folder)

    def put(self, crate: Crate, key: str, folder: pathlib.Path) -> None:
        found = self.sum_in(crate, folder)
        (folder / "sum").write_text(f"{key} {found}\n", "utf-8")
        remove(crate.entry)
        folder.rename(crate.entry)
        self.sums[crate.name] = found

    @staticmethod
    def verdict(crate: Crate) -> str:
        """The last line of what the prover said of a crate that is kept."""
        return (crate.entry / f"{crate.name}.log").read_text("utf-8", errors="replace").splitlines()[-1]

    # ---- programs

    def of_sources(self, program: Crate) -> str:
        """The sum of all sources that a program is made from, and of the toolchain's version."""
        total = hashlib.sha256(self.toolchain.version.encode())
        for crate in all_below(program):
            total.update(crate.made_from().encode())
        return total.hexdigest()

    def kept_program(self, program: Crate, sources: str) -> pathlib.Path:
        return PROGRAMS / sources[:32] / program.name

    def noted(self, program: Crate, sources: str) -> Noted | None:
        """What is noted of the program that was proved here from these sources, if it is kept."""
        kept = self.kept_program(program, sources)
        found = noted_in(kept.with_name("noted"))
        if not found or not kept.is_file():
            return None
        if (found.sources, found.program) != (sources, sum_of(kept)):
            self.tell(f"what is kept of {program.name} was changed since it was proved, and is refused: {kept}")
            remove(kept.parent)
            return None
        os.utime(kept.with_name("noted"))
        return found

    def keep_program(self, program: Crate, made: pathlib.Path, sources: str, verdict: str) -> Noted:
        """Keeps a program that was proved from these sources and linked."""
        found = Noted(sources, sum_of(made), verdict)
        kept = self.kept_program(program, sources)
        new = kept.parent.with_suffix(f".{os.getpid()}")
        new.mkdir()
        shutil.copy2(made, new / program.name)
        (new / "noted").write_text(str(found), "utf-8")
        remove(kept.parent)
        new.rename(kept.parent)
        return found


class Unfinished(NamedTuple):
    """A folder in which a crate is made, locked for as long as the file is open."""
    folder: pathlib.Path
    held: int

    def end(self) -> None:
        os.close(self.held)

    def drop(self) -> None:
        remove(self.folder)
        self.end()


# ---- what goes


def entries() -> Iterator[tuple[float, pathlib.Path]]:
    """All that is kept, each with when a build last used it."""
    for folder in (*PROVED.glob("*"), *PROGRAMS.glob("*")):
        for name in ("sum", "noted", ""):
            if (folder / name).exists():
                yield (folder / name).stat().st_mtime, folder
                break


def size_of(folder: pathlib.Path) -> int:
    return sum(it.lstat().st_size for it in folder.rglob("*"))


def forget() -> None:
    """Removes what no build uses any more, and what older versions of this script kept in folders of this repository
    and of those that are gone."""
    own = CACHE / f"crates-{hashlib.sha256(os.fsencode(CRATES)).hexdigest()[:16]}"
    for of in CACHE.glob("crates-*/of"):
        if of.parent == own or not os.path.exists(of.read_bytes() or b"/"):
            remove(of.parent)
    now, left, found = time.time(), 0, sorted(entries(), reverse=True)
    if not found or found[-1][0] >= now - DAY:
        return
    for used, folder in found:
        left += size_of(folder)
        if used < now - MOST_DAYS * DAY or used < now - DAY and left > MOST_BYTES:
            remove(folder)
