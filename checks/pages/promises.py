"""docs/PROMISES.md: its wrong bodies are those of the crates, its names are in the sources, and its sizes are so.
docs/TRUST.md has the number of wrong bodies too."""

import functools
import pathlib
import re
import subprocess
from typing import Callable, Iterable, Iterator, NamedTuple

from checks.kit.programs import ROOT, edits_of
from checks.pages import lengths

PAGE = ROOT / "docs/PROMISES.md"
TRUST = ROOT / "docs/TRUST.md"
CRATES = ROOT / "crates"
NAMED = re.compile(r"`([^`]+)`")
# What ends a promise: the functions with their clauses, and then the wrong bodies that are refused.
BRACKET = re.compile(r"\(([^()]*)\)$")
REFUSED = "refused: "
# A part of a rung that has no promises.
TESTS = "### What tests show"
# What is called on this page and is no name of the sources: a lifetime.
OTHER = re.compile(r"'\w+")
# The rows on what proves, builds, links and runs.
SCRIPTS = "`crates/prove`, `build`, `run`, `kept.py`, `sources.py` and `stamps.py`"
RT = "toolchain's `rt`, two files in Python"
LINKERS = "toolchain's linkers, `rattle-link`, and LLVM's by the name of `ld.lld`"
# How the rows on libraries of the toolchain begin, with the folders of theirs that are counted.
LIBRARIES = {"toolchain's standard library": ("src", "specs", "proofs"), "toolchain's crates ": ("src", "specs")}
# A line by which a file of code, or a clause in it, uses a library.
USED = re.compile(r"^\s*(?:(?:pub(?:\([a-z]+\))? )?use |ghost use Rattle\.)(\w+)\b", re.MULTILINE)


def rows(text: str) -> Iterator[tuple[int, list[str]]]:
    """The rows of the tables, each with its line, as cells."""
    for number, line in enumerate(text.splitlines(), 1):
        if line.startswith("| ") or line.startswith("|-"):
            yield number, [cell.strip() for cell in line.strip("|").split("|")]


class Promise(NamedTuple):
    """A promise of a rung: its line, and what its bracket has."""
    line: int
    clauses: str
    refused: list[str]


def promises(text: str) -> Iterator[Promise]:
    """The items of the lists of the rungs."""
    of_rung = promised = False
    for line, piece in lengths.pieces(text):
        if piece.startswith("## "):
            of_rung = " rung" in piece
        if piece.startswith("#"):
            promised = of_rung and not piece.startswith(TESTS)
        elif promised and piece.startswith("- "):
            bracket = BRACKET.search(piece)
            clauses, _, refused = (bracket[1] if bracket else "").partition(REFUSED)
            yield Promise(line, clauses, NAMED.findall(refused))


def without_clauses(text: str) -> Iterator[tuple[int, str]]:
    """The promises that name neither a function nor what else has the clause."""
    for promise in promises(text):
        if not promise.clauses:
            yield promise.line, "a promise without its function and clause, in brackets"


# ---- wrong bodies


def stored() -> list[pathlib.Path]:
    """The wrong bodies of all crates."""
    return [it for crate in sorted(CRATES.iterdir()) for it in edits_of(crate)]


def wrong_bodies(text: str) -> Iterator[tuple[int, str]]:
    """The wrong bodies of promises that no crate has, and those of crates that no promise names."""
    there, told = {it.stem: it.parent.parent.name for it in stored()}, set()
    for promise in promises(text):
        told.update(promise.refused)
        yield from ((promise.line, f"no {name}.edit") for name in promise.refused if name not in there)
    for name in sorted(there.keys() - told):
        yield 1, f"nothing of {name}.edit of {there[name]}"


# ---- names


@functools.cache
def words_of_sources() -> frozenset[str]:
    return frozenset(word for crate in CRATES.iterdir() for folder in ("src", "specs")
                     for file in (crate / folder).rglob("*.*t*")
                     for word in re.findall(r"\w+", file.read_text("utf-8")))


def wrong_names(text: str) -> Iterator[tuple[int, str]]:
    """The functions, clauses and definitions of promises that no source names."""
    for promise in promises(text):
        for name in NAMED.findall(promise.clauses):
            if not OTHER.fullmatch(name) and (lost := set(re.findall(r"\w+", name)) - words_of_sources() - {"laws"}):
                yield promise.line, f"no source names {' '.join(sorted(lost))}"


def may_wait() -> Iterator[str]:
    """The files outside tests that name a handle by which a function may wait, or abort the process."""
    for file in CRATES.glob("*/src/**/*.rt"):
        if not file.relative_to(CRATES).parts[0].endswith("_tests") and re.search(
                r"\b(Wait|Abort)\b", file.read_text("utf-8")):
            yield str(file.relative_to(ROOT))


# ---- sizes


def lines_in(files: Iterable[pathlib.Path]) -> int:
    """The lines of these files."""
    return sum(len(file.read_text("utf-8").splitlines()) for file in files)


def lines_of(folders: Iterable[pathlib.Path]) -> int:
    """The lines of code, definitions and proofs in these folders."""
    return lines_in(file for folder in folders for file in folder.rglob("*") if file.suffix in (".rt", ".antt"))


def bytes_of(files: Iterable[pathlib.Path]) -> int:
    """The bytes of these files."""
    return sum(file.stat().st_size for file in files)


def made_of() -> dict[str, list[str]]:
    """By crates.txt, the libraries that each crate stands on."""
    lines = (ROOT / "crates.txt").read_text("utf-8").splitlines()
    return {name: uses.split() for name, _, uses in (line.partition(":") for line in lines if not line.startswith("#"))}


def below(crate: str) -> set[str]:
    """A crate, and all crates of the repository that it is made of."""
    used = made_of()
    found = {crate}
    while more := {it for name in found for it in used[name] if it in used} - found:
        found |= more
    return found


def toolchain() -> pathlib.Path | None:
    """Its folder, if it is there."""
    try:
        said = subprocess.run(["rt", "doc"], capture_output=True, encoding="utf-8", check=True).stdout.strip()
    except (OSError, subprocess.CalledProcessError):
        return None
    return pathlib.Path(said).parent


def sizes(text: str) -> Iterator[tuple[str, int]]:
    """How large is what the rows with these first cells speak of."""
    auditor = below("binder_audit")
    for what, folder in (("code", "src"), ("definitions", "specs"), ("proofs", "proofs")):
        yield f"{what} of `./audit`", lines_of(CRATES / name / folder for name in auditor)
    yield "definitions of the headline", len((ROOT / "docs/DEFINITIONS.md").read_text("utf-8").splitlines())
    yield "definitions of `listing_tables`", lines_of([CRATES / "listing_tables/specs"])
    yield SCRIPTS, lines_in(CRATES / name for name in NAMED.findall(SCRIPTS.replace("crates/", "")))
    if kit := toolchain():
        yield RT, lines_in(kit / "bin" / it for it in ("rt", "rtlib.py"))
        yield LINKERS, bytes_of([kit / "bin/rattle-link"])
        yield "toolchain's prover", bytes_of([kit / "bin/rattle"])
        yield "toolchain's compilers", bytes_of(kit / f"toolchain/bin/{name}" for name in ("clang", "rattle-x64"))
        yield "toolchain's logic, in `logic_built`", bytes_of((kit / "logic_built").iterdir())
        yield "toolchain's C code, `libos_c.a` and `liblibc_c.a`", bytes_of((kit / "c").glob("lib*.a"))
        for begin, folders in LIBRARIES.items():
            named = libraries(text, begin)
            yield named, lines_of(kit / "rattle" / name / folder for name in NAMED.findall(named) for folder in folders)


def libraries(text: str, begin: str) -> str:
    """The first cell of the row on these libraries of the toolchain, which names them."""
    return next((cells[0] for _, cells in rows(text) if cells[0].startswith(begin)), begin)


def uses_of(folder: pathlib.Path) -> set[str]:
    """The libraries of the toolchain that one of them uses, in code or in clauses."""
    return {name for file in (folder / "src").rglob("*.rt") for name in USED.findall(file.read_text("utf-8"))
            if (folder.parent / name / "src").is_dir()}


def unnamed_libraries(text: str) -> Iterator[tuple[int, str]]:
    """The libraries of the toolchain that the auditor, or one that it uses, uses, and that no row names."""
    if kit := toolchain():
        named = {name for begin in LIBRARIES for name in NAMED.findall(libraries(text, begin))}
        auditor, used = below("binder_audit"), made_of()
        due = {it for name in auditor for it in used[name]} - auditor
        for name in sorted(due.union(*(uses_of(kit / "rattle" / it) for it in named)) - named):
            yield 1, f"no row names the toolchain's {name}"


def wrong_sizes(text: str) -> Iterator[tuple[int, str]]:
    """The rows that give another size, by more than a tenth."""
    told = {cells[0]: (number, cells[1]) for number, cells in rows(text)}
    for what, size in sizes(text):
        number, cell = told.get(what, (1, ""))
        if not (figure := re.match(r"[\d,]+", cell)) or abs(int(figure[0].replace(",", "")) - size) * 10 > size:
            yield number, f"{what}: {size:,} lines or bytes, not {cell or 'no row'}"


def wrong_count(text: str, what: str, pattern: str, count: int) -> Iterator[tuple[int, str]]:
    """A number in a page that is not so."""
    found = re.search(pattern, text)
    if not found or int(found[1]) != count:
        yield text.count("\n", 0, found.start()) + 1 if found else 1, f"there are {count} {what}"


def wrong_counts(text: str) -> Iterator[tuple[int, str]]:
    """The numbers of crates and of wrong bodies that are not so."""
    yield from wrong_count(text, "crates of `./audit`", r"in (\d+) crates", len(below("binder_audit")))
    yield from wrong_count(text, "wrong bodies", r"(\d+) changes of the code", len(stored()))


def wrong(page: pathlib.Path) -> Iterator[tuple[int, str]]:
    """What is wrong with the page, with its line."""
    text = page.read_text("utf-8")
    if page == TRUST:
        yield from wrong_count(text, "wrong bodies", r"(\d+) wrong changes of the code", len(stored()))
    if page == PAGE:
        checks: tuple[Callable[[str], Iterator[tuple[int, str]]], ...] = (
            without_clauses, wrong_bodies, wrong_names, unnamed_libraries, wrong_sizes, wrong_counts)
        for one in checks:
            yield from one(text)
        for file in may_wait():
            yield 1, f"{file} names Wait or Abort"
