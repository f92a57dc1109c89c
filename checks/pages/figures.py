"""The figures of README.md on the blind test, and of docs/TRUST.md on the second recorder, are those of the tables in
docs/MEASURED.md."""

import pathlib
import re
from typing import Iterator

from checks.kit.programs import ROOT

README, TRUST, MEASURED = ROOT / "README.md", ROOT / "docs/TRUST.md", ROOT / "docs/MEASURED.md"

# The kernels of README.md, in the order of the columns of docs/MEASURED.md.
JUDGED_ON = "6.1", "7.2", "7.2, driver in Rust"
# The rows of docs/MEASURED.md from which a row of README.md is made.
HEALTHY = "healthy sessions; of them with a `real` line; wrong `maybe` lines in them"
FAULTY = "sessions with a fault; found as `real`; as `maybe`; missed"
BESIDE = "wrong `real` lines beside a fault; wrong `maybe` lines"

# The sentence of docs/TRUST.md, and the kernels on which all was played, also with a second recorder.
WITNESS = re.compile(r"In (\d+) of (\d+) recordings on each of two kernels, a second recorder")
KERNELS = "6.1.0-57", "7.2.13"


def counts(text: str, begin: str) -> list[list[int]]:
    """The numbers of each cell of the first row that begins with this cell."""
    row = next((line for line in text.splitlines() if line.startswith(f"| {begin} |")), "")
    return [[int(number) for number in re.findall(r"\d+", cell)] for cell in row.split("|")[2:-1]]


def wrong_judged(text: str, measured: str) -> Iterator[tuple[int, str]]:
    """The rows of the blind test that have other figures."""
    columns = zip(*(counts(measured, begin) for begin in (HEALTHY, FAULTY, BESIDE)))
    for kernel, ((healthy, failed, of_healthy), (faulty, real, maybe, missed), (_, of_faulty)) in zip(
            JUDGED_ON, columns):
        due = [[real, faulty], [maybe], [missed], [of_healthy + of_faulty], [failed, healthy]]
        if counts(text, kernel) != due:
            at = text.find(f"| {kernel} |")
            yield text.count("\n", 0, max(at, 0)) + 1, f"the figures of {kernel} in docs/MEASURED.md are {due}"


def wrong_witness(text: str, measured: str) -> Iterator[tuple[int, str]]:
    """The sentence on the second recorder, if it has other figures: those of the first column."""
    due = {tuple(reversed(cell)) for begin in KERNELS for cell in counts(measured, begin)[:1]}
    found = WITNESS.search(text)
    if not found or {tuple(map(int, found.groups()))} != due:
        at = text.count("\n", 0, found.start()) + 1 if found else 1
        yield at, f"the figures in docs/MEASURED.md are {sorted(due)}"


def wrong(page: pathlib.Path) -> Iterator[tuple[int, str]]:
    """The sentences and rows with other figures, each with its line."""
    judges = {README: wrong_judged, TRUST: wrong_witness}
    if page in judges:
        yield from judges[page](page.read_text("utf-8"), MEASURED.read_text("utf-8"))
