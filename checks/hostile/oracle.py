"""What must hold of a command line on hostile inputs, whatever they are: of its status, its streams and its files."""

import functools
import gzip
import html.parser
import json
import pathlib
import re
import sqlite3
import subprocess
import zlib
from contextlib import closing
from typing import Iterator

from checks.hostile.plays import Came, Play
from checks.kit.programs import ROOT
from checks.viewer.timeline.read_packets import fields
from commands.all import command
from viewer.page.page import script_of
from viewer.program_names import NAMES

# The most memory of a process, in KiB.
MOST_MEMORY = 1 << 20

# What changes a terminal or how a text reads: controls, marks of direction, ends of lines, and what is no UTF-8.
SIGNS = re.compile("[\0-\x08\x0b-\x1f\x7f-\x9f\u061c\u200e\u200f\u2028-\u202e\u2066-\u2069\ud800-\udfff]")

# An exception of Python that nobody took, also in words of a caller.
EXCEPTION = re.compile(r"Traceback \(most recent|\b(?:[A-Z][a-z]+)+(?:Error|Exception|Exit): ")

# Statuses of what has no `--help`.
STATUSES = {"make": {0, 2}}

# How the lines on standard error begin, if not with the name of the program.
BEGINS = {"make": r"fleet: |make(\[\d+\])?: ", "lab/sessions.py": "fleet: "}

# The lines of the proved programs, which name no program, and those of a usage.
PROVED = re.compile(r"fault \w+|malformed \w+ at \d+( in part \d+)?|usage: .*| {5,}.*")


def text_of(data: bytes) -> str:
    """A text, in which bytes that are no UTF-8 are lone surrogates."""
    return data.decode("utf-8", "surrogateescape")


@functools.cache
def statuses(program: str) -> frozenset[int]:
    """The statuses that the table of a command documents, or else the help of a program."""
    if program in STATUSES:
        return frozenset(STATUSES[program])
    if program in NAMES:
        return frozenset(int(number) for words, _ in command(NAMES[program]).statuses
                         for number in re.findall(r"\d+", words))
    shown = subprocess.run([ROOT / program, "--help"], capture_output=True, check=True).stdout
    return frozenset({0} | {int(number) for number in re.findall(r"\b\d+(?=(?: and \d+)?[:,]\s)", shown.decode())})


def faults_of_streams(came: Came) -> Iterator[str]:
    for name, data in (("output", came.out), ("error", came.err)):
        text = text_of(data)
        if found := EXCEPTION.search(text):
            yield f"an exception on standard {name}: {last_line(text) if found[0].startswith('T') else found[0]}"
        if found := SIGNS.search(text):
            yield f"{found[0]!a} on standard {name}"


def last_line(text: str) -> str:
    return ascii(text.rstrip("\n").rpartition("\n")[2])[:200]


def faults_of_status(play: Play, came: Came) -> Iterator[str]:
    if came.status not in statuses(play.program):
        yield f"status {came.status}, which is not documented: {last_line(text_of(came.err))}"
    if came.status and not came.err.strip() and not (came.status == 2 and play.program in ("./audit", "./listing")):
        yield f"status {came.status} without a word"
    if came.peak > MOST_MEMORY:
        yield f"{came.peak >> 10} MiB of memory"


def faults_of_lines(play: Play, came: Came) -> Iterator[str]:
    """Each line on standard error begins with the program's name, or is one of the proved programs."""
    if not came.err or EXCEPTION.search(text_of(came.err)):
        return
    begins = BEGINS.get(play.program, f"{play.program.removeprefix('./')}: ")
    for line in text_of(came.err).removesuffix("\n").split("\n"):
        if not re.match(begins, line) and not PROVED.fullmatch(line):
            yield f"a line that does not begin as it should: {line[:80]!a}"


# ---- files


class Markup(html.parser.HTMLParser):
    """The tags of a page, what is in its scripts, and what else could load or run something."""

    def __init__(self) -> None:
        super().__init__()
        self.tags: list[str] = []
        self.loads: list[str] = []
        self.script = ""

    def handle_starttag(self, tag: str, attrs: list[tuple[str, str | None]]) -> None:
        self.tags.append(tag)
        self.loads += [name for name, value in attrs if name.startswith("on") or name in ("src", "srcdoc", "style")
                       or name in ("href", "action") and not (value or "").startswith("#")]

    def handle_data(self, data: str) -> None:
        if self.tags[-1:] == ["script"]:
            self.script += data


@functools.cache
def tags_of_templates() -> frozenset[str]:
    return frozenset(tag for path in (ROOT / "viewer/page").rglob("*")
                     if path.suffix in (".html", ".py") for tag in re.findall(r"<([a-z]\w*)", path.read_text("utf-8")))


def page(path: pathlib.Path) -> None:
    text = text_of(path.read_bytes())
    if not text.rstrip("\n").endswith("</html>"):
        raise ValueError("it is cut")
    if found := SIGNS.search(text):
        raise ValueError(f"it has {found[0]!a}")
    markup = Markup()
    markup.feed(text)
    if foreign := {*markup.tags} - tags_of_templates() | {*markup.loads}:
        raise ValueError(f"it has markup of a stranger: {sorted(foreign)}")
    own = script_of(ROOT / "viewer/page/scripts")
    if markup.tags.count("script") != 1 or markup.script.strip() != own.strip():
        raise ValueError("it has another script than its own")


def database(path: pathlib.Path) -> None:
    with closing(sqlite3.connect(path)) as opened:
        if (found := opened.execute("PRAGMA integrity_check").fetchone()) != ("ok",):
            raise ValueError(str(found))
        pages, size = (opened.execute(f"PRAGMA {what}").fetchone()[0] for what in ("page_count", "page_size"))
        if not pages or pages * size != path.stat().st_size:
            raise ValueError(f"it has not {pages} pages of {size} bytes")


def packets(path: pathlib.Path) -> None:
    data = path.read_bytes()
    for _ in fields(gzip.decompress(data) if path.suffix == ".gz" else data):
        pass


def result(path: pathlib.Path) -> None:
    made = json.loads(path.read_bytes())
    if not all(made["capture"][name] for name in ("digest", "build", "device", "made")):
        raise ValueError("it lacks what a lab takes it by")
    if EXCEPTION.search(made["capture"].get("failed") or ""):
        raise ValueError(f"it says {made['capture']['failed']!a}")


# What a whole file of each kind is.
WHOLE = {".html": page, ".db": database, ".pftrace": packets, ".pftrace.gz": packets, ".json": result,
         ".json.gz": lambda path: json.loads(gzip.decompress(path.read_bytes()))}


def why_half(path: pathlib.Path) -> str | None:
    """Why a file under a final name is not whole."""
    suffix = next((it for it in sorted(WHOLE, key=len, reverse=True) if path.name.endswith(it)), None)
    if suffix is None:
        return "nobody asked for it"
    try:
        WHOLE[suffix](path)
    except (ValueError, KeyError, IndexError, EOFError, OSError, sqlite3.Error, zlib.error) as error:
        return f"{error}"[:200]
    return None


def files_in(room: pathlib.Path) -> set[pathlib.Path]:
    return {path for path in room.rglob("*") if not path.is_dir()}


# Files that may come and are none of a final name: the lab's record of what was done, and what SQLite has beside a
# database that is not closed, as one that is damaged.
BESIDE = re.compile(r"tables/.*|lab/results/\.progress/.*|.*\.db-(wal|shm)")


def is_asked(play: Play, name: str) -> bool:
    """Whether a command line makes a file of this name."""
    if play.program == "make":
        return name.startswith(("lab/results/", "lab/LAB.db"))
    return any(name in word for word in play.words) or name == f"{play.words[0].removeprefix('./')}.html"


def faults_of_files(play: Play, room: pathlib.Path, before: set[pathlib.Path]) -> Iterator[str]:
    """Files that came and are not asked for, or not whole."""
    for path in sorted(files_in(room) - before):
        name = str(path.relative_to(room))
        if BESIDE.fullmatch(name):
            continue
        if not is_asked(play, name):
            yield f"the file {name!a} came, which nobody asked for"
        elif why := why_half(path):
            yield f"{name!a} is not whole: {why}"


# ---- several runs on one input


def faults_between(runs: list[tuple[Play, Came]]) -> Iterator[tuple[Play, str]]:
    """The viewer says what the auditor says: status 2 for a malformed capture, with a line that names the file."""
    by = {play.program: (play, came) for play, came in runs}
    if "./audit" not in by or "./view" not in by:
        return
    audited, (play, came) = by["./audit"][1].status, by["./view"]
    if audited == 2 and came.status in (0, 10) or audited == 0 and came.status == 2:
        yield play, f"status {came.status}, but {audited} of ./audit"
    if came.status == 2 and re.fullmatch(r"[\w./-]+", play.words[0], re.ASCII) and (
            play.words[0] not in text_of(came.err)):
        yield play, "a malformed capture that standard error does not name"


def sessions_left_out(play: Play, came: Came, room: pathlib.Path) -> Iterator[str]:
    """Makes sure that a lab of which all is said to be done has a result of each session."""
    if play.program == "make" and came.status == 0:
        for path in sorted((room / "lab").glob("*/*/*.cap")):
            if not (room / "lab/results" / path.relative_to(room / "lab")).with_suffix(".json").exists():
                yield f"status 0, but no result of {path.name!a}"


def faults_of(play: Play, came: Came, room: pathlib.Path, before: set[pathlib.Path]) -> Iterator[str]:
    yield from faults_of_streams(came)
    yield from faults_of_status(play, came)
    yield from faults_of_lines(play, came)
    yield from faults_of_files(play, room, before)
    yield from sessions_left_out(play, came, room)
