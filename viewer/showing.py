"""What `./view` does: from its words to a page, a database, groups or a timeline."""

import argparse
import contextlib
import os
import pathlib
import signal
import sqlite3
import sys
from typing import TYPE_CHECKING, Iterator, NamedTuple, NoReturn

from viewer.command_line import Reading, Words, read_by
from viewer.database import loading, raw_tables
from viewer.database.side_beside import side_beside
from viewer.database.sqlite import errors_in
from viewer.files import Stopped, errors_of, keep, refuse_no_folder, shown_name, unchanged, whole_file, word_of
from viewer.methods import known
from viewer.scratch import folder_in, sigterm_held
from viewer.terminal import tell, write
from viewer.timeline.suffixes import NATIVE, SUFFIXES
from viewer.window_asked import READ as WINDOWS, is_asked

if TYPE_CHECKING:
    from viewer.arguments.recorded import Arguments
    from viewer.arguments.sources import Declarations
    from viewer.defects.gate import Gate
    from viewer.malformed import Fault
    from viewer.timing import Timing
    from viewer.window import Window


def number(word: str) -> int:
    """A number of a frame or a thread."""
    if not (word.isascii() and word.isdigit() and int(word) < 2**64):
        raise ValueError(word)
    return int(word)


# How the values of the options are read, and what they are called here.
READ: Reading = {
    "-o": {"dest": "page"}, "--fail-on": {"choices": ("real", "maybe")}, "--names": {"choices": ("android",)},
    "--thread": {"type": number}, "--from": {"type": number, "dest": "first"},
    "--to": {"type": number, "dest": "final"}, **WINDOWS, "--call": read_by("viewer.calls.asked", "call"),
    "--absent": read_by("viewer.absent.called", "called"), "--slow": read_by("viewer.window", "length")}


def why_not(asked: argparse.Namespace) -> Iterator[str]:
    """Which words do not go together."""
    if asked.call is not None and asked.groups:
        yield "--call does not go with --groups: each has lines of its own"
    if asked.absent is not None and (asked.groups or asked.call is not None):
        yield "--absent does not go with --groups or --call: each has lines of its own"
    if asked.groups and asked.page:
        yield "-o does not go with --groups, which makes no page"
    if (asked.columns or asked.all) and not asked.groups:
        yield "--columns and --all go with --groups"
    if asked.arguments and not (asked.page or asked.database):
        yield "--arguments is for a page or a database"
    if asked.trace is None and {asked.thread, asked.first, asked.final} != {None}:
        yield "--thread, --from and --to narrow a timeline, and go with --trace"
    if asked.process is not None and not (asked.page or asked.groups or asked.trace or asked.absent):
        yield "--process narrows a page, groups, a timeline or --absent"
    if {asked.first, asked.final} != {None} and is_asked(asked):
        yield "--from and --to do not go with --last, --between or --around"
    if asked.trace is not None and not asked.trace.endswith(SUFFIXES):
        yield f"the name of a timeline ends in {', '.join(SUFFIXES[:-1])} or {SUFFIXES[-1]}"
    if asked.names is not None and not (asked.trace or "").endswith(NATIVE):
        yield f"--names goes with a timeline whose name ends in {' or '.join(NATIVE)}"
    if asked.known and not (asked.against or asked.fail_on):
        yield "--known goes with --against or --fail-on"
    if asked.slow is not None and asked.page is None:
        yield "--slow is for a page, which -o names"


def asked_by(words: list[str]) -> argparse.Namespace:
    line = Words("view", "view")
    line.add_argument("files", metavar="FILE", nargs="+")
    line.take(line.command.options(), READ, words)
    asked = line.parse_args(words)
    if asked.page is None and not asked.groups and {asked.trace, asked.against, asked.call, asked.absent} == {None}:
        asked.page = f"{asked.files[0]}.html"
    for why in why_not(asked):
        line.error(why)
    return asked


class Progress:
    """A line on standard error that says what is being done, if standard error is a terminal. With --timing it measures
    that."""

    def __init__(self) -> None:
        self.shown = sys.stderr is not None and sys.stderr.isatty()
        self.timing: "Timing | None" = None

    def tell(self, what: str) -> None:
        if self.timing:
            self.timing.phase(what)
        if self.shown:
            sys.stderr.write(f"\r\033[Kview: {what}")
            sys.stderr.flush()

    def end(self) -> None:
        if self.shown:
            sys.stderr.write("\r\033[K")


def refuse_existing(asked: argparse.Namespace) -> None:
    if asked.page:
        from viewer.page import page
        page.refuse_no_engine()
        page.refuse_other(asked.files, pathlib.Path(asked.page))
    for name in (asked.database, asked.trace):
        if name is not None and os.path.lexists(name):
            raise Stopped(1, f"{name} exists already")


def tell_doubt(database: sqlite3.Connection, fault: "Fault | None") -> None:
    if fault:
        tell("view", str(fault))
    for doubt, in database.execute("SELECT value FROM capture WHERE key GLOB '*_doubt' AND value NOTNULL"
                                   " ORDER BY key DESC"):
        tell("view", doubt)
    if database.execute("SELECT 1 FROM disagreement").fetchone():
        from viewer.rules import agreement
        tell("view", str(agreement.line_of(database)))


def write_trace(database: sqlite3.Connection, asked: argparse.Namespace, window: "Window | None") -> None:
    """Writes the timeline."""
    from viewer.timeline import trace
    from viewer.timeline.tracks import Window
    out = pathlib.Path(asked.trace)
    first, last = (one % 2**64 for one in window[:2]) if window and window.is_timed else (asked.first, asked.final)
    upids = window.upids if window else None
    with whole_file(out) as made:
        if not trace.write(database, made, Window(asked.process, upids, asked.thread, first, last), out.name,
                           asked.names == "android"):
            tell("view", "the capture has no thread that is asked for, so the timeline is empty")


def name_functions(database: sqlite3.Connection, folders: list[str], room: pathlib.Path) -> None:
    """Puts the names of the functions of stacks into the database."""
    from viewer.database import symbols
    if not symbols.load(database, folders, room):
        tell("view", "llvm-symbolizer and addr2line are missing, so functions have no names; this installs one: apt-get"
                     " install llvm")


def gate_of(asked: argparse.Namespace) -> "Gate | None":
    """What is asked of defects; None if nothing is."""
    if not (asked.against or asked.fail_on):
        return None
    from viewer.defects.gate import Gate
    return Gate(asked.against, asked.fail_on, asked.known)


def has_failed(gate: "Gate | None") -> bool:
    """Whether there is what --fail-on names, which a line then says."""
    failed = gate.failed() if gate else []
    if gate and failed:
        tell("view", f"--fail-on {gate.fail_on}: {' '.join(failed)}")
    return bool(failed)


def take_side(asked: argparse.Namespace) -> None:
    """Takes the side list that lies beside the capture, if none is named."""
    if not asked.side and not asked.no_side:
        asked.side = side_beside(asked.files)
        if asked.side:
            tell("view", f"takes {' '.join(asked.side)} beside the capture; --no-side leaves it out")


def groups_of(database: sqlite3.Connection, asked: argparse.Namespace, fault: "Fault | None",
              window: "Window | None") -> Iterator[str]:
    """What --groups prints: columns, or lines of fields."""
    if is_in_columns(asked):
        import shutil
        from viewer.page.group_table import table_of
        return table_of(database, window, asked.all, shutil.get_terminal_size((100, 24)).columns)
    from viewer.page.group_lines import lines_of
    return lines_of(database, fault, window)


def absent_of(database: sqlite3.Connection, asked: argparse.Namespace, window: "Window | None") -> Iterator[str]:
    """What --absent prints."""
    from viewer.absent.asked_of import openings_of, span_of
    from viewer.absent.called import meant_in
    from viewer.absent.lines import lines_of
    openings = None if asked.process is None else openings_of(database, asked.process)
    span = span_of(database, window if is_asked(asked) else None, asked.between)
    return lines_of(database, meant_in(database, asked.absent), openings, span)


def is_in_columns(asked: argparse.Namespace) -> bool:
    return asked.groups and (asked.columns or sys.stdout is not None and sys.stdout.isatty())


def told_at_end(database: sqlite3.Connection, asked: argparse.Namespace, window: "Window | None") -> str | None:
    """What a line on standard error says at the end; None if standard output has an answer for a program, of the whole
    capture."""
    made = asked.page or asked.trace or (is_in_columns(asked) or window and asked.absent is None) and \
        shown_name(asked.files)
    if not made:
        return None
    from viewer.page.within import told_of
    return f"{made}: {told_of(database, window)}"


class Seen(NamedTuple):
    """The status, the lines to print, and what is said at the end."""
    status: int
    lines: list[str]
    told: str | None


def sources_of(asked: argparse.Namespace) -> "Declarations | None":
    """The .aidl sources that are named; none of them if only arguments are asked for."""
    if not (asked.aidl or asked.arguments):
        return None
    from viewer.arguments.sources import Declarations
    return Declarations(asked.aidl)


def load(root: pathlib.Path, asked: argparse.Namespace, methods: known.Methods, room: pathlib.Path, progress: Progress,
         sources: "Declarations | None") -> tuple[sqlite3.Connection, "Fault | None"]:
    """Makes the database in this folder, by the programs of `root`. Returns it, and the first fault of the capture."""
    with unchanged(asked.side):
        side = None
        if asked.side:
            from viewer.database.side_list import joined_sides
            side = joined_sides(asked.side, room / "joined.side")
        database, malformed = loading.database_of(
            root, asked.files, side, room / "capture.db", progress.tell, methods, asked.side,
            asked.database is not None, progress.timing, sources)
    if not malformed:
        return database, None
    from viewer.malformed import fault_of
    return database, fault_of(malformed, asked.files)


def options_of(asked: argparse.Namespace) -> str:
    """The words by which the same page is made of the same files again."""
    given = (("--side", asked.side), ("--methods", asked.methods), ("--aidl", asked.aidl),
             ("--symbols", asked.symbols), ("--against", [asked.against] if asked.against else []))
    return "".join(f" {option} {word_of(value)}" for option, values in given for value in values) + (
        " --no-side" if asked.no_side else "") + (" --arguments" if asked.arguments else "")


@contextlib.contextmanager
def arguments_of(database: sqlite3.Connection, asked: argparse.Namespace, sources: "Declarations | None"
                 ) -> "Iterator[Arguments | None]":
    """The arguments of the capture, if they are asked for. A database that is kept gets all of them."""
    if not asked.arguments or sources is None:
        yield None
        return
    from viewer.arguments.recorded import Arguments, take_all
    from viewer.database.data_hash import Data
    with Data(asked.files) as files:
        arguments = Arguments(database, files, sources)
        if arguments.why_none:
            tell("view", f"--arguments: {arguments.why_none}")
        if asked.database:
            take_all(database, arguments)
        yield arguments


def window_of(database: sqlite3.Connection, asked: argparse.Namespace) -> "Window | None":
    """The frames and processes that are asked for; None if all are."""
    if asked.process is None and not is_asked(asked):
        return None
    from viewer.page import within
    return within.window_of(database, asked)


def answer(database: sqlite3.Connection, asked: argparse.Namespace, fault: "Fault | None", gate: "Gate | None",
           arguments: "Arguments | None") -> tuple[list[str], str | None]:
    """Writes what is asked for of a database. Returns the lines to print, and what is said at the end."""
    lines: list[str] = []
    window = window_of(database, asked)
    if asked.call is not None:
        from viewer.calls.asked import place_of
        from viewer.calls.lines import lines_of
        lines += lines_of(database, place_of(database, asked.call))
    if asked.absent is not None:
        lines += absent_of(database, asked, window)
    if asked.groups:
        lines += groups_of(database, asked, fault, window)
    if gate:
        gate.look(database)
        lines += gate.lines(fault)
        if doubt := gate.doubt():
            tell("view", doubt)
    if asked.page:
        from viewer.page import page
        page.write(database, asked.files, pathlib.Path(asked.page), gate.shown() if gate else None, window,
                   page.SLOW if asked.slow is None else asked.slow, options_of(asked), arguments)
    if asked.trace:
        write_trace(database, asked, window)
    return lines, told_at_end(database, asked, window)


def view(root: pathlib.Path, asked: argparse.Namespace, progress: Progress) -> Seen:
    """Makes what is asked for."""
    if asked.timing:
        from viewer.timing import Timing
        progress.timing = Timing()
    refuse_existing(asked)
    refuse_no_folder(asked.symbols)
    methods, sources = known.methods_of(asked.methods), sources_of(asked)
    gate = gate_of(asked)
    with sigterm_held():  # the compiler leaves files if it is ended
        raw_tables.loader()
    take_side(asked)
    beside = os.path.dirname(os.path.abspath(asked.database)) if asked.database else None
    with (errors_of(asked.database or os.environ.get("TMPDIR", "/tmp")), folder_in(beside) as room,
          errors_in(room / "capture.db")):
        database, fault = load(root, asked, methods, room, progress, sources)
        progress.end()
        tell_doubt(database, fault)
        if asked.symbols:
            progress.tell("naming the functions of stacks")
            name_functions(database, asked.symbols, room)
        progress.tell("writing")
        with arguments_of(database, asked, sources) as arguments:
            lines, told = answer(database, asked, fault, gate, arguments)
        if asked.database:
            database.close()
            keep(room / "capture.db", pathlib.Path(asked.database))
    failed = has_failed(gate)
    return Seen(2 if fault else 10 if failed else 0, lines, told)


def stop(_: int, __: object) -> NoReturn:
    """Ends with the status of a program that SIGTERM ended, after what is under way has been removed. A second SIGTERM
    does not stop the removal."""
    signal.signal(signal.SIGTERM, signal.SIG_IGN)
    sys.exit(128 + signal.SIGTERM)


def main(root: pathlib.Path) -> int:
    """Does what the words of the command line ask for, by the programs of the folder `root`. The status."""
    progress = Progress()
    signal.signal(signal.SIGTERM, stop)
    try:
        status, lines, told = view(root, asked_by(sys.argv[1:]), progress)
        progress.end()
        # A reader that stops early, for example `head`, ends this without a message. By now nothing is left to remove.
        signal.signal(signal.SIGPIPE, signal.SIG_DFL)
        with errors_of("standard output"):
            write(lines)
        for line in progress.timing.lines() if progress.timing else ():
            tell("view", line)
        if told:
            tell("view", told)
        return status
    except Stopped as stopped:
        progress.end()
        tell("view", str(stopped))
        return stopped.status
    except known.NotATable as error:
        progress.end()
        tell("view", str(error))
        return 4
    except OSError as error:
        progress.end()
        tell("view", f"{error.filename}: {error.strerror}" if error.filename else str(error))
        return 4
    except KeyboardInterrupt:
        return 130
    finally:
        progress.end()
