"""What `./listing` does: from its words to the proved program that reads the capture, and to what prints its rows."""

import contextlib
import functools
import os
import pathlib
import sys

from commands.listing import LISTING
from commands.reading import Given, Refused, read
from viewer.files import Stopped, quoted, state_of, unchanged
from viewer.lines.asked import OF_VIEWER, printer_words, program_words, words_without
from viewer.lines.run import is_ready, run
from viewer.listing_words import TABLES, TIMES, doubts_of_files, doubts_of_options, is_text
from viewer.terminal import tell, write
from viewer.whole_python import need_whole_python

TYPE_CHECKING = False
if TYPE_CHECKING:
    from viewer.window import Asked

# ---- a time


def frame_at(root: pathlib.Path, files: list[str], place: int) -> int:
    """The number of the frame that has a place, for which the capture is read once more."""
    import subprocess
    for file in files:
        state_of(file)
    words = ["--frame", str(place), "--form", "tab", "--", *files]
    asked = subprocess.run([root / "listing", *words], stdout=subprocess.PIPE)
    line = asked.stdout.decode("utf-8", "replace").partition("\n")[0]
    if "\t" not in line and asked.returncode in (0, 2):
        raise Stopped(1, f"--around: the frame that has the byte at {place} has no record")
    if "\t" not in line:  # the program has said why
        sys.exit(asked.returncode)
    return int(line.split("\t")[1])


def time_of(given: Given) -> "Asked":
    """The time that is asked for."""
    import argparse
    from viewer.window import READ_BY as READ, Asked
    name, values = next((name, values) for name, values in given.options if name in TIMES)
    for other in ("--from", "--to"):
        if given.asks(other):
            raise Refused(f"{other} does not go with {name}")
    try:
        one, *more = map(READ[name], values)
    except argparse.ArgumentTypeError as error:
        raise Refused(f"{name}: {error}") from error
    return Asked(**{name.removeprefix("--"): [one, *more] if more else one})


def with_frames(root: pathlib.Path, given: Given) -> Given:
    """What is given with the frames of a time, by --from and --to, in place of the time. Without side lists those
    beside the capture are taken."""
    need_whole_python("listing")
    from viewer.database.side_alone import NUMBERS, database_of
    from viewer.database.side_beside import side_beside
    from viewer.window import Recording
    asked = time_of(given)
    with database_of(given.values("--side") or side_beside(given.files)) as database:
        found = Recording(database, *NUMBERS).window(asked, functools.partial(frame_at, root, given.files))
    first, last = found[:2] if found.first <= found.last else (1, 0)
    others = [(name, values) for name, values in given.options if name not in TIMES]
    return Given([("--from", [str(first)]), ("--to", [str(last)]), *others], given.files)


# ---- arguments


def refuse_arguments(given: Given) -> None:
    """Arguments are those of a record that is shown whole. Sources name them, or methods."""
    if given.asks("--arguments") and (given.asks(*TABLES) or not given.asks("--at")):
        raise Refused("--arguments goes with --at")
    if not given.asks("--arguments", "--names"):
        raise Refused("--aidl goes with --arguments or --names")


def list_with_arguments(root: pathlib.Path, given: Given) -> int:
    """Lists what is asked for, with what the records say. The status."""
    need_whole_python("listing")
    import subprocess
    from viewer.arguments.listed import listed
    words = words_without(given, "--arguments", *([] if given.asks("--names") else ["--aidl"]))
    with unchanged([*given.files, *given.values("--side")]):
        asked = subprocess.run([root / "listing", *words, "--", *given.files], stdout=subprocess.PIPE)
        if asked.returncode not in (0, 2):
            return asked.returncode
        lines = asked.stdout.decode("utf-8", "replace").splitlines(True)
        said = list(listed(root, lines, given.files, given.values("--side"), given.values("--aidl")))
    with contextlib.suppress(BrokenPipeError):  # who reads has enough, as of other lines
        write(said)
    return asked.returncode


# ---- names


def name_words(root: pathlib.Path, given: Given) -> list[str]:
    """The words of the printer about names of methods."""
    if not given.asks("--names"):
        return []
    need_whole_python("listing")
    from viewer.lines.named import method_words
    return method_words(root, given.files, given.values("--aidl"))


# ---- what is asked for


def asked_by(root: pathlib.Path, words: list[str]) -> Given:
    """What the words ask for. If a file can't be opened, a line says which: the program then says it without a name."""
    for word in words:
        if not is_text(word):
            raise Refused(f"{quoted(word)} is not UTF-8")
    given = read(LISTING, words)
    if given.asks(*OF_VIEWER):
        refuse_arguments(given)
    for doubt in doubts_of_options(given):
        raise Refused(doubt)
    if given.asks(*TIMES):
        given = with_frames(root, given)
    return given


def answer(root: pathlib.Path, given: Given) -> int:
    """Answers what is asked for, or runs in place of this program what does."""
    if given.asks("--arguments"):
        return list_with_arguments(root, given)
    for doubt in doubts_of_files(given):
        tell("listing", doubt)
        break
    if given.asks(*TABLES):
        program = os.fspath(root / "crates/run")
        os.execv(program, [program, "listing", "binder_tables", "--", *printer_words(given), "--", *given.files])
    if not is_ready():
        from viewer.lines.build import need_printer
        need_printer()
    run(os.fspath(root), program_words(given), [*printer_words(given), *name_words(root, given)])


def main(root: pathlib.Path) -> int:
    words = sys.argv[1:]
    if words == ["--help"]:
        os.execv(root / "commands/help.py", ["help.py", "listing"])
    if words == ["--version"]:
        os.execv(root / "viewer/version.sh", ["version.sh"])
    try:
        return answer(root, asked_by(root, words))
    except Refused as refused:
        from commands.help import usage_of
        tell("usage", usage_of(LISTING))
        tell("listing", str(refused))
        return 64
    except Stopped as stopped:
        tell("listing", stopped.line)
        return stopped.status
    except OSError as error:
        tell("listing", f"{error.filename or 'standard output'}: {error.strerror}")
        return 4
