"""From the command line of a check to its status: what it compares, and how it reports what is wrong."""

import argparse
import contextlib
import os
import pathlib
import shutil
import signal
import sys
import tempfile
from typing import Callable, Iterable, Iterator, Sequence

from checks.kit.cases import chosen
from checks.kit.programs import AUDITOR, BY_RATTLE
from viewer.files import Stopped

Fail = Callable[[str], None]

# How each check ends, as `--help` says.
ENDING = """\
If all is well, nothing is printed but what is asked for. If not, a line on standard error says of each thing what is
wrong with it, or what was expected and what came, and the status is 1."""

# An option without a value, as `check` takes it.
FLAG = {"action": "store_true"}


def compare(what: str, came: object, due: object, fail: Fail) -> None:
    """Reports two answers, or two lists, that are not the same."""
    if came != due:
        fail(f"{what}: expected {str(due)[:400]}, came {str(came)[:400]}")


def row(*cells: object) -> None:
    """Prints a row of a table."""
    print("| " + " | ".join(map(str, cells)) + " |", flush=True)


@contextlib.contextmanager
def own_room(prefix: str = "checks-") -> Iterator[pathlib.Path]:
    """A folder that is removed afterwards. A signal that ends the check removes it too, and ends the check without a
    word and at once, in each of its processes."""
    with tempfile.TemporaryDirectory(prefix=prefix) as room:
        def stop(number: int, _: object) -> None:
            shutil.rmtree(room, ignore_errors=True)
            os._exit(128 + number)
        for number in (signal.SIGINT, signal.SIGTERM):
            signal.signal(number, stop)
        yield pathlib.Path(room)


def check(judge: Callable[[argparse.Namespace, pathlib.Path, Fail], Iterable[str] | None],
          cases: Callable[[], Sequence[str]] | None = None, **options: dict) -> None:
    """Runs a check, from its command line to its status. `judge` gets the parsed command line, a folder that is removed
    afterwards, and a function that takes failures; others it may yield. The command line may have these options, in the
    form of argparse, and programs. If it names no program, `given.programs` has the built auditor, and that by Rattle's
    own compiler if it is there. A check with cases, of which this is given the names, takes names in place of programs,
    and `given.cases` has those that it must play."""
    name = pathlib.Path(sys.argv[0]).stem
    line = argparse.ArgumentParser(f"checks/run {name} --", description=sys.modules["__main__"].__doc__, epilog=ENDING,
                                   allow_abbrev=False, formatter_class=argparse.RawDescriptionHelpFormatter)
    built = [AUDITOR, *[BY_RATTLE] * BY_RATTLE.exists()]
    if cases is None:
        line.add_argument("programs", metavar="PROGRAM", nargs="*", type=pathlib.Path, default=built,
                          help="the auditor, or several; without it the built ones")
    else:
        line.add_argument("cases", metavar="CASE", nargs="*",
                          help="plays these alone: whole names, or all that begin with them before a / or a space")
        line.add_argument("--list", action="store_true", help="lists the names of the cases")
        line.add_argument("--program", dest="programs", metavar="PROGRAM", action="append", type=pathlib.Path,
                          help="an auditor; without it the built ones")
    for option, how in options.items():
        line.add_argument(f"--{option}", **how)
    given = line.parse_args()
    if cases is not None:
        choose(name, given, cases())
    given.programs = [program.resolve() for program in given.programs or built]
    failed: list[str] = []
    with own_room() as room:
        try:
            failed.extend(judge(given, room, failed.append) or ())
        except Stopped as stopped:  # the programs can't be built
            failed.append(stopped.line)
    for what in failed:
        print(f"checks/{name}: {what}", file=sys.stderr)
    sys.exit(1 if failed else 0)


def choose(check_name: str, given: argparse.Namespace, names: Sequence[str]) -> None:
    """Puts the names of the cases that the command line means into it, or lists them."""
    if given.list:
        print("\n".join(names))
        sys.exit()
    try:
        given.named, given.cases = bool(given.cases), chosen(given.cases, names)
    except ValueError as error:
        sys.exit(f"checks/{check_name}: {error}")
