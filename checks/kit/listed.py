"""The lines of `./listing` without the script, which looks each time whether a program must be built."""

import pathlib
import subprocess
from functools import cache

from checks.kit.programs import ROOT, TABLES
from commands.listing import LISTING
from commands.reading import read
from viewer.lines.asked import printer_words, program_words
from viewer.lines.build import need_printer
from viewer.lines.run import path
from viewer.listing import name_words

# With these the program names an error itself, and its rows have no end.
ENDED_EARLY = 3, 4, 64


@cache
def printer() -> str:
    need_printer()
    return path()


def listed(*words: object, cwd: pathlib.Path = ROOT) -> tuple[int, bytes, bytes]:
    """The status, standard output and standard error of words that the script takes, at the top of the repository."""
    given = read(LISTING, list(map(str, words)))
    named = name_words(ROOT, given)
    with subprocess.Popen([TABLES, *program_words(given)], cwd=cwd, stdout=subprocess.PIPE, stderr=subprocess.PIPE
                          ) as program:
        assert program.stdout and program.stderr
        printed = subprocess.run([printer(), *printer_words(given), *named], cwd=cwd, stdin=program.stdout,
                                 capture_output=True, close_fds=False, timeout=120)
        program.stdout.close()
        told = program.stderr.read()
    if program.returncode in ENDED_EARLY:
        return program.returncode, printed.stdout, told
    return printed.returncode, printed.stdout, told + printed.stderr
