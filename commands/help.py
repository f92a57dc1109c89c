#!/usr/bin/env -S python3 -S
"""Writes what `--help` of a command says.

    commands/help.py COMMAND
"""

import os
import pathlib
import sys
import textwrap
from typing import Callable, Iterator

ROOT = pathlib.Path(__file__).resolve().parent.parent
sys.path.insert(0, str(ROOT))
sys.dont_write_bytecode |= not (ROOT / "crates/build").exists()
from commands.all import command as command_of  # noqa: E402
from commands.option import Command  # noqa: E402
from viewer.program_names import as_called, called  # noqa: E402

# Where the text of an option begins, and the most columns of a line.
INDENT, WIDEST = 20, 100


def width() -> int:
    """So many columns the help has: those of the terminal. Python's module shutil, which has them too, takes long to
    load."""
    told = os.environ.get("COLUMNS", "")
    if told.isdecimal() and int(told):
        return min(int(told), WIDEST)
    try:
        return min(os.get_terminal_size(sys.__stdout__.fileno()).columns or 80, WIDEST)  # type: ignore[union-attr]
    except (AttributeError, ValueError, OSError):  # closed, or no terminal
        return 80


def filled(text: str, columns: int, indent: str = "") -> list[str]:
    return textwrap.wrap(text, columns, initial_indent=indent, subsequent_indent=indent, break_long_words=False,
                         break_on_hyphens=False)


def row(head: str, told: str, columns: int) -> Iterator[str]:
    """A word, and what is said of it, beside it or below. Further lines of that are items."""
    text, *items = told.split("\n")
    lines = filled(text, columns, " " * INDENT)
    lines += [line for item in items for line in filled(item, columns, " " * (INDENT + 2))]
    if len(head) + 4 <= INDENT:
        lines[0] = f"  {head:{INDENT - 2}}{lines[0].lstrip()}"
    else:
        yield f"  {head}"
    yield from lines


def forms_of(command: Command) -> list[str]:
    """What may stand on the command line."""
    return [*command.forms, *(f"{verb.name} {verb.words}" + (" [OPTION].." if command.options(verb.name) else "")
                              for verb in command.verbs)]


def usage_of(command: Command) -> str:
    """Its command line, in a line."""
    program = called(command.name)
    forms = forms_of(command)
    return f"{program} {forms[0] if len(forms) == 1 or command.forms else 'COMMAND ..'}; {program} --help says more"


def lines_of(command: Command, columns: int, name: Callable[[str], str] = as_called, program: str | None = None
             ) -> Iterator[str]:
    """The lines of `--help`. `name` changes a text so that it calls the programs as they are called here."""
    program = program or called(command.name)
    yield from (*filled(name(command.begin), columns), "")
    yield from (f"    {program} {form}" for form in forms_of(command))
    shown = [(name(words), what) for words, what in command.examples]
    at = max(len(words) for words, _ in shown) + 2
    yield from ("", "Examples:", "")
    for words, what in shown:
        yield from [f"    {words:{at}}{what}"] if at + 4 + len(what) <= columns else [f"    {words}", f"        {what}"]
    yield from ("", *filled(name(command.about_words), columns))
    if command.verbs:
        yield ""
    for verb in command.verbs:
        yield from row(verb.name, name(verb.told), columns)
    for part in command.parts:
        yield from ("", f"{part.heading}:", "")
        for option in part.options:
            yield from row(option.head, name(option.told), columns)
    yield from ("", "The status:", "")
    for number, told in command.statuses:
        yield from row(number, name(told), columns)


if __name__ == "__main__":
    try:
        sys.stdout.write("".join(f"{line}\n" for line in lines_of(command_of(sys.argv[1]), width())))
        sys.stdout.flush()
    except OSError as error:
        sys.stderr.write(f"{called(sys.argv[1])}: standard output: {error.strerror}\n")
        os._exit(4)
