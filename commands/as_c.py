#!/usr/bin/env -S python3 -S
"""Writes the options of `./record` as a header in C, of which the recorder is built.

    commands/as_c.py > option_names.h
"""

import pathlib
import sys
from typing import Iterator

sys.path.insert(0, str(pathlib.Path(__file__).resolve().parent.parent))
sys.dont_write_bytecode = True
from commands.help import WIDEST, lines_of  # noqa: E402
from commands.option import HELP, Option  # noqa: E402
from commands.record import RECORD  # noqa: E402

# The first number that is no letter of a short option.
FIRST = 256


def constant(option: Option) -> str:
    return f"OPTION_{option.name.lstrip('-').replace('-', '_').upper()}"


def argument(option: Option) -> str:
    return "no" if not option.value or option.name == "--adb" else "optional" if option.may_have_none else "required"


def quoted(line: str) -> str:
    return '"' + line.replace("\\", "\\\\").replace('"', '\\"') + '\\n"'


def lines() -> Iterator[str]:
    options = [option for option in (*RECORD.options(), HELP)
               if option.name.startswith("--") and option.name != "--version"]
    yield "/* The options of the recorder, made of commands/record.py by commands/as_c.py. */"
    yield "enum option_name {"
    yield from (f"\t{constant(option)}{f' = {FIRST}' if option == options[0] else ''}," for option in options)
    yield "};"
    yield ""
    yield "static const struct option option_names[] = {"
    yield from (f'\t{{ "{option.name[2:]}", {argument(option)}_argument, NULL, {constant(option)} }},'
                for option in options)
    yield "\t{ \"out\", required_argument, NULL, 'o' },"
    yield "\t{ NULL, 0, NULL, 0 },"
    yield "};"
    yield ""
    yield "static const char option_help[] ="
    yield from (f"\t{quoted(line)}" for line in lines_of(RECORD, WIDEST, program="record"))
    yield "\t;"


if __name__ == "__main__":
    sys.stdout.write("".join(f"{line}\n" for line in lines()))
