"""The options that pages name: each is one of its program, or one of a check of `checks/run`."""

import functools
import pathlib
import re
from typing import Iterator

from checks.kit.programs import ROOT
from checks.package.options import names_of, options_in
from commands.all import NAMES, command
from viewer.program_names import PROGRAMS

# A command in a page: the program, or nothing if the options stand alone, and all that follows.
COMMAND = re.compile(r"(?:[$#] )?(?:(\./\w+|viewer/methods/table\.py|binder[-_]\w+)(?= |$)|(?=--[a-z]))(.*)", re.DOTALL)
OF_CHECK = re.compile(r"(?:checks/run )?(\w+) -- (.*)", re.DOTALL)
CODE = re.compile(r"`([^`]+)`|^    (.*)$", re.MULTILINE)


class Options:
    """The options of each program of the package, by its table."""

    def __init__(self) -> None:
        self.of = {f"binder-{name}": names_of(command(name)) for name in NAMES}

    def named(self, program: str | None) -> set[str] | None:
        """Those of a program, by the name that a page has for it; of all programs without a name; None for others."""
        if program is None:
            return set().union(*self.of.values())
        names = {command: f"binder-{name}" for name, command in PROGRAMS.items()} | {"binder_audit": "binder-audit"}
        return self.of.get(names.get(program, program))


@functools.cache
def sources_of_checks() -> dict[str, str]:
    """The sources of each check, by the name of its file."""
    return {file.stem: file.read_text("utf-8") for file in (ROOT / "checks").rglob("*.*")
            if file.suffix in (".py", ".sh") and file.parent.parent == ROOT / "checks"}


def wrong(page: pathlib.Path, options: Options) -> Iterator[tuple[int, str]]:
    """The options of a page that its programs do not have, each with its line."""
    text = page.read_text("utf-8")
    for found in CODE.finditer(text):
        code, number = found[1] or found[2], text.count("\n", 0, found.start()) + 1
        if of_check := OF_CHECK.fullmatch(code):
            source = sources_of_checks().get(of_check[1])
            for option in options_in(of_check[2]) - {"--help"} if source is not None else ():
                if not re.search(rf"\b{option.removeprefix('--').replace('-', '[-_]')}\b", source):
                    yield number, f"checks/run {of_check[1]} has no {option}"
        elif command := COMMAND.match(code):
            program, words = command[1], command[2].partition(" -- ")[0].partition(" | ")[0]
            due = options.named(program)
            for option in sorted(options_in(words) - due) if due is not None else ():
                yield number, f"{program or 'no program'} has no {option}"
