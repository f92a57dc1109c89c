"""The command line of a program in Python."""

import argparse
import importlib
import os
import sys
from typing import Any, Iterable, Mapping, NoReturn

from commands.all import command as command_of
from commands.option import HELP, VERSION, Option
from viewer.program_names import FOLDER, called
from viewer.terminal import tell

# How the values of options are read, as argparse has it.
Reading = Mapping[str, Mapping[str, Any]]


def read_by(module: str, name: str) -> Mapping[str, Any]:
    """A value is read by a function, of a module that is imported when there is one. argparse calls it by its name."""
    def read(word: str) -> Any:
        return getattr(importlib.import_module(module), name)(word)
    read.__name__ = name
    return {"type": read}


class Form(argparse.HelpFormatter):
    """By this argparse looks whether each option is well formed, and nothing is written. It has a width, because else
    it asks how wide the terminal is, by a module that takes longer to load than all options take."""

    def __init__(self, prog: str) -> None:
        super().__init__(prog, width=100)


class Version(argparse.Action):
    """Writes what the programs are made of, and ends this one."""

    def __call__(self, *_: object) -> NoReturn:
        os.execv(FOLDER / "version.sh", ["version.sh"])


def how_of(option: Option) -> dict[str, Any]:
    """How argparse takes an option."""
    if not option.value:
        return {"action": "store_true", "default": False}
    values = option.values
    return {"metavar": tuple(values) if values[1:] else values[0], **({"nargs": len(values)} if values[1:] else {}),
            **({"action": "append", "default": []} if option.many else {})}


class Words(argparse.ArgumentParser):
    """The words of a command, by its table. A mistake ends with status 64, as in the other programs here; the line that
    names it begins with `name`."""

    def __init__(self, command: str, name: str) -> None:
        self.command = command_of(command)
        super().__init__(prog=called(command), allow_abbrev=False, formatter_class=Form)
        self.name = name
        self.add_argument(VERSION.name, action=Version, nargs=0)

    def format_usage(self) -> str:
        from commands.help import usage_of
        return f"usage: {usage_of(self.command)}\n"

    def format_help(self) -> str:
        from commands.help import lines_of, width
        return "".join(f"{line}\n" for line in lines_of(self.command, width()))

    def take(self, options: Iterable[Option], read: Reading, words: list[str]) -> None:
        """Takes those of these options with which one of the words begins: of each argparse takes long to learn. What
        `read` has of one comes beside what the table says. The others have their defaults."""
        groups: dict[str, Any] = {}
        options = list(options)
        assert read.keys() <= {option.name for option in options}, read.keys()
        for option in options:
            if option in (HELP, VERSION):
                continue
            how = how_of(option) | dict(read.get(option.name, {}))
            if not any(word.startswith(option.name) for word in words):
                name = how.get("dest", option.name.lstrip("-").replace("-", "_"))
                self.set_defaults(**{name: how.get("default")})
                continue
            to = groups.setdefault(option.one_of, self.add_mutually_exclusive_group()) if option.one_of else self
            to.add_argument(option.name, **how)

    def error(self, message: str) -> NoReturn:
        for word in sys.argv[1:]:
            if word.startswith("-") and os.path.lexists(word):
                message = f"{word} is taken for an option; as a file it is ./{word}"
        self.print_usage(sys.stderr)
        tell(self.name, message)
        self.exit(64)
