"""A command as a table: its options stand there once. Of it are made `--help`, the reader of the words, the
completions and the page of the manual."""

import re
from typing import NamedTuple

# What the shells offer for the value of an option.
FILE, FOLDER, PROCESS = "a file", "a folder", "a process"


def first_clause(told: str) -> str:
    return re.split(r"[.:;] ", told, maxsplit=1)[0]


class Option(NamedTuple):
    """An option. `value` is what `--help` calls the value: nothing if there is none, two words for two values; a value
    in brackets may be left out. The first clause of `told` is what completions say, and each further line of it is an
    item. Options with the same `one_of` do not go together. One that is `many` may be given several times, which
    `--help` tells by two dots."""
    name: str
    value: str
    told: str
    offers: str | tuple[str, ...] = ()
    many: bool = False
    one_of: str = ""

    @property
    def values(self) -> list[str]:
        return self.value.strip("[]").removeprefix("=").split()

    @property
    def may_have_none(self) -> bool:
        return self.value.startswith("[")

    @property
    def head(self) -> str:
        """The option with its value, as --help has it."""
        between = " " if self.value and not self.value.startswith("[=") else ""
        return f"{self.name}{between}{self.value}{'..' if self.many else ''}"

    @property
    def summary(self) -> str:
        return first_clause(self.told)


class Part(NamedTuple):
    """Options that belong together, and the section of docs/ that explains them: `PAGE.md#a-timeline`. If a command has
    verbs, `verbs` are those that take the options; options of no verb stand alone."""
    heading: str
    page: str
    options: tuple[Option, ...]
    verbs: tuple[str, ...] = ()


class Verb(NamedTuple):
    """A word that comes first and says what the command does, and the words that follow."""
    name: str
    words: str
    told: str

    @property
    def summary(self) -> str:
        return first_clause(self.told)


class Command(NamedTuple):
    """A command. `begin` is what `--help` says first; `forms` are the words that it takes, besides the verbs;
    `examples` are commands, each with what it is for; `words` says what the words mean that are no options; `statuses`
    are how it ends."""
    name: str
    begin: str
    forms: tuple[str, ...]
    examples: tuple[tuple[str, str], ...]
    words: str
    parts: tuple[Part, ...]
    statuses: tuple[tuple[str, str], ...]
    verbs: tuple[Verb, ...] = ()

    @property
    def about_words(self) -> str:
        many = any(option.many for option in self.options())
        return self.words + " An option with two dots may be given several times." * many

    def options(self, verb: str | None = None) -> list[Option]:
        """All options; or those that a verb takes, or that stand without one if it is empty."""
        return [option for part in self.parts for option in part.options
                if verb is None or verb in part.verbs or not (verb or part.verbs)]


VERSION = Option("--version", "", "writes of which commit the programs are, if it is the only word")
HELP = Option("--help", "", "writes this, if it is the only word")
