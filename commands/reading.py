"""Reads words as the proved programs do, to say which of them a program won't take."""

from typing import NamedTuple

from commands.option import Command


class Refused(Exception):
    """What is wrong with the words."""


class Given(NamedTuple):
    """The options that are given, each with its values, and the files."""
    options: list[tuple[str, list[str]]]
    files: list[str]

    def values(self, name: str) -> list[str]:
        return [value for option, values in self.options if option == name for value in values]

    def asks(self, *names: str) -> bool:
        return any(option in names for option, _ in self.options)


def unknown(word: str) -> str:
    if word in ("--help", "--version"):
        return f"{word} must be the only word"
    return f"no option {word}; --help lists them, and a file of that name follows --"


def read(command: Command, words: list[str]) -> Given:
    """An option with a value is `--option value` or `--option=value`, and a value that is a word of its own begins with
    no hyphen, unless it is `-`. After `--` all words are files."""
    takes = {option.name: len(option.values) for option in command.options() if option.name.startswith("--")}
    del takes["--version"]
    given = Given([], [])
    left, is_ended = 0, False  # so many values are to come
    for word in words:
        if is_ended or not (word.startswith("-") and len(word) > 1):
            (given.options[-1][1] if left else given.files).append(word)
            left -= left > 0
            continue
        if left:
            raise Refused(f"{given.options[-1][0]} has no value")
        if word == "--":
            is_ended = True
            continue
        name, equal, value = word.partition("=")
        if name not in takes:
            raise Refused(unknown(name))
        if equal and not takes[name]:
            raise Refused(f"{name} takes no value")
        given.options.append((name, [value] if equal else []))
        left = takes[name] - bool(equal)
    if left:
        raise Refused(f"{given.options[-1][0]} has no value")
    if not given.files:
        raise Refused("no file is named")
    return given
