"""The cases of a check, by their names: a command line may say which of them are played."""

import contextlib
import difflib
import os
import pathlib
from concurrent.futures import ProcessPoolExecutor
from typing import Callable, Iterable, Iterator, NamedTuple, Sequence


class Part(NamedTuple):
    """A case that is a function: it gets the folder of programs, a room of its own, what is `given` to it, and a
    function that takes failures."""
    name: str
    play: Callable[..., object]
    given: tuple = ()


def parts_of(*plays: Callable[..., object]) -> list[Part]:
    """Functions as cases of their names: `check_last_names` is `last-names`."""
    return [Part(play.__name__.removeprefix("check_").replace("_", "-"), play) for play in plays]


def played(part: Part, folder: pathlib.Path, room: pathlib.Path) -> list[str]:
    """The failures of a part, which so can run in a process of its own."""
    failed: list[str] = []
    own = room / part.name.replace("/", "-")
    own.mkdir()
    part.play(folder, own, *part.given, failed.append)
    return failed


def play(parts: Iterable[Part], folder: pathlib.Path, room: pathlib.Path, fail: Callable[[str], None]) -> None:
    """Plays parts one after another."""
    for part in parts:
        for what in played(part, folder, room):
            fail(what)


@contextlib.contextmanager
def side_by_side(parts: Iterable[Part], folder: pathlib.Path, room: pathlib.Path, fail: Callable[[str], None]
                 ) -> Iterator[None]:
    """Plays parts, each in a process of its own, while the block goes on."""
    with ProcessPoolExecutor(os.cpu_count()) as pool:
        jobs = [pool.submit(played, part, folder, room) for part in parts]
        yield
        for job in jobs:
            for what in job.result():
                fail(what)


def fits(word: str, name: str) -> bool:
    """Whether a word means a case: by its whole name, or by the first part of it, as of `stored/death.txt`, or of
    `never_answered wait=200`."""
    return name == word or name.startswith((f"{word}/", f"{word} "))


def chosen(words: Sequence[str], names: Sequence[str]) -> list[str]:
    """The names that words mean, in their order; all names without a word."""
    for word in words:
        if not any(fits(word, name) for name in names):
            raise ValueError(f"no case {word!r}; {like(word, names)}--list lists all")
    return [name for name in names if not words or any(fits(word, name) for word in words)]


def like(word: str, names: Sequence[str]) -> str:
    """Names that are like a word, as the beginning of a sentence; nothing if none is."""
    heads = list(dict.fromkeys(head for name in names
                               for head in (name.partition("/")[0], name.partition(" ")[0], name)))
    near = [name for name in heads if word in name] or difflib.get_close_matches(word, heads)
    return f"like it: {', '.join(near[:8])}; " if near else ""
