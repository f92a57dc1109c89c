"""Names that changed from build to build: a file has a line `OLD = NEW` for each, and the defects of both are one."""

import re
from collections import defaultdict
from collections.abc import Callable, Iterable, Iterator
from typing import NamedTuple

from viewer.files import Stopped, refuse_named_pipe
from viewer.units import defect_key

LINE = re.compile(r"\s*(\S.*?)\s+=\s+(\S.*?)\s*")

# A word of a defect, of which names are whole ones.
WORD = re.compile(r"[^\s(),]+")


class Text(NamedTuple):
    """The texts of a defect, of which its key is made, and the call of its path."""
    kind: str
    who: str
    path: str
    call: str | None


class Renamed:
    """The names that changed. A name stands for itself where no letter, digit, `_`, `$` or `-` goes on before or after
    it: `systemui` also in `com.android.systemui` and `com.android.systemui:tuner`, and `IFoo.a` in `org.IFoo.a`."""

    def __init__(self, names: dict[str, str]):
        self.names = {old: self.last(names, old) for old in names}
        longest_first = sorted((re.escape(name) for name in names), key=len, reverse=True)
        self.pattern = re.compile(rf"(?<![\w$-])(?:{'|'.join(longest_first)})(?![\w$-])") if names else None

    @staticmethod
    def last(names: dict[str, str], old: str) -> str:
        """What a name has become in the end."""
        new, met = names[old], {old}
        while new in names:
            if new in met:
                raise ValueError(old)
            met.add(new)
            new = names[new]
        return new

    def text(self, text: str) -> str:
        return self.pattern.sub(lambda found: self.names[found[0]], text) if self.pattern and text else text

    def defect(self, key: str, text: Text) -> tuple[str, Text]:
        """A defect by its newest names, with the key of these."""
        new = text._replace(who=self.text(text.who), path=self.text(text.path), call=text.call and self.text(text.call))
        return (key, text) if new == text else (defect_key(new.kind, new.who, new.path), new)


def renamed_in(path: str | None) -> Renamed:
    """The names in a file. A line may be empty, or begin with #."""
    names: dict[str, str] = {}
    if path is not None:
        refuse_named_pipe(path)
        try:
            with open(path, encoding="utf-8", errors="replace") as lines:
                for number, line in enumerate(lines, 1):
                    if not line.strip() or line.lstrip().startswith("#"):
                        continue
                    said = LINE.fullmatch(line)
                    if not said or names.setdefault(said[1], said[2]) != said[2]:
                        raise Stopped(4, f"{path}:{number}: it is not OLD = NEW, with another OLD in each line")
        except OSError as error:
            raise Stopped(4, f"{path}: {error.strerror}") from error
    try:
        return Renamed(names)
    except ValueError as error:
        raise Stopped(4, f"{path}: {error} becomes itself again") from error


# ---- which names may have changed


class Had(NamedTuple):
    """A defect that one side alone has: its texts, and in how many captures it is."""
    kind: str
    words: tuple[str, ...]
    captures: int


class Guess(NamedTuple):
    """A name that is gone, one that is new, and how many defects are alike but for these."""
    old: str
    new: str
    defects: int


def had(kind: str, who: str, path: str, captures: int) -> Had:
    return Had(kind, (*WORD.findall(who), ":", *WORD.findall(path)), captures)


def holes(one: Had) -> Iterator[tuple[tuple, str]]:
    """A defect without one of its names, and that name."""
    for word in dict.fromkeys(one.words):
        if not word.isdigit() and len(word) > 1:
            yield (one.kind, *("\0" if it == word else it for it in one.words)), word


def shortened(old: str, new: str) -> tuple[str, str]:
    """Two names without the parts in which both end, as of an interface that is called otherwise."""
    olds, news = old.split("."), new.split(".")
    while len(olds) > 1 and len(news) > 1 and olds[-1] == news[-1]:
        olds.pop()
        news.pop()
    return ".".join(olds), ".".join(news)


def guesses(gone: Iterable[Had], new: Iterable[Had], are_alike: Callable[[int, int], bool]) -> list[Guess]:
    """Which names may have changed: a defect of the old side and one of the new are the same but for one name, and in
    about as many captures. Those of most defects come first."""
    without: dict[tuple, list[tuple[Had, str]]] = defaultdict(list)
    for one in gone:
        for rest, word in holes(one):
            without[rest].append((one, word))
    found: dict[tuple[str, str], int] = defaultdict(int)
    for one in new:
        for rest, word in holes(one):
            for other, old in without.get(rest, ()):
                if old != word and are_alike(other.captures, one.captures):
                    found[shortened(old, word)] += 1
    some = (Guess(*names, count) for names, count in found.items())
    return sorted(some, key=lambda it: (-it.defects, it.old, it.new))
