"""What .aidl sources declare, read as far as it is asked for: the sources of a system are thousands, and a capture
names some interfaces."""

import os
from collections import defaultdict
from typing import Iterable, Iterator, NamedTuple

from viewer.files import Stopped
from viewer.methods.aidl import Aidl
from viewer.methods.declared import Declared, Signature
from viewer.methods.every import ADDED
from viewer.methods.known import Method, Methods
from viewer.methods.sources import Wrong

# A source with this may have an interface that is called otherwise than its file.
RENAMES = b"@Descriptor"


class Called(NamedTuple):
    """A method: its interface, its name, its types, and its file and line."""
    interface: str
    name: str
    signature: Signature
    source: str

    def __str__(self) -> str:
        return f"{self.interface}.{self.name}{self.signature}"


class Unclear(Exception):
    """Two sources declare one name in two ways."""

    def __init__(self, name: str, one: str, other: str) -> None:
        super().__init__(f"{name}, which {one} and {other} declare in two ways")


def fail(error: OSError) -> None:
    raise error


def aidl_files(words: Iterable[str]) -> Iterator[str]:
    """The .aidl files that are named, or lie in a folder that is."""
    for word in words:
        if not os.path.isdir(word):
            yield word
            continue
        for folder, folders, names in os.walk(word, onerror=fail):
            folders.sort()
            for name in sorted(names):
                if name.endswith(".aidl") and os.path.isfile(path := os.path.join(folder, name)):
                    yield path


class Declarations:
    """The declarations of these files and folders. A name is looked for in the sources that are called like a part of
    it, as the compiler asks."""

    def __init__(self, words: Iterable[str]) -> None:
        self.unread: dict[str, list[str]] = defaultdict(list)
        self.declared: dict[str, list[Declared]] = defaultdict(list)
        self.methods: dict[tuple[str, int], list[Called]] = defaultdict(list)
        renaming = []
        for path in aidl_files(words):
            with open(path, "rb") as source:
                data = source.read()
            if RENAMES in data:
                renaming.append(path)
            else:
                self.unread[os.path.basename(path).removesuffix(".aidl")].append(path)
        for path in renaming:
            self.read(path)

    def read(self, path: str) -> None:
        try:
            if not path.isprintable():
                raise Wrong(path, 1, "the name has a sign that can't be printed")
            with open(path, encoding="utf-8", newline="") as text:
                source = Aidl(path, text.read())
            source.read()
        except UnicodeDecodeError as error:
            raise Stopped(4, f"{path}: not UTF-8: {error.reason}") from error
        except Wrong as wrong:
            raise Stopped(4, str(wrong)) from wrong
        for one in source.declared:
            self.declared[one.name].append(one)
        for interface in source.found:
            for method in interface.methods:
                if (key := (interface.name, method.code)) in source.signatures:
                    self.methods[key].append(Called(interface.name, method.name, source.signatures[key], method.source))

    def read_of(self, name: str) -> None:
        """Reads the sources that may declare a name."""
        for part in name.split("."):
            for path in self.unread.pop(part, ()):
                self.read(path)

    def method(self, interface: str, code: int) -> Called | None:
        """The method of a code. Raises Unclear if sources have two of them."""
        self.read_of(interface)
        found = self.methods.get((interface, code), [])
        for other in found[1:]:
            if (other.name, other.signature) != (found[0].name, found[0].signature):
                raise Unclear(f"code {code} of {interface}", found[0].source, other.source)
        return found[0] if found else None

    def type(self, meant: Iterable[str]) -> Declared | None:
        """The first of these names that is declared. Raises Unclear if sources declare it in two ways. A declaration
        that only says that there is such a type tells nothing beside another one."""
        for name in meant:
            self.read_of(name)
            every = self.declared.get(name, [])
            found = [one for one in every if one.sort != "unknown"] or every
            for other in found[1:]:
                if other._replace(source="") != found[0]._replace(source=""):
                    raise Unclear(name, found[0].source, other.source)
            if found:
                return found[0]
        return None

    def names(self, interfaces: Iterable[str]) -> Methods:
        """The methods of these interfaces. A code that sources give to two methods has no name."""
        found: Methods = {}
        for interface in interfaces:
            self.read_of(interface)
        for key, called in self.methods.items():
            if len({one.name for one in called}) == 1 and called[0].name not in ADDED:
                found[key] = Method(called[0].name, called[0].source)
        return found
