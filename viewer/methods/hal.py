"""Reads the interfaces of .hal sources, with the transaction codes that the compiler `hidl-gen` gives their methods."""

import re
from typing import Iterable, Iterator, NamedTuple

from viewer.methods.every import BASE, OF_BASE
from viewer.methods.sources import Interface, Method, Reader, Wrong, words_of

TYPES = ("struct", "union", "safe_union", "enum", "typedef")


class Parent(NamedTuple):
    """What an interface extends: the names that may be meant, and where it says so."""
    names: list[str]
    file: str
    line: int


class Own(NamedTuple):
    """An interface with the methods of its own, each with its file and line."""
    name: str
    parent: Parent | None
    methods: list[tuple[str, str]]
    file: str
    line: int


class Hal(Reader):
    """Reads one source."""

    space = re.compile(r"(?:[ \t\f\v\n]|\r\n)+|//[^\r\n]*|/\*")
    no_string = "is longer than 4096 signs"
    words = words_of(r"(?:[A-Za-z_]\w*|@[0-9]+\.[0-9]+)(?:(?:\.|:+)[A-Za-z_]\w*|@[0-9]+\.[0-9]+){,64}",
                     r'L?"(?:\\[^\n]|[^"\\\n]){,4096}"')

    def __init__(self, file: str, text: str) -> None:
        super().__init__(file, text)
        self.found: list[Own] = []
        self.package = ""
        self.imports: list[str] = []

    def comment_end(self) -> int:
        """The compiler takes `/**/` for the beginning of a comment, and a person for a whole one."""
        if self.text.startswith("/**/", self.at):
            raise Wrong(self.file, self.line, "/**/ begins a comment in hidl-gen, and is none elsewhere")
        return super().comment_end()

    def read(self) -> None:
        self.must("package")
        self.package = self.must_be("name").text
        if not re.fullmatch(r"[\w.]+@[0-9]+\.[0-9]+", self.package):
            self.wrong(f"a package without a version: {self.package}")
        self.must(";")
        while self.takes("import"):
            self.imports.append(self.full(self.must_be("name").text))
            self.must(";")
        while self.next.sort != "end":
            self.annotations()
            if self.takes("interface"):
                self.interface()
            else:
                self.declared()
                self.must(";")

    # ---- names, annotations and types

    def identifier(self) -> str:
        name = self.must_be("name")
        if not re.fullmatch(r"\w+", name.text):
            self.wrong(f"expected a plain name and not {name.text}", name.line)
        return name.text

    def full(self, name: str) -> str:
        """A name with the package and version that it leaves out."""
        package, _, version = self.package.partition("@")
        if name.startswith("@"):
            return package + name
        return name if "@" in name else f"{package}@{version}::{name}"

    def constant(self) -> None:
        self.must_be("name")
        if self.takes("#"):
            self.identifier()

    def annotations(self) -> None:
        while self.takes("@"):
            self.identifier()
            for _ in self.listed(")") if self.takes("(") else ():
                self.identifier()
                self.must("=")
                self.expression()

    def type(self) -> None:
        self.must_be("name")
        if self.takes("<"):
            self.deeper()
            self.type()
            self.depth -= 1
            self.must(">")
        while self.takes("["):
            self.expression_within()
            self.must("]")

    # ---- declarations

    def declared(self) -> None:
        """Passes the declaration of a type, up to its semicolon."""
        self.deeper()
        if self.takes("typedef"):
            self.type()
            self.identifier()
        elif self.takes("enum"):
            self.enum()
        elif self.takes("struct", "union", "safe_union"):
            self.identifier()
            self.must("{")
            while not self.takes("}"):
                self.field()
        else:
            self.wrong(f"expected a declaration and not {self.next.shown()}")
        self.depth -= 1

    def field(self) -> None:
        self.annotations()
        if self.next.text not in TYPES:
            self.type()
            self.identifier()
        else:
            self.declared()
            if self.next.sort == "name":
                self.identifier()
        self.must(";")

    def enum(self) -> None:
        self.identifier()
        self.must(":")
        self.must_be("name")
        self.must("{")
        for _ in self.listed("}"):
            self.identifier()
            if self.takes("="):
                self.expression()

    def interface(self) -> None:
        line = self.next.line
        name = f"{self.package}::{self.identifier()}"
        parent = None
        if self.takes("extends"):
            said = self.must_be("name")
            parent = Parent(self.meant(said.text), self.file, said.line)
        self.must("{")
        methods: list[tuple[str, str]] = []
        while not self.takes("}"):
            self.annotations()
            if self.next.text in TYPES:
                self.declared()
                self.must(";")
            else:
                methods.append(self.method())
        self.must(";")
        self.found.append(Own(name, parent, methods, self.file, line))

    def meant(self, name: str) -> list[str]:
        """The full names that a name may mean. It is that of its own package if that is of this file or imported;
        the compiler does not look into the other files of a package."""
        if "@" in name or "::" in name:
            return [self.full(name)]
        own = self.full(name)
        imported = [one if one.endswith(f"::{name}") else f"{one}::{name}" for one in self.imports
                    if "::" not in one or one.endswith(f"::{name}")]
        if own in imported or any(one.name == own for one in self.found):
            return [own]
        return imported or self.wrong(f"{name} is neither declared before nor imported")

    def method(self) -> tuple[str, str]:
        """Reads a method. Returns its name and place."""
        self.takes("oneway")
        line = self.next.line
        name = self.identifier()
        for _ in range(2):  # what it takes, and what it generates
            self.must("(")
            for _ in self.listed(")"):
                self.type()
                self.identifier()
            if not self.takes("generates"):
                break
        self.must(";")
        return name, self.source(line)


def with_parents(found: Iterable[Own]) -> Iterator[Interface]:
    """The interfaces with all methods: parents first, and those of IBase, whose codes are their own."""
    known: dict[str, list[Own]] = {}
    for own in found:
        known.setdefault(own.name, []).append(own)
    base = {name: source for own in known.get(BASE, ()) for name, source in own.methods}
    of_base = [Method(code, name, base.get(name, "-")) for name, code in OF_BASE.items()]
    for own in known.setdefault(BASE, [Own(BASE, None, [], "-", 0)]):
        for name, _ in own.methods:
            if name not in OF_BASE:
                raise Wrong(own.file, own.line, f"the code of {name} of {BASE} is not known")
    for name, owns in known.items():
        for own in owns:
            yield Interface(name, of_base if name == BASE else [*coded(own, known), *of_base])


def coded(own: Own, known: dict[str, list[Own]]) -> list[Method]:
    """The methods of an interface and of its parents, with 1 and their place."""
    line, names = [own], {own.name}
    while line[-1].parent is not None:
        above = above_of(line[-1].parent, known)
        if above.name == BASE:
            break
        if above.name in names:
            raise Wrong(own.file, own.line, f"{own.name} extends itself")
        names.add(above.name)
        line.append(above)
    made: dict[str, Method] = {}
    for one in reversed(line):
        for name, source in one.methods:
            if name in made:
                file, _, number = source.rpartition(":")
                raise Wrong(file, int(number), f"the name {name} is that of the method at {made[name].source}")
            made[name] = Method(1 + len(made), name, source)
    return list(made.values())


def above_of(parent: Parent, known: dict[str, list[Own]]) -> Own:
    """The interface that is extended."""
    found = [own for name in parent.names for own in known.get(name, ())]
    if not found:
        raise Wrong(parent.file, parent.line, f"no source has {parent.names[-1]}, which is extended here")
    for other in found[1:]:
        if (other.name, [name for name, _ in other.methods]) != (found[0].name, [name for name, _ in found[0].methods]):
            raise Wrong(parent.file, parent.line, f"what is extended here may be {found[0].name} at {found[0].file}:"
                        f"{found[0].line}, or {other.name} at {other.file}:{other.line}")
    return found[0]
