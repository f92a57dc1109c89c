"""Reads the interfaces of an .aidl source, with the transaction codes that the compiler `aidl` gives their methods, and
the types that it declares."""

import re
from typing import NamedTuple

from viewer.methods.declared import Declared, Field, Signature, Type
from viewer.methods.every import ADDED
from viewer.methods.sources import Interface, Method, Reader, words_of

# The two methods that the compiler adds to an interface with a version, and the highest id of others.
OF_VERSION = [Method(code, name, "-") for name, code in ADDED.items()]
LAST_ID = 16777114

DECLARATIONS = ("interface", "parcelable", "union", "enum")
HEADERS = ("cpp_header", "ndk_header", "rust_type")
NO_NAMES = frozenset(("const", "import", "in", "inout", "interface", "oneway", "out", "package", "parcelable"))
WAYS = ("in", "out", "inout")

# A whole number as a source may write it. Another value of an enumerator is not certain here.
WHOLE = re.compile(r"-?(?:0[xX][0-9a-fA-F]+|[1-9][0-9]{0,18}|0)")


class Written(NamedTuple):
    """A method as it is written: its id is None if it has none."""
    name: str
    id: str | None
    line: int
    signature: Signature


class Annotations(NamedTuple):
    """What annotations say of a declaration: the name that @Descriptor gives an interface, and the type that @Backing
    gives an enum."""
    descriptor: str | None = None
    backing: str = "byte"


class Aidl(Reader):
    """Reads one source. The compiler takes no backslash in strings, and neither does this: where a string with one
    ends would be a guess."""

    space = re.compile(r"[ \t\r\n]+|//[^\n]*|/\*")
    no_string = "has a backslash"
    words = words_of(r"[A-Za-z_]\w*", r"\"[^\"\\\n]*\"|'[^\\\n]'")

    def __init__(self, file: str, text: str) -> None:
        super().__init__(file, text)
        self.found: list[Interface] = []
        self.skipped: list[str] = []
        self.declared: list[Declared] = []
        self.signatures: dict[tuple[str, int], Signature] = {}
        self.package: list[str] = []
        self.imports: list[list[str]] = []
        self.around: list[str] = []  # the name of the declaration that is read, with its package

    def read(self) -> None:
        if self.takes("package"):
            self.package = self.qualified()
            self.must(";")
        while self.takes("import"):
            self.imports.append(self.qualified())
            self.must(";")
        while self.next.sort != "end":
            self.declaration(self.package, self.annotations())

    # ---- names, annotations and types

    def identifier(self) -> str:
        if self.next.text in NO_NAMES:
            self.wrong(f"expected a name and not {self.next.text}")
        return self.must_be("name").text

    def qualified(self) -> list[str]:
        parts = [self.identifier()]
        while self.takes("."):
            parts.append(self.identifier())
        return parts

    def constant(self) -> None:
        self.qualified()

    def meant(self, name: list[str]) -> tuple[str, ...]:
        """The full names that a name may mean: of a declaration within those around it, of an import, or of the
        package."""
        around = [".".join([*self.around[:depth], *name])
                  for depth in range(len(self.around), len(self.package), -1)]
        imported = [".".join([*one[:-1], *name]) for one in self.imports if one[-1] == name[0]]
        return (*around, *(imported or [".".join([*self.package, *name]), ".".join(name)]))

    def spelled(self) -> str:
        """Passes an expression. Returns how it is written."""
        begin = self.at - len(self.next.text)
        self.expression()
        return self.text[begin:self.at - len(self.next.text)].strip()

    def annotations(self) -> Annotations:
        """Passes annotations."""
        found = Annotations()
        while self.takes("@"):
            name = self.qualified()
            if name == ["Descriptor"]:
                found = found._replace(descriptor=self.descriptor())
                continue
            for _ in self.listed(")") if self.takes("(") else ():
                self.expression()
                if self.takes("="):
                    value = self.spelled()
                    found = found._replace(backing=value.strip('"')) if name == ["Backing"] else found
        return found

    def descriptor(self) -> str:
        self.must("(")
        if self.takes("value"):
            self.must("=")
        given = self.must_be("string")
        if not re.fullmatch(r'"[A-Za-z_][A-Za-z0-9_.]{,255}"', given.text):
            self.wrong("a descriptor with other signs than letters, digits, _ and dots", given.line)
        self.must(")")
        return given.text[1:-1]

    def type(self) -> Type:
        self.annotations()
        name = self.qualified()
        held = []
        if self.takes("<"):
            self.deeper()
            held.append(self.type())
            while self.takes(","):
                held.append(self.type())
            self.depth -= 1
            self.must(">")
        self.annotations()
        dimensions = []
        while self.takes("["):
            dimensions.append("")
            if not self.takes("]"):
                self.deeper()
                dimensions[-1] = self.spelled()
                self.depth -= 1
                self.must("]")
            self.annotations()
        return Type(".".join(name), self.meant(name), tuple(held), tuple(dimensions))

    # ---- declarations

    def declaration(self, outer: list[str], annotations: Annotations) -> None:
        """Reads a declaration; `outer` are its package and the types around it."""
        self.deeper()
        line, sort, before = self.next.line, self.next.text, self.around
        if self.takes("oneway"):
            self.must("interface")
            self.interface(outer, annotations.descriptor, line)
        elif self.takes("interface"):
            self.interface(outer, annotations.descriptor, line)
        elif self.takes("parcelable", "union"):
            self.parcelable(outer, sort, line)
        elif self.takes("enum"):
            self.enum(outer, annotations.backing, line)
        else:
            self.wrong(f"expected a declaration and not {self.next.shown()}")
        self.around = before
        self.depth -= 1

    def interface(self, outer: list[str], descriptor: str | None, line: int) -> None:
        own = self.qualified()
        name = [*outer, *own]
        if self.takes(";"):
            self.skipped.append(f"{self.source(line)}: {'.'.join(name)} has no body here")
            return
        if len(own) > 1:
            self.wrong("a body after a name with dots")
        self.must("{")
        self.around = name
        self.declared.append(Declared("interface", ".".join(name), self.source(line)))
        methods: list[Written] = []
        while not self.takes("}"):
            self.member(name, methods)
        called, coded = descriptor or ".".join(name), self.coded(methods)
        self.signatures |= {(called, one.code): written.signature for one, written in zip(coded, methods)}
        self.found.append(Interface(called, [*coded, *OF_VERSION]))

    def member(self, outer: list[str], methods: list[Written]) -> None:
        """Reads a method, constant or declaration of an interface."""
        inner = self.annotations()
        if self.takes("const"):
            self.valued()
        elif self.next.text in DECLARATIONS:
            self.declaration(outer, inner)
        elif self.takes("oneway"):
            if self.next.text == "interface":
                self.declaration(outer, inner)
            else:
                methods.append(self.method())
        else:
            methods.append(self.method())

    def method(self) -> Written:
        """Reads a method."""
        returns = self.type()
        line = self.next.line
        name = self.identifier()
        self.must("(")
        arguments = [self.argument() for _ in self.listed(")")]
        number = self.must_be("number").text if self.takes("=") else None
        if number is not None and not (number.isdecimal() and len(number) < 20 and int(number) <= LAST_ID):
            self.wrong(f"the id of {name} is no whole number up to {LAST_ID}", line)
        self.must(";")
        return Written(name, number, line, Signature(returns, tuple(arguments)))

    def argument(self) -> Field:
        self.annotations()
        way = self.take().text if self.next.text in WAYS else "in"
        of = self.type()
        return Field(self.identifier(), of, way)

    def coded(self, methods: list[Written]) -> list[Method]:
        """The methods with their codes: 1 and the id, or 1 and the place. Either all have ids or none has."""
        made: list[Method] = []
        lines: dict[str | int, int] = {}
        for place, (name, number, line, _) in enumerate(methods):
            if (number is None) != (methods[0].id is None):
                self.wrong("either all methods have ids or none has", line)
            code = 1 + (place if number is None else int(number))
            if code > 1 + LAST_ID:
                self.wrong("more methods than there are codes", line)
            keys: list[tuple[str | int, str]] = [(name, f"the name {name}"), (code, f"the id {code - 1}")]
            for key, what in keys:
                if key in lines:
                    self.wrong(f"{what} is that of the method in line {lines[key]}", line)
                lines[key] = line
            made.append(Method(code, name, self.source(line)))
        return made

    def parcelable(self, outer: list[str], sort: str, line: int) -> None:
        """Reads a parcelable or a union."""
        name = [*outer, *self.qualified()]
        self.around = name
        if self.takes("<"):
            for _ in self.listed(">"):
                self.identifier()
        while self.takes(*HEADERS):
            self.must_be("string")
        if self.takes(";"):
            self.declared.append(Declared("unknown", ".".join(name), self.source(line)))
            return
        self.must("{")
        fields = []
        while not self.takes("}"):
            inner = self.annotations()
            if self.next.text in (*DECLARATIONS, "oneway"):
                self.declaration(name, inner)
            elif self.takes("const"):
                self.valued()
            else:
                fields.append(self.valued())
        self.declared.append(Declared(sort, ".".join(name), self.source(line), tuple(fields)))

    def valued(self) -> Field:
        """Reads a field, or a constant after its `const`."""
        of = self.type()
        name = self.identifier()
        if self.takes("="):
            self.expression()
        self.must(";")
        return Field(name, of)

    def enum(self, outer: list[str], backing: str, line: int) -> None:
        """Reads an enum. An enumerator without a value is one above the one before."""
        name = ".".join([*outer, self.identifier()])
        self.must("{")
        values: list[tuple[int, str]] = []
        following: int | None = 0
        while not self.takes("}"):
            self.annotations()
            enumerator = self.identifier()
            if self.takes("="):
                written = self.spelled()
                following = int(written, 0) if WHOLE.fullmatch(written) else None
            if following is not None:
                values.append((following, enumerator))
                following += 1
            if not self.takes(","):
                self.must("}")
                break
        self.declared.append(Declared("enum", name, self.source(line), (), backing, tuple(values)))
