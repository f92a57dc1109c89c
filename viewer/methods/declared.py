"""What sources declare beside the codes of methods: the types of arguments, and what parcelables, unions and enums are
made of."""

from typing import NamedTuple


class Type(NamedTuple):
    """A type as a source has it: its name, the full names that may be meant, of which the first one that is declared
    counts, the types that it holds (`List<String>`), and its dimensions, which are empty texts in `int[]`."""
    name: str
    meant: tuple[str, ...] = ()
    of: tuple["Type", ...] = ()
    dimensions: tuple[str, ...] = ()

    def __str__(self) -> str:
        held = f"<{', '.join(map(str, self.of))}>" if self.of else ""
        return self.name + held + "".join(f"[{length}]" for length in self.dimensions)


class Field(NamedTuple):
    """An argument of a method, with its way (`in`, `out` or `inout`), or a field of a parcelable or union."""
    name: str
    type: Type
    way: str = "in"

    def __str__(self) -> str:
        return f"{'' if self.way == 'in' else self.way + ' '}{self.type} {self.name}"


class Signature(NamedTuple):
    """The types of a method."""
    returns: Type
    arguments: tuple[Field, ...]

    def __str__(self) -> str:
        return f"({', '.join(map(str, self.arguments))})"


class Declared(NamedTuple):
    """A type of a source: its sort (`interface`, `parcelable`, `union`, `enum`, or `unknown` if the source does not say
    what it is made of), its full name, its fields, of an enum its type and the names of its values as far as they are
    certain, and its file and line."""
    sort: str
    name: str
    source: str
    fields: tuple[Field, ...] = ()
    backing: str = ""
    values: tuple[tuple[int, str], ...] = ()
