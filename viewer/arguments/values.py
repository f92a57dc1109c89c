"""Values of declared types, read from data as libbinder writes them, and shown as a text each."""

import struct
from array import array
from typing import Callable

from viewer.arguments.parcel import Misfit, Parcel, Unknown
from viewer.arguments.sources import Declarations, Unclear
from viewer.arguments.texts import quoted
from viewer.methods.declared import Declared, Field, Type
from viewer.methods.sources import DEEPEST

# So many values of an array are shown, so many bytes of one of bytes, and so many characters of a value.
SHOWN, BYTES, LONGEST = 16, 32, 4000

# What the compiler takes for a type of its own.
ALIASES = {"java.lang.String": "String", "java.util.List": "List", "java.util.Map": "Map",
           "java.lang.CharSequence": "CharSequence", "android.os.IBinder": "IBinder",
           "java.io.FileDescriptor": "FileDescriptor", "android.os.ParcelFileDescriptor": "ParcelFileDescriptor",
           "android.os.ParcelableHolder": "ParcelableHolder"}

# Numbers: how many bytes one takes alone and in an array, and how these are read.
NUMBERS = {"byte": (4, "i", 1, "b"), "boolean": (4, "i", 4, "i"), "char": (4, "i", 4, "i"), "int": (4, "i", 4, "i"),
           "long": (8, "q", 8, "q"), "float": (4, "f", 4, "f"), "double": (8, "d", 8, "d")}
RANGES = {"byte": range(-128, 256), "boolean": range(2), "char": range(0x10000)}

WITHOUT_FORM = {"Map": "a Map, of which the sources do not say what it holds",
                "List": "a List, of which the sources do not say what it holds",
                "CharSequence": "a CharSequence, whose form depends on the release"}


def single(value: float) -> float:
    """The number of four bytes that is nearest."""
    return array("f", [value])[0]


def real(value: float, size: int) -> str:
    """A number with a fraction, by as few digits as tell it from all others of its size."""
    def nearest(near: float) -> float:
        return single(near) if size == 4 else near

    short = next((near for digits in range(1, 18) if nearest(near := float(f"{value:.{digits}g}")) == value), value)
    return repr(short).removesuffix(".0")


def cut(text: str) -> str:
    return text if len(text) <= LONGEST else f"{text[:LONGEST]}.."


class Values:
    """Reads values, one after another."""

    def __init__(self, parcel: Parcel, declarations: Declarations, has_stability: bool) -> None:
        self.parcel, self.declarations, self.has_stability = parcel, declarations, has_stability
        self.depth = 0
        self.of_name: dict[str, Callable[[], str]] = {
            "String": self.string, "IBinder": self.binder, "FileDescriptor": self.descriptor,
            "ParcelFileDescriptor": self.parcel_descriptor, "ParcelableHolder": self.holder}

    def read(self, of: Type) -> str:
        """A value. Raises Misfit if it is none, and Unknown if the sources do not say what it is."""
        begin = self.parcel.at
        self.depth += 1
        if self.depth > DEEPEST:
            raise Misfit(begin, f"more than {DEEPEST} levels of values")
        try:
            return cut(self.array(of) if of.dimensions else self.one(of))
        except Unclear as unclear:
            raise Unknown(begin, str(unclear)) from unclear
        finally:
            self.depth -= 1

    def one(self, of: Type) -> str:
        name = ALIASES.get(of.name, of.name)
        if name in NUMBERS:
            return self.number(name)
        if name == "List" and len(of.of) == 1:
            return self.array(of.of[0]._replace(dimensions=("",)))
        if name in WITHOUT_FORM:
            raise Unknown(self.parcel.at, WITHOUT_FORM[name])
        if name in self.of_name:
            return self.of_name[name]()
        return self.named(of)

    # ---- what needs no source

    def number(self, name: str) -> str:
        begin = self.parcel.at
        size, form, *_ = NUMBERS[name]
        value, = struct.unpack(f"<{form}", self.parcel.take(size, f"a {name}"))
        self.must_be(name, value, begin)
        return self.shown(name, value)

    @staticmethod
    def must_be(name: str, value: float, at: int) -> None:
        if name in RANGES and value not in RANGES[name]:
            raise Misfit(at, f"a {name} that is {value}")

    @staticmethod
    def shown(name: str, value: float) -> str:
        if name == "boolean":
            return "true" if value else "false"
        if name == "char":
            return f"'{quoted(chr(int(value)))[1:-1]}'"
        return real(value, NUMBERS[name][0]) if name in ("float", "double") else str(value)

    def string(self) -> str:
        text = self.parcel.string16()
        return "null" if text is None else quoted(text)

    def binder(self) -> str:
        begin = self.parcel.at
        found = self.parcel.object("an IBinder")
        if found and found.sort not in ("BINDER", "HANDLE"):
            raise Misfit(begin, f"a {found.sort} where an IBinder should be")
        if self.has_stability:
            self.parcel.int32("the stability of an IBinder")
        return "null" if found is None else str(found)

    def descriptor(self) -> str:
        begin = self.parcel.at
        found = self.parcel.object("a FileDescriptor")
        if found is None or found.sort != "FD":
            raise Misfit(begin, f"{'null' if found is None else f'a {found.sort}'} where a FileDescriptor should be")
        return str(found)

    def parcel_descriptor(self) -> str:
        """Without a descriptor for its status, or with one."""
        if not self.parcel.marker("a ParcelFileDescriptor"):
            return "null"
        has_status = self.parcel.marker("the status of a ParcelFileDescriptor")
        found = self.descriptor()
        return f"{found} with status by {self.descriptor()}" if has_status else found

    # ---- what holds others

    def elements(self, count: int, read: Callable[[], str]) -> str:
        shown: list[str] = []
        for at in range(count):
            text = read()
            if at < SHOWN:
                shown.append(text)
        return f"[{', '.join(shown)}{f', .. {count - SHOWN} more' if count > SHOWN else ''}]"

    def array(self, of: Type) -> str:
        """An array, also of fixed length. Of numbers it has them one after another, bytes without gaps."""
        length, inner = of.dimensions[0], of._replace(dimensions=of.dimensions[1:])
        begin, name = self.parcel.at, ALIASES.get(inner.name, inner.name)
        declared = None
        if name not in NUMBERS and name not in self.of_name and name not in WITHOUT_FORM and not inner.dimensions:
            declared = self.declarations.type(inner.meant)
            name = declared.backing if declared and declared.sort == "enum" else name
        is_packed = name in NUMBERS and not inner.dimensions
        count = self.parcel.length(NUMBERS[name][2] if is_packed else 4, str(of))
        if count is None:
            return "null"
        if length.isdecimal() and int(length) != count:
            raise Misfit(begin, f"{count} values of {of}")
        if not is_packed:
            return self.elements(count, lambda: self.read(inner))
        return self.numbers(name, count, declared)

    def numbers(self, name: str, count: int, declared: Declared | None) -> str:
        """Numbers one after another, or values of an enum."""
        *_, size, form = NUMBERS[name]
        begin = self.parcel.at
        data = self.parcel.take(count * size, f"{count} values of {name}")
        if name in RANGES and size == 4:
            for at, (value,) in enumerate(struct.iter_unpack("<i", data)):
                self.must_be(name, value, begin + 4 * at)
        if name == "byte" and not declared:
            return f"0x{data[:BYTES].hex()}{'..' if count > BYTES else ''} ({count} bytes)"
        values = struct.unpack_from(f"<{min(count, SHOWN)}{form}", data)
        texts = [self.enumerator(declared, value) if declared else self.shown(name, value) for value in values]
        return f"[{', '.join(texts)}{f', .. {count - SHOWN} more' if count > SHOWN else ''}]"

    @staticmethod
    def enumerator(declared: Declared, value: int) -> str:
        """A value of an enum, by its name if one is certain."""
        short = declared.name.rpartition(".")[2]
        name = next((name for number, name in declared.values if number == value), None)
        return f"{short}.{name}" if name else f"{short}({value})"

    def named(self, of: Type) -> str:
        """A value of a type that a source declares."""
        declared = self.declarations.type(of.meant)
        begin = self.parcel.at
        if declared and declared.sort == "interface":
            return self.binder()
        if declared and declared.sort == "enum":
            if declared.backing not in NUMBERS:
                raise Unknown(begin, f"{of}, an enum of {declared.backing}")
            size, form, *_ = NUMBERS[declared.backing]
            value, = struct.unpack(f"<{form}", self.parcel.take(size, str(of)))
            self.must_be(declared.backing, value, begin)
            return self.enumerator(declared, value)
        if declared is None:
            raise Unknown(begin, f"{of}, which no source declares")
        if not self.parcel.marker(str(of)):
            return "null"
        if declared.sort == "unknown":
            raise Unknown(begin, f"{of}, of which no source has the fields")
        return self.union(declared) if declared.sort == "union" else self.parcelable(declared)

    def parcelable(self, declared: Declared) -> str:
        """A parcelable begins with its size. One of an older version lacks the last fields, and one of a newer version
        has more."""
        parcel, short = self.parcel, declared.name.rpartition(".")[2]
        outer, end = parcel.end, parcel.size(short)
        parcel.end = end
        shown = []
        try:
            for field in declared.fields:
                if parcel.at == end:
                    break
                shown.append(self.field(field))
            if parcel.at < end:
                shown.append(f"and {end - parcel.at} bytes that are not declared")
        except Unknown as unknown:
            shown.append(f"{end - unknown.at} bytes: {unknown.why}")
        parcel.end = outer
        parcel.skip(end)
        return f"{short}{{{', '.join(shown)}}}"

    def field(self, field: Field) -> str:
        return f"{field.name}={self.read(field.type)}"

    def union(self, declared: Declared) -> str:
        begin, short = self.parcel.at, declared.name.rpartition(".")[2]
        tag = self.parcel.int32(f"the tag of {short}")
        if not 0 <= tag < len(declared.fields):
            raise Misfit(begin, f"the tag of {short} is {tag}")
        return f"{short}{{{self.field(declared.fields[tag])}}}"

    def holder(self) -> str:
        """A ParcelableHolder: its stability, the size of what it holds, and of that the name and the fields."""
        parcel = self.parcel
        if not parcel.marker("a ParcelableHolder"):
            return "null"
        parcel.int32("the stability of a ParcelableHolder")
        begin = parcel.at
        size = parcel.int32("the size of what a ParcelableHolder holds")
        if not 0 <= size <= parcel.left():
            raise Misfit(begin, f"a ParcelableHolder of {size} bytes, and {parcel.left()} are left")
        if size == 0:
            return "ParcelableHolder{}"
        outer, end = parcel.end, parcel.at + size
        parcel.end = end
        name = parcel.string16() or ""
        declared = self.declarations.type([name])
        held = f"{quoted(name)} of {size} bytes"
        if declared and declared.sort in ("parcelable", "union"):
            held = self.union(declared) if declared.sort == "union" else self.parcelable(declared)
        parcel.end = outer
        parcel.skip(end)
        return f"ParcelableHolder{{{held}}}"
