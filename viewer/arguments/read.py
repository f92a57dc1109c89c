"""What a transaction or a reply says, by the declaration of its method: the arguments, or the exception or what comes
back. What does not fit gets no name of an argument."""

from typing import Iterator, NamedTuple, Sequence

from viewer.arguments.parcel import Misfit, Parcel, Stop, Unknown
from viewer.arguments.sources import Called, Declarations, Unclear
from viewer.arguments.texts import quoted, texts_in
from viewer.arguments.values import Values
from viewer.exceptions import EXCEPTIONS, exception_name
from viewer.methods.declared import Field
from viewer.units import counted, status_name

# The marks of a partition, which come before the name of the interface since Android 11. Since then the stability of
# an object follows it.
MARKS = {int.from_bytes(mark, "big") for mark in (b"SYST", b"VNDR", b"RECO", b"UNKN")}

SERVICE_SPECIFIC, PARCELABLE = -8, -9
# A header of noted app ops, after which the exception follows; and one of StrictMode, after which there is none.
NOTED_APP_OPS, STRICT_MODE = -127, -128

# So many bytes are shown of what has no other form.
BYTES = 32


class Data(NamedTuple):
    """The data of a transaction or reply, and the places of the objects in them."""
    data: bytes
    offsets: Sequence[int] = ()


class Part(NamedTuple):
    """A value: its name, the byte of the data where it begins, and how it is shown. What is in no declaration has no
    name."""
    name: str
    at: int
    text: str

    def __str__(self) -> str:
        return f"{self.name}={self.text}" if self.name else self.text


class Said(NamedTuple):
    """What data say: by which method, in which parts; or why not, and then the parts are texts and bytes."""
    method: Called | None
    parts: tuple[Part, ...]
    doubt: str | None = None

    def __str__(self) -> str:
        """All in one line."""
        told = ", ".join(map(str, self.parts))
        if self.doubt:
            return f"{self.doubt}: {told}" if told else self.doubt
        are_texts = not self.method and told.startswith('"')
        return f"texts: {told}" if are_texts else told or "no arguments"


class Token(NamedTuple):
    """What comes before the arguments: where it ends, and whether the stability of an object follows it."""
    end: int
    has_stability: bool


def token_of(data: Data, interface: str) -> Token | None:
    """The token of a transaction that names this interface, in any of the forms of libbinder; None of HIDL, whose data
    are no arguments."""
    begin = data.data[:12]
    has_mark = int.from_bytes(begin[8:12], "little") in MARKS
    for at in (12,) if has_mark else (8, 4):
        parcel = Parcel(data.data, data.offsets, min(at, len(data.data)))
        try:
            if parcel.string16() == interface:
                return Token(parcel.at, has_mark)
        except Stop:
            continue
    return None


def plain(data: Data, begin: int = 0) -> tuple[Part, ...]:
    """The texts in data, or if there are none the first bytes."""
    found = tuple(Part("", at, quoted(text)) for at, text in texts_in(data.data, data.offsets, begin))
    return found or bytes_of(data, begin)


def bytes_of(data: Data, begin: int) -> tuple[Part, ...]:
    shown = data.data[begin:begin + BYTES]
    left = len(data.data) - begin
    text = f"0x{shown.hex()}{'..' if left > BYTES else ''} ({counted(left, 'byte')})"
    return (Part("", begin, text),) if left else ()


def taken(values: Values, fields: Sequence[Field]) -> Iterator[Part]:
    for field in fields:
        begin = values.parcel.at
        yield Part(field.name, begin, values.read(field.type))


def lengths(values: Values, method: Called) -> Iterator[Part]:
    """The arguments of a transaction: those that go there, and of an array that comes back its length."""
    for field in method.signature.arguments:
        if field.way != "out":
            yield from taken(values, [field])
        elif field.type.dimensions == ("",):
            begin = values.parcel.at
            length = values.parcel.int32(f"the length of {field.name}")
            if length < -1:
                raise Misfit(begin, f"{field.type} of length {length}")
            yield Part(field.name, begin, "null" if length == -1 else f"room for {length}")


def returned(values: Values, method: Called) -> Iterator[Part]:
    """What comes back without an exception."""
    if method.signature.returns.name != "void":
        yield from taken(values, [Field("return", method.signature.returns)])
    yield from taken(values, [field for field in method.signature.arguments if field.way != "in"])


def thrown(parcel: Parcel, number: int, at: int) -> Iterator[Part]:
    """An exception: its name, its message, and what comes with it. Where it was thrown is passed."""
    if number not in EXCEPTIONS:
        raise Misfit(at, f"the exception {number}")
    yield Part("exception", at, exception_name(number))
    begin = parcel.at
    message = parcel.string16()
    yield Part("message", begin, "null" if message is None else quoted(message))
    begin = parcel.at
    size = parcel.int32("the size of a stack")
    if size:
        if not 4 <= size <= parcel.end - begin:
            raise Misfit(begin, f"a stack of {size} bytes, and {parcel.left()} are left")
        parcel.skip(begin + size)
    begin = parcel.at
    if number == SERVICE_SPECIFIC:
        yield Part("error", begin, str(parcel.int32("the error of a service")))
    if number == PARCELABLE:
        size = parcel.int32("the size of a parcelable")
        if size and not 4 <= size <= parcel.end - begin:
            raise Misfit(begin, f"a parcelable of {size} bytes, and {parcel.left()} are left")
        parcel.skip(begin + size if size else parcel.at)
        yield Part("parcelable", begin, counted(parcel.at - begin, "byte"))


def exception_of(parcel: Parcel) -> int:
    """The exception that a reply begins with, 0 for none. A header comes before, with its size."""
    number = parcel.int32("an exception")
    if number == NOTED_APP_OPS:
        parcel.skip(parcel.size("a header of app ops"))
        number = parcel.int32("an exception")
    if number == STRICT_MODE:
        parcel.skip(parcel.size("a header of StrictMode"))
        return 0
    return number


def answer_of(values: Values, method: Called) -> Iterator[Part]:
    parcel = values.parcel
    begin = parcel.at
    number = exception_of(parcel)
    if number:
        yield from thrown(parcel, number, begin)
        return
    parts = list(returned(values, method))
    yield from parts or [Part("", begin, "no exception")]


def whole(data: Data, method: Called, parcel: Parcel, begin: int, parts: Iterator[Part]) -> Said:
    """All parts, if they fill the data: else the texts and bytes of all of them. Of what the sources do not say
    something the parts before it, and the rest."""
    found: list[Part] = []
    try:
        for part in parts:
            found.append(part)
        if parcel.left():
            raise Misfit(parcel.at, f"{counted(parcel.left(), 'byte')} more than are declared")
        return Said(method, tuple(found))
    except Misfit as misfit:
        return Said(None, plain(data, begin), f"does not fit {method}, at byte {misfit.at} {misfit.why}")
    except Unknown as unknown:
        return Said(method, (*found, Part("", unknown.at, f"from here on {unknown.why}"), *plain(data, unknown.at)))


def request(declarations: Declarations, data: Data, interface: str | None, code: int) -> Said:
    """What a transaction says."""
    token = token_of(data, interface) if interface else None
    if not interface or not token:
        return Said(None, plain(data))
    try:
        method = declarations.method(interface, code)
    except Unclear as unclear:
        return Said(None, plain(data, token.end), f"no declaration of {unclear}")
    if method is None:
        return Said(None, plain(data, token.end))
    parcel = Parcel(data.data, data.offsets, token.end)
    return whole(data, method, parcel, token.end, lengths(Values(parcel, declarations, token.has_stability), method))


class Asked(NamedTuple):
    """The call that a reply answers: its interface, its code, and whether the stability of an object follows it."""
    interface: str
    code: int
    has_stability: bool


def reply(declarations: Declarations, data: Data, is_status: bool, asked: Asked | None) -> Said:
    """What a reply says."""
    if is_status:
        if len(data.data) != 4:
            return Said(None, plain(data), f"a status of {len(data.data)} bytes")
        return Said(None, (Part("status", 0, status_name(int.from_bytes(data.data, "little", signed=True))),))
    try:
        method = declarations.method(asked.interface, asked.code) if asked else None
    except Unclear as unclear:
        return Said(None, plain(data), f"no declaration of {unclear}")
    if method is None or asked is None:
        return Said(None, plain(data))
    parcel = Parcel(data.data, data.offsets)
    return whole(data, method, parcel, 0, answer_of(Values(parcel, declarations, asked.has_stability), method))
