"""Checks what `./view --arguments` and `./listing --arguments` say that transactions and replies hold.

    checks/run arguments

What must hold:

- Each value of SAID is said as it stands there, and each of UNFIT is not: what does not fit its declaration has no name
  of an argument, and a line says where it does not fit.
- Data of a method that are cut after any byte, or have one byte changed, are read without an exception, and with a name
  only if they fit.
- Two sources that declare one thing in two ways name nothing, and neither does a name that no source declares.
- Data that lie about lengths, sizes and nesting take no longer than their length allows.
- Without a declaration the texts in the data are found, in UTF-16 and in UTF-8, and nothing else is said.
"""

import argparse
import pathlib
import random
import time
from typing import Callable, Iterator, NamedTuple

from checks.kit.checking import check
from checks.kit.parcels import BINDER, FD, FDA, HANDLE, WEAK_BINDER, WEAK_HANDLE, Parcel, call
from checks.kit.tokens import GATHER, NO_SOURCE, numbers, string16
from viewer.arguments.read import Asked, Data, Said, reply, request
from viewer.arguments.sources import Declarations

SOURCES = {
    "p/I.aidl": """package p;
import p.E; import p.IOther; import p.Opaque; import p.P; import p.S; import p.U;
interface I {
    void text(String a, @utf8InCpp String b);
    void numbers(boolean a, byte b, char c, int d, long e, float f, double g);
    void arrays(in boolean[] a, in byte[] b, in char[] c, in int[] d, in long[] e, in String[] f);
    void list(in List<String> a);
    void objects(IBinder a, IOther b, @nullable IBinder c);
    void files(in ParcelFileDescriptor a, in FileDescriptor b);
    void fields(in P a);
    void unions(in U a, in U[] b);
    void enums(E a, S b, in E[] c, in S[] d);
    int[2][3] fixed(in int[2][3] a, in byte[3] b, in String[N] c);
    P outs(int a, out int[] b, out P c, inout P d, out int[2] e, out List<String> f);
    void opaque(int a, in Opaque b, int c);
    void unknown(int a, in Nowhere b);
    void map(in Map a);
    void held(in P.Box a);
    void nothing();
    oneway void tell(int a);
    void loop(in Loop a);
    void lists(in List a, in CharSequence b);
}
""",
    "p/IOther.aidl": "package p; interface IOther { void a(); }",
    "p/Opaque.aidl": "package p; parcelable Opaque;",
    "p/Loop.aidl": "package p; parcelable Loop { @nullable Loop next; Loop[] all; }",
    "p/P.aidl": """package p; import p.Opaque; parcelable P {
    int number; String text; @nullable P next;
    parcelable Box { ParcelableHolder held; @nullable Opaque opaque; int last; } }""",
    "p/U.aidl": "package p; union U { int number; String text; p.P fields; }",
    "p/E.aidl": "package p; @Backing(type=\"byte\") enum E { A, B = 7, C, D = 1 << 4, F }",
    "p/S.aidl": "package p; @Backing(type=\"long\") enum S { LAST = 0x100000000 }",
    "p/IOld.aidl": "package p; interface IOld { IBinder get(); }",
    "one/p/ITwice.aidl": "package p; interface ITwice { void a(int b); void c(Twice d); }",
    "two/p/ITwice.aidl": "package p; interface ITwice { void a(long b); void c(Twice d); }",
    "one/p/Twice.aidl": "package p; parcelable Twice { int a; }",
    "two/p/Twice.aidl": "package p; parcelable Twice { int b; }",
    "q/Renamed.aidl": "package q; @Descriptor(value=\"p.IRenamed\") interface IRenamed { void a(int b); }"}

CODES = {name: code for code, name in enumerate(
    "text numbers arrays list objects files fields unions enums fixed outs opaque unknown map held nothing tell loop"
    " lists".split(), 1)}
LONG = "a" * 201


def fields(*parts: Callable[[Parcel], Parcel]) -> Parcel:
    made = Parcel()
    for part in parts:
        part(made)
    return made


def p_of(number: int, text: str | None, following: Parcel | None = None) -> Parcel:
    made = Parcel().ints(number).text(text)
    return made.sized(following) if following else made.ints(0)


# Calls: the method, its data after the token, and what is said.
SAID: tuple[tuple[str, Parcel, str], ...] = (
    ("text", call("p.I").text("a", "grün 𝄞"), 'a="a", b="grün 𝄞"'),
    ("text", call("p.I").text(None, ""), 'a=null, b=""'),
    ("text", call("p.I").text('"\\\n\u202e', LONG), f'a="\\"\\\\\\u000a\\u202e", b="{"a" * 200}".. (201 characters)'),
    ("text", call("p.I").text("\ud800", "x"), 'a="\\ud800", b="x"'),
    ("numbers", call("p.I").ints(1, -128, ord("x"), -5).long(2**62).reals(0.1, 0.1),
     f"a=true, b=-128, c='x', d=-5, e={2**62}, f=0.1, g=0.1"),
    ("numbers", call("p.I").ints(0, 255, 0xD800, 0).long(-1).reals(16777216.0, float("nan")),
     "a=false, b=255, c='\\ud800', d=0, e=-1, f=16777216, g=nan"),
    ("numbers", call("p.I").ints(0, 0, 32, 0).long(0).reals(3.4028234663852886e38, 1.7976931348623157e308),
     "a=false, b=0, c=' ', d=0, e=0, f=3.4028235e+38, g=1.7976931348623157e+308"),
    ("numbers", call("p.I").ints(0, 0, 0, 0).long(0).reals(float("inf"), -2.0),
     "a=false, b=0, c='\\u0000', d=0, e=0, f=inf, g=-2"),
    ("arrays", call("p.I").ints(2, 1, 0).blob(b"\1\2\3").ints(1, 65).ints(17, *range(17)).ints(2).long(1, -1)
     .ints(2).text("a", None),
     "a=[true, false], b=0x010203 (3 bytes), c=['A'], d=[0, 1, 2, 3, 4, 5, 6, 7, 8, 9, 10, 11, 12, 13, 14, 15,"
     ' .. 1 more], e=[1, -1], f=["a", null]'),
    ("arrays", call("p.I").ints(-1, -1, -1, 0, 0, 0), "a=null, b=null, c=null, d=[], e=[], f=[]"),
    ("arrays", call("p.I").ints(0).blob(bytes(33)).ints(0, 0, 0, 0),
     f"a=[], b=0x{'00' * 32}.. (33 bytes), c=[], d=[], e=[], f=[]"),
    ("list", call("p.I").ints(1).text("x"), 'a=["x"]'),
    ("objects", call("p.I").binder(BINDER, 0x7F00).binder(HANDLE, 3).null_binder(),
     "a=BINDER 0x7f00, b=HANDLE 3, c=null"),
    ("objects", call("p.I").binder(HANDLE, 0, False).binder(HANDLE, 3).binder(HANDLE, 4),
     "a=HANDLE 0, b=HANDLE 3, c=HANDLE 4"),
    ("files", call("p.I").ints(1, 0).object(FD, 7).object(FD, 8), "a=FD 7, b=FD 8"),
    ("files", call("p.I").ints(1, 1).object(FD, 7).object(FD, 9).object(FD, 8), "a=FD 7 with status by FD 9, b=FD 8"),
    ("files", call("p.I").ints(0).object(FD, 8), "a=null, b=FD 8"),
    ("fields", call("p.I").sized(p_of(3, "x")), 'a=P{number=3, text="x", next=null}'),
    ("fields", call("p.I").sized(p_of(3, "x", p_of(4, None))),
     'a=P{number=3, text="x", next=P{number=4, text=null, next=null}}'),
    ("fields", call("p.I").ints(0), "a=null"),
    ("fields", call("p.I").sized(Parcel().ints(3)), "a=P{number=3}"),
    ("fields", call("p.I").sized(Parcel()), "a=P{}"),
    ("fields", call("p.I").sized(p_of(3, "x").ints(1, 2)),
     'a=P{number=3, text="x", next=null, and 8 bytes that are not declared}'),
    ("unions", call("p.I").ints(1, 0, 5).ints(2, 1, 1).text("x").ints(1, 2).sized(p_of(1, None)),
     'a=U{number=5}, b=[U{text="x"}, U{fields=P{number=1, text=null, next=null}}]'),
    ("enums", call("p.I").ints(7).long(2**32).blob(b"\0\x08\x10\x11").ints(2).long(2**32, 0),
     "a=E.B, b=S.LAST, c=[E.A, E.C, E(16), E(17)], d=[S.LAST, S(0)]"),
    ("fixed", call("p.I").ints(2, 3, 1, 2, 3, 3, 4, 5, 6).blob(b"abc").ints(1).text("x"),
     'a=[[1, 2, 3], [4, 5, 6]], b=0x616263 (3 bytes), c=["x"]'),
    ("outs", call("p.I").ints(1, 9).ints(0), "a=1, b=room for 9, d=null"),
    ("outs", call("p.I").ints(1, -1).sized(p_of(2, "y")), 'a=1, b=null, d=P{number=2, text="y", next=null}'),
    ("opaque", call("p.I").ints(1, 0, 2), "a=1, b=null, c=2"),
    ("opaque", call("p.I").ints(1, 1).text("held").ints(5),
     'a=1, from here on Opaque, of which no source has the fields, "held"'),
    ("unknown", call("p.I").ints(1, 1, 2), "a=1, from here on Nowhere, which no source declares, 0x0100000002000000"
     " (8 bytes)"),
    ("map", call("p.I").ints(1),
     "from here on a Map, of which the sources do not say what it holds, 0x01000000 (4 bytes)"),
    ("lists", call("p.I").ints(0, 0), "from here on a List, of which the sources do not say what it holds,"
     " 0x0000000000000000 (8 bytes)"),
    ("held", call("p.I").sized(Parcel().ints(1, 0, 12 + 4 + len(p_of(1, "x").data)).text("p.P").ints(
        4 + len(p_of(1, "x").data)).raw(p_of(1, "x").data).ints(0, 7)),
     'a=Box{held=ParcelableHolder{P{number=1, text="x", next=null}}, opaque=null, last=7}'),
    ("held", call("p.I").sized(Parcel().ints(1, 0, 12 + 4).text("q.P").ints(0).ints(0, 7)),
     'a=Box{held=ParcelableHolder{"q.P" of 16 bytes}, opaque=null, last=7}'),
    ("held", call("p.I").sized(Parcel().ints(1, 0, 0).ints(1, 2, 3)),
     "a=Box{held=ParcelableHolder{}, 12 bytes: Opaque, of which no source has the fields}"),
    ("nothing", call("p.I"), "no arguments"),
    ("tell", call("p.I").ints(3), "a=3"),
    ("loop", call("p.I").sized(Parcel().ints(0, 1).sized(Parcel().ints(0, 0))),
     "a=Loop{next=null, all=[Loop{next=null, all=[]}]}"),
)

# Calls that do not fit: the method, its data, where, and why. No name of an argument is said.
UNFIT: tuple[tuple[str, Parcel, int, str], ...] = (
    ("text", call("p.I").text("abc"), 12, "the length of a String of 4 bytes, and 0 are left"),
    ("text", call("p.I").text("abc", "d").ints(0), 20, "4 bytes more than are declared"),
    ("text", call("p.I").ints(1000), 0, "a String of length 1000, and 0 bytes are left"),
    ("text", call("p.I").ints(-2, 0), 0, "a String of length -2, and 4 bytes are left"),
    ("text", call("p.I").ints(2, 0x410041, 0x41), 0, "a String of 2 units without a NUL after them"),
    ("text", call("p.I").ints(2, 0x410041, 0x410000), 10, "bytes after a String that are not 0"),
    ("text", call("p.I").object(HANDLE, 3).text("a"), 0, "an object within the length of a String"),
    ("numbers", call("p.I").ints(2, 0, 0, 0).long(0).reals(0, 0), 0, "a boolean that is 2"),
    ("numbers", call("p.I").ints(1, 256, 0, 0).long(0).reals(0, 0), 4, "a byte that is 256"),
    ("numbers", call("p.I").ints(1, 0, 0x10000, 0).long(0).reals(0, 0), 8, "a char that is 65536"),
    ("arrays", call("p.I").ints(2, 1, 2).ints(0, 0, 0, 0, 0), 8, "a boolean that is 2"),
    ("arrays", call("p.I").ints(0, 3).raw(b"\1\2\3\4").ints(0, 0, 0, 0), 11,
     "bytes after 3 values of byte that are not 0"),
    ("list", call("p.I").ints(2**30).text("x"), 0, "String[] of length 1073741824, and 8 bytes are left"),
    ("objects", call("p.I").ints(*[0] * 21), 0, "no object where an IBinder should be"),
    ("objects", call("p.I").binder(BINDER, 5, False).binder(HANDLE, 3).null_binder(), 0,
     "no object where an IBinder should be"),
    ("objects", call("p.I").binder(FD, 5).binder(HANDLE, 3).null_binder(), 0, "a FD where an IBinder should be"),
    ("objects", call("p.I").binder(WEAK_BINDER, 5).binder(HANDLE, 3).null_binder(), 0,
     "a WEAK_BINDER where an IBinder should be"),
    ("objects", call("p.I").binder(WEAK_HANDLE, 5).binder(HANDLE, 3).null_binder(), 0,
     "a WEAK_HANDLE where an IBinder should be"),
    ("objects", call("p.I").binder(FDA, 5).binder(HANDLE, 3).null_binder(), 0, "no object where an IBinder should be"),
    ("objects", call("p.I").ints(0, 0, 0), 0, "an IBinder of 24 bytes, and 12 are left"),
    ("files", call("p.I").ints(1, 0).object(HANDLE, 7).object(FD, 8), 8, "a HANDLE where a FileDescriptor should be"),
    ("files", call("p.I").ints(0).null_binder(), 4, "null where a FileDescriptor should be"),
    ("files", call("p.I").ints(2, 0).object(FD, 7).object(FD, 8), 0, "the marker of a ParcelFileDescriptor is 2"),
    ("fields", call("p.I").ints(1, 3), 4, "the size of P is 3, and 4 bytes are left"),
    ("fields", call("p.I").ints(1, 100, 0), 4, "the size of P is 100, and 8 bytes are left"),
    ("fields", call("p.I").ints(1, 10, 1, 2), 12, "the length of a String of 4 bytes, and 2 are left"),
    ("fields", call("p.I").sized(Parcel().ints(3).text("x").ints(1, 40)), 24,
     "the size of P is 40, and 4 bytes are left"),
    ("unions", call("p.I").ints(1, 3, 0).ints(0), 4, "the tag of U is 3"),
    ("enums", call("p.I").ints(300).long(0).ints(0, 0), 0, "a byte that is 300"),
    ("fixed", call("p.I").ints(3), 0, "int[2][3] of length 3, and 0 bytes are left"),
    ("fixed", call("p.I").ints(3, 0, 0, 0), 0, "3 values of int[2][3]"),
    ("fixed", call("p.I").ints(2, 3, 1, 2, 3, 2, 4, 5).blob(b"abc").ints(0), 20, "2 values of int[3]"),
    ("outs", call("p.I").ints(1, -2, 0), 4, "int[] of length -2"),
    ("nothing", call("p.I").ints(0), 0, "4 bytes more than are declared"),
    ("tell", call("p.I"), 0, "a int of 4 bytes, and 0 are left"),
)


class Answer(NamedTuple):
    """A reply: the method that it answers, its data, and what is said."""
    method: str
    data: Parcel
    said: str


REPLIES = (
    Answer("nothing", Parcel().ints(0), "no exception"),
    Answer("nothing", Parcel().ints(-128, 12, 1, 2), "no exception"),
    Answer("fixed", Parcel().ints(0, 2, 3, 1, 2, 3, 3, 4, 5, 6), "return=[[1, 2, 3], [4, 5, 6]]"),
    Answer("fixed", Parcel().ints(-127, 8, 5, 0, 2, 3, 1, 2, 3, 3, 4, 5, 6), "return=[[1, 2, 3], [4, 5, 6]]"),
    Answer("fixed", Parcel().ints(-127, 4, -128, 4, 2, 3, 1, 2, 3, 3, 4, 5, 6), "return=[[1, 2, 3], [4, 5, 6]]"),
    Answer("outs", Parcel().ints(0).sized(p_of(1, "r")).ints(2, 5, 6).ints(0).sized(p_of(2, "d")).ints(2, 8, 9)
           .ints(1).text("f"),
           'return=P{number=1, text="r", next=null}, b=[5, 6], c=null, d=P{number=2, text="d", next=null}, e=[8, 9],'
           ' f=["f"]'),
    Answer("outs", Parcel().ints(-3).text("not this").ints(0),
           'exception=EX_ILLEGAL_ARGUMENT (-3), message="not this"'),
    Answer("outs", Parcel().ints(-1).text(None).ints(4 + len(string16("at"))).text("at"),
           "exception=EX_SECURITY (-1), message=null"),
    Answer("outs", Parcel().ints(-8).text("own").ints(0, 42),
           'exception=EX_SERVICE_SPECIFIC (-8), message="own", error=42'),
    Answer("outs", Parcel().ints(-9).text("own").ints(0, 8, 1),
           'exception=EX_PARCELABLE (-9), message="own", parcelable=8 bytes'),
    Answer("outs", Parcel().ints(-9).text("own").ints(0, 0),
           'exception=EX_PARCELABLE (-9), message="own", parcelable=4 bytes'),
    Answer("outs", Parcel().ints(-129).text("x").ints(0), 'exception=EX_TRANSACTION_FAILED (-129), message="x"'),
)

UNFIT_REPLIES = (
    Answer("nothing", Parcel().ints(0, 0), "at byte 4 4 bytes more than are declared"),
    Answer("nothing", Parcel(), "at byte 0 an exception of 4 bytes, and 0 are left"),
    Answer("nothing", Parcel().ints(1), "at byte 0 the exception 1"),
    Answer("nothing", Parcel().ints(-10).text("x").ints(0), "at byte 0 the exception -10"),
    Answer("nothing", Parcel().ints(-3), "at byte 4 the length of a String of 4 bytes, and 0 are left"),
    Answer("nothing", Parcel().ints(-3).text("x").ints(0, 42), "at byte 16 4 bytes more than are declared"),
    Answer("nothing", Parcel().ints(-3).text("x").ints(3), "at byte 12 a stack of 3 bytes, and 0 are left"),
    Answer("nothing", Parcel().ints(-3).text("x").ints(100), "at byte 12 a stack of 100 bytes, and 0 are left"),
    Answer("nothing", Parcel().ints(-8).text("x").ints(0),
           "at byte 16 the error of a service of 4 bytes, and 0 are left"),
    Answer("nothing", Parcel().ints(-9).text("x").ints(0, 2), "at byte 16 a parcelable of 2 bytes, and 0 are left"),
    Answer("nothing", Parcel().ints(-127, 3), "at byte 4 the size of a header of app ops is 3, and 4 bytes are left"),
    Answer("nothing", Parcel().ints(-128, 12, 1),
           "at byte 4 the size of a header of StrictMode is 12, and 8 bytes are left"),
    Answer("fixed", Parcel().ints(-128, 4), "at byte 8 the length of int[2][3] of 4 bytes, and 0 are left"),
)

TOKEN = len(call("p.I").data)
OLD = Parcel(numbers(GATHER, NO_SOURCE) + string16("p.IOld"), False)
OLDER = Parcel(numbers(GATHER) + string16("p.IOld"), False)


def declared(room: pathlib.Path, names: dict[str, str]) -> Declarations:
    for name, text in names.items():
        path = room / name
        path.parent.mkdir(parents=True, exist_ok=True)
        path.write_text(text, "utf-8")
    return Declarations([str(room)])


def data_of(parcel: Parcel) -> Data:
    return Data(parcel.data, parcel.offsets)


def of_call(sources: Declarations, method: str, data: Data) -> Said:
    return request(sources, data, "p.I", CODES[method])


def of_reply(sources: Declarations, method: str, data: Data) -> Said:
    return reply(sources, data, False, Asked("p.I", CODES[method], True))


def differs(what: object, due: str, came: object) -> Iterator[str]:
    if str(came) != due:
        yield f"{what}: expected {due!r}, came {str(came)!r}"


def has_names(said: Said) -> bool:
    return any(part.name for part in said.parts)


def calls_wrongly(sources: Declarations) -> Iterator[str]:
    for method, parcel, due in SAID:
        yield from differs(method, due, of_call(sources, method, data_of(parcel)))
    for method, parcel, at, why in UNFIT:
        said = of_call(sources, method, data_of(parcel))
        called = sources.method("p.I", CODES[method])
        yield from differs(method, f"does not fit {called}, at byte {TOKEN + at} {why}", said.doubt)
        if has_names(said):
            yield f"{method} that does not fit has names: {said}"


def replies_wrongly(sources: Declarations) -> Iterator[str]:
    for method, parcel, due in REPLIES:
        yield from differs(f"reply to {method}", due, of_reply(sources, method, data_of(parcel)))
    for method, parcel, due in UNFIT_REPLIES:
        said = of_reply(sources, method, data_of(parcel))
        called = sources.method("p.I", CODES[method])
        yield from differs(f"reply to {method}", f"does not fit {called}, {due}", said.doubt)
        if has_names(said):
            yield f"reply to {method} that does not fit has names: {said}"
    # Before Android 11 no stability follows an object.
    one = Parcel(has_stability=False).ints(0).binder(HANDLE, 5)
    old, newer = (reply(sources, data_of(one), False, Asked("p.IOld", 1, is_newer)) for is_newer in (False, True))
    yield from differs("IOld", "return=HANDLE 5", old)
    yield from differs("IOld", "does not fit p.IOld.get(), at byte 28 the stability of an IBinder of 4 bytes, and 0 are"
                       " left", newer.doubt)
    for number, due in (-38, "status=-38 ENOSYS"), (-2**31 + 2, "status=-2147483646 FAILED_TRANSACTION"):
        yield from differs("a status", due, reply(sources, data_of(Parcel().ints(number)), True, None))
    yield from differs("a long status", "a status of 8 bytes: 0x0000000000000000 (8 bytes)",
                       reply(sources, data_of(Parcel().long(0)), True, None))


def names_wrongly(sources: Declarations) -> Iterator[str]:
    """Names that are declared in two ways, nowhere, or otherwise than the file is called; and old forms of a token."""
    twice = Data(call("p.ITwice").ints(7).data)
    yield from differs("two methods", "no declaration of code 1 of p.ITwice", str(request(
        sources, twice, "p.ITwice", 1)).partition(", which ")[0])
    held = Data(call("p.ITwice").sized(Parcel().ints(7)).data)
    yield from differs("two parcelables", "from here on p.Twice", str(request(
        sources, held, "p.ITwice", 2)).partition(", which ")[0])
    yield from differs("no interface", 'texts: "word"', request(sources, Data(call("r.I").text("word").data), "r.I", 1))
    yield from differs("no method", "0x07000000 (4 bytes)", request(
        sources, Data(call("p.IOther").ints(7).data), "p.IOther", 2))
    yield from differs("another name", "b=7", request(sources, Data(call("p.IRenamed").ints(7).data), "p.IRenamed", 1))
    for parcel in OLD, OLDER:
        yield from differs("an old token", "no arguments", request(sources, data_of(parcel), "p.IOld", 1))
    named = sources.names(["p.IOther", "p.ITwice"])
    if named["p.IOther", 1].name != "a" or named["p.ITwice", 1].name != "a":
        yield f"names of methods are {named}"


def listed(parcel: Parcel, *offsets: int) -> Parcel:
    """The data, with a list of offsets that lies."""
    parcel.offsets += offsets
    return parcel


def texts_wrongly() -> Iterator[str]:
    nothing = Declarations([])
    for data, due in (
            (Parcel().text("one", None, "grün", "ab").ints(5), 'texts: "one", "grün"'),
            (Parcel().blob("plain grün".encode()).text("two"), 'texts: "plain grün", "two"'),
            (Parcel().object(BINDER, int.from_bytes(b"abcdefgh", "little")).text("three"), 'texts: "three"'),
            (Parcel().ints(1, 2), "0x0100000002000000 (8 bytes)"),
            (listed(Parcel().text("four"), 2**63, 0, 100), f"0x{string16('four').hex()} (16 bytes)"),
            (listed(Parcel().text("four", "five"), 16), 'texts: "four"'),
            (listed(Parcel().text("four", "five"), 13),
             f"0x{(string16('four') + string16('five')).hex()} (32 bytes)"),
            (Parcel().raw(bytes(40)), f"0x{'00' * 32}.. (40 bytes)"),
            (Parcel(), "no arguments")):
        yield from differs("texts", due, request(nothing, data_of(data), None, 1))


def changed_wrongly(sources: Declarations) -> Iterator[str]:
    """Cut and changed data."""
    chance = random.Random(1)
    for method, parcel, _ in SAID:
        for length in range(TOKEN, len(parcel.data)):
            said = of_call(sources, method, Data(parcel.data[:length], [it for it in parcel.offsets if it < length]))
            if said.method and not said.doubt and "from here on" not in str(said) and has_names(said):
                yield f"{method} cut after {length} bytes says {said}"
        for _ in range(100):
            data = bytearray(parcel.data)
            data[chance.randrange(TOKEN, len(data)) if len(data) > TOKEN else 0] = chance.randrange(256)
            said = of_call(sources, method, Data(bytes(data), parcel.offsets))
            if said.doubt and has_names(said):
                yield f"{method} changed to {bytes(data).hex()} says {said}"


def nested(levels: int) -> Parcel:
    """Parcelables in parcelables. Each level has the size of all below it."""
    made = b""
    for level in range(levels):
        made = numbers(1, 4 + len(made) + 4 * (level > 0)) + made + numbers(0) * (level > 0)
    return call("p.I").raw(made)


def slowly(sources: Declarations) -> Iterator[str]:
    """What takes longer than its length allows: a quarter of a megabyte takes a second at most."""
    most = 1 << 16
    wide = Parcel().ints(0, most // 2, *[0] * (most // 2))
    empty = Parcel().ints(0, most // 2).raw(numbers(1, 4) * (most // 2))
    claims = b"".join(numbers(max((most * 4 - at) // 2 - 4, 0)) for at in range(0, most * 4, 4))
    for what, data in {
            "null parcelables": data_of(call("p.I").sized(wide)),
            "nesting": data_of(nested(20_000)),
            "empty parcelables": data_of(call("p.I").sized(empty)),
            "lengths of texts": Data(call("p.I").raw(claims).data),
            "letters": Data(call("p.I").raw(numbers(0x00410041) * most).data),
            "bytes": Data(call("p.I").raw(b"abc\0" * most).data),
            "objects": Data(call("p.I").data + bytes(most), [*range(TOKEN, most, 4), *range(TOKEN, most, 4)])}.items():
        for method in "loop", "list", "nothing":
            began = time.process_time()
            said = of_call(sources, method, data)
            if (took := time.process_time() - began) > 2 or len(str(said)) > 1 << 20:
                yield f"{what} as {method} took {took:.1f} s, and says {len(str(said))} characters"


def judge(_: argparse.Namespace, room: pathlib.Path, __: object) -> Iterator[str]:
    sources = declared(room, SOURCES)
    yield from (*calls_wrongly(sources), *replies_wrongly(sources), *names_wrongly(sources), *texts_wrongly(),
                *changed_wrongly(sources), *slowly(sources))


if __name__ == "__main__":
    check(judge)
