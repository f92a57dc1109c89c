"""Checks the printer of lines of `./listing` without the program that reads captures.

    checks/run printed [-- CASE..]     plays these cases alone, as `stored/death.txt`, `options` or `harm/3`

A second reading in Python makes the stream of rows (checks/kit/tables/stream.py), and the printer, built with
sanitizers for memory, prints it. What it prints must be the listings in `stored/` beside this one, to the byte. It
takes all options about lines; those that narrow print the lines that fit. Each code word, each kind of fault and each
interface has its name, in lines and in columns. With --names each line has the method that the viewer's database names,
and the service. Of streams that are cut, of which bytes are changed, or rows left out or put elsewhere, it must print
what it can, and end with a status of ./listing, without a word of a sanitizer: if it is cut, with 4. So it must of side
lists and of files of names that are harmed, and print no time and no name that is none. A side list of another version
is refused.
"""

import argparse
import pathlib
import random
import re
import sqlite3
import struct
from contextlib import closing
from itertools import chain, takewhile
from typing import Callable, Iterator

from checks.hostile.mutations import changed_lines
from checks.kit import runs, tokens
from checks.kit.captures import (BC_REPLY, BC_TRANSACTION, HANDLE, HEADER, MAX_32, attached, entry, frame, loopers,
                                 of_handle, offsets, record, transaction, u32)
from checks.kit.cases import Part, parts_of, play
from checks.kit.checking import Fail, check, compare
from checks.kit.programs import CHECKS, DRIVER, ROOT, SMALL
from checks.kit.frames import frames_of
from checks.kit.rows import encoded_row
from checks.kit.side_lists import packed, unpacked
from checks.kit.second_reading import NAMES, NEWER
from checks.kit.tables.cut import FAULTS, cut_of
from checks.kit.tables.reading import Row, numbered, object_rows, names_of, record_row
from checks.kit.tables.stream import ENDING, SORT_BIT, Stream, split, stream_of
from checks.kit.traffic import write_traffic
from checks.listing.tables_again import freezes, naming
from commands.listing import LISTING
from commands.reading import Given, read
from viewer.lines.asked import OF_VIEWER, printer_words, program_words
from viewer.arguments.sources import Declarations
from viewer.database import raw_tables
from viewer.lines.build import build_printer
from viewer.lines.named import is_before_15, lines_of
from viewer.listing_words import PLACES, TABLES, TIMES
from viewer.methods.known import BINDER, MANAGER, Methods, load_methods
from viewer.units import signed

SIDED = DRIVER / "leaks/capture-1.cap"
SIDE = SIDED.with_name("capture.side")
INTERFACES = ROOT / "samples/interfaces"
STORED = sorted((CHECKS / "listing/stored").iterdir())
SANITIZED = "-O1", "-g", "-fsanitize=address,undefined", "-fno-sanitize-recover=all", "-U_FORTIFY_SOURCE"
STATUSES = 0, 1, 2, 4
# So many streams are harmed, each in so many ways.
HARMED, WAYS = 24, 12
# The file of names, beside the printer.
METHODS = "methods"
Options = list[tuple[str, list[str]]]
# Captures with calls to managers of services, with services, and with calls that all objects answer.
NAMED = [DRIVER / name / "capture-1.cap" for name in (
    "hello-9", "hello-11", "hello-answers", "hello-hidl", "hello-callbacks")]
OF_RECORDS = """SELECT coalesce(m.method, ''), coalesce(s.name, '') FROM raw_record r JOIN kind k ON k.number = r.kind
  LEFT JOIN raw_interface i ON i.id = r.interface LEFT JOIN raw_service s ON s.id = r.service
  LEFT JOIN method m ON k.name NOT GLOB '*_REPLY*' AND (m.interface, m.code) = (coalesce(i.name, ?), r.code)
  ORDER BY r.place"""


def stream_for(given: Given) -> bytes:
    """The stream that the words ask for, by those of the program that reads the capture."""
    *asked, = takewhile("--".__ne__, program_words(given))
    places = [(name, int(value)) for name, value in zip(asked, asked[1:]) if name in PLACES]
    parts = [(ROOT / name).read_bytes() for name in given.files]
    return stream_of(parts, "--objects" in asked, places[0][0] if places else None, [place for _, place in places])


def printed(printer: pathlib.Path, given: Given, stream: bytes) -> tuple[int, list[str]]:
    """The status of the printer, and its lines; those of standard error come last."""
    words = [*printer_words(given), *(["--methods", printer.with_name(METHODS)] if given.asks("--names") else [])]
    status, out, err = runs.answer([printer, *words], timeout=120, cwd=ROOT, input=stream)
    return status, (out + err).decode("utf-8", "replace").splitlines()


def write_methods(printer: pathlib.Path, files: list[str], methods: Methods) -> None:
    """Writes the file of names for a capture, as ./listing does, beside the printer."""
    asked = Given([("--interface", [MANAGER]), ("--objects", [])], files)
    _, lines = printed(printer, asked, stream_for(asked))
    printer.with_name(METHODS).write_text("".join(lines_of(is_before_15(lines), methods)), "utf-8")


def methods_of(sources: list[str]) -> Methods:
    """The methods of all that these sources declare."""
    declared = Declarations(sources)
    return declared.names(list(declared.unread))


# ---- stored listings


def check_stored(printer: pathlib.Path, room: pathlib.Path, stored: pathlib.Path, fail: Fail) -> None:
    """A stored listing. Its first line has the command, its last line the status."""
    words, *lines, status = stored.read_text("utf-8").splitlines()
    given = read(LISTING, words.split()[1:])
    if given.asks("--names"):
        write_methods(printer, given.files, methods_of(given.values("--aidl")))
    compare(f"stored/{stored.name}", printed(printer, given, stream_for(given)), (int(status.split()[1]), lines), fail)


def check_options(printer: pathlib.Path, room: pathlib.Path, fail: Fail) -> None:
    """The printer takes all options of the command that are about lines."""
    values = {"--form": "tab", "--side": str(SIDE), "--direction": "read"}
    for option in LISTING.options():
        if option.name in (*OF_VIEWER, *TABLES, *TIMES, "--version"):
            continue
        given = Given([(option.name, [values.get(option.name, "7")] * len(option.values))], [str(SIDED)])
        status, told = printed(printer, given, stream_for(given))
        if status not in (0, 1):
            fail(f"{option.name}: ends with status {status}: {told[-1:]}")


# ---- names


def names_by_database(capture: bytes, methods: Methods) -> list[tuple[str, str]]:
    """The method and the service of each record, by the statements of the viewer, from the second reading."""
    stream, rows = Stream([capture]), dict[str, list[Row]](record=[], object=[])
    for it in (it for records in stream.cut.records for it in records):
        interface, service = names_of(it)
        rows["record"].append(record_row(it, 0, numbered(stream.interfaces, interface),
                                         numbered(stream.services, service)))
        rows["object"] += object_rows(it)
    rows["interface"] = [[number, name] for name, number in stream.interfaces.items()]
    rows["service"] = [[number, name] for name, number in stream.services.items()]
    with closing(sqlite3.connect(":memory:")) as database:
        for script in "schema.sql", "numbers.sql":
            database.executescript((raw_tables.FOLDER / script).read_text("utf-8"))
        database.execute("CREATE VIEW interface AS SELECT id, name FROM raw_interface")
        for table, made in rows.items():
            if made:
                database.executemany(f"INSERT INTO raw_{table} VALUES ({', '.join('?' * len(made[0]))})",
                                     [[signed(it) if isinstance(it, int) else it for it in row] for row in made])
        load_methods(database, methods)
        return database.execute(OF_RECORDS, (BINDER,)).fetchall()


def with_names(line: str, method: str, service: str) -> str:
    return line + f" method={method}" * bool(method) + f" service={service}" * bool(service)


def with_tabs(line: str, method: str, service: str) -> str:
    return f"{line}\t{method}\t{service}"


def called(handed: bytes = b"", listed: tuple[int, ...] = (), code: int = 3) -> bytes:
    """A capture with calls that have names, and some that have none. What is handed over to this code of the manager
    has objects in these places."""
    manager, ping = tokens.marked(MANAGER), int.from_bytes(b"_PNG", "big")
    named = manager + tokens.string16("hello")
    calls = [(BC_TRANSACTION, code, named + handed, listed),
             *((BC_TRANSACTION, number, named, ()) for number in (1, 2, 3, 4, 5, 16777215)),
             *((BC_TRANSACTION, number, tokens.string16("no token"), ()) for number in (1, ping)),
             *((BC_TRANSACTION, number, data, ()) for number in (1, 16777214, 0x0f504e47) for data in (
                 *tokens.RECORDED, b"android.hidl.base@1.0::IBase\0\0\0\0")),
             (BC_REPLY, 1, tokens.string16(MANAGER), ()), (BC_REPLY, ping, b"", ())]
    return HEADER + b"".join(
        frame(1, number, 100, 101, [transaction(word, 1, code, sizes=(len(data), 8 * len(places)))],
              [entry(0, data, offsets(*(len(named) + place for place in places)))])
        for number, (word, code, data, places) in enumerate(calls, 1))


def check_named(printer: pathlib.Path, room: pathlib.Path, fail: Fail) -> None:
    """Lines and columns with names, alone and before what the side list says."""
    for capture in NAMED:
        check_names(printer, capture, [("--side", [str(capture.with_name("capture.side"))])], fail)
    for name, made in (("object", called(HANDLE, (0,))), ("bad", called(HANDLE, (2,))), ("none", called()),
                       ("other", called(HANDLE, (0,), 2))):
        (room / name).write_bytes(made)
        check_names(printer, room / name, [("--objects", [])], fail)


def check_names(printer: pathlib.Path, capture: pathlib.Path, more: Options, fail: Fail) -> None:
    """The names of one capture. With more options each line has more after it."""
    names: Options = [("--names", [])]
    methods = methods_of([str(INTERFACES)])
    write_methods(printer, [str(capture)], methods)
    by_database = names_by_database(capture.read_bytes(), methods)
    for form, join in (([], with_names), ([("--form", ["tab"])], with_tabs)):
        lines = came_of(printer, form, capture)
        due = [join(line, *named) for line, named in zip(lines, by_database, strict=True)]
        if due == lines:
            fail(f"{capture}: no record has a name")
        compare(f"{capture}, {form}", came_of(printer, [*form, *names], capture), due, fail)
        told = came_of(printer, [*form, *more], capture)
        for line, other in zip(lines, due):
            told = [it.replace(line, other, 1) if it.startswith(line) else it for it in told]
        compare(f"{capture}, {form}, {more}", came_of(printer, [*form, *more, *names], capture), told, fail)


def came_of(printer: pathlib.Path, options: Options, capture: pathlib.Path) -> list[str]:
    given = Given(options, [str(capture)])
    return printed(printer, given, stream_for(given))[1]


def check_harmed_names(printer: pathlib.Path, room: pathlib.Path, fail: Fail) -> None:
    """Files of names that are cut or changed, and names that are none."""
    chance, given = random.Random("names"), Given([("--names", []), ("--form", ["tab"])], [str(NAMED[0])])
    good, stream, methods = "".join(lines_of(True, {})).encode(), stream_for(given), printer.with_name(METHODS)
    made = [f"{MANAGER}\t3\t{name}\n".encode() for name in ("", "a b", "\x1b[2J", "a\tb", "ä", "a\0b")]
    made += [b"\t1\ta\n", b"*\t\ta\n", b"*\t-1\ta\n", b"*\t18446744073709551616\ta\n", b"\n", b"\t\t\n", b"*\t1", b"\0"]
    for at in range(WAYS * WAYS):
        harm = bytearray(good[:chance.randrange(1, len(good))] if at % 2 else good)
        for _ in range(chance.randint(1, 4)):
            harm[chance.randrange(len(harm))] = chance.choice((0, 9, 10, 27, 0x7F, 0xFF, chance.randrange(256)))
        made.append(bytes(harm))
    for table in made:
        methods.write_bytes(table)
        status, lines = printed(printer, given, stream)
        if status not in (0, 4) or any("Sanitizer" in line or "runtime error" in line for line in lines):
            fail(f"names of {table!r}: ends with status {status}: {lines[-40:]}")
        if status == 0 and not all(re.fullmatch(r"([^\t]*\t){26}[\w$]*\t[^\t]*", line, re.ASCII) for line in lines):
            fail(f"names of {table!r}: a name that is none is printed")
    methods.write_bytes(good)


# ---- what is narrowed


def with_word(field: str) -> Callable[[list[str]], bool]:
    return lambda words: field in words


def narrowings(whole: list[str]) -> Iterator[tuple[str, Callable[[list[str]], object]]]:
    """Words that narrow usual traffic, and whether a line fits, by its words."""
    cookie = next(word for line in whole for word in line.split() if word.startswith("cookie=0x9"))
    sizes = sorted({int(word[10:]) for line in whole for word in line.split() if word.startswith("data_size=")})
    middle = sizes[len(sizes) // 2]
    node = next(word for line in whole for word in line.split() if word.startswith("ptr=0x"))
    yield from (
        ("--process 1000", lambda it: it[3] == "1000"),
        ("--thread 1003", lambda it: it[4] == "1003"),
        ("--device 1", lambda it: it[2] == "1"),
        ("--device 3", lambda it: False),
        ("--code BC_ACQUIRE", lambda it: it[5] == "BC_ACQUIRE"),
        ("--code 0x720c", lambda it: it[5] == "BR_NOOP"),
        ("--handle 7", with_word("handle=7")),
        (f"--cookie {cookie[7:]}", with_word(cookie)),
        ("--address 0x700000001000", lambda it: {"buffer=0x700000001000", "address=0x700000001000"} & set(it)),
        ("--from 300 --to 400", lambda it: 300 <= int(it[1]) <= 400),
        ("--process 1007 --code BC_RELEASE", lambda it: (it[3], it[5]) == ("1007", "BC_RELEASE")),
        ("--device 2 --process 1000", lambda it: (it[2], it[3]) == ("2", "1000")),
        ("--process 1000 --process 1007", lambda it: it[3] in ("1000", "1007")),
        ("--code BC_REPLY --code 0x720c", lambda it: it[5] in ("BC_REPLY", "BR_NOOP")),
        ("--from 300 --from 400 --to 350 --to 310", lambda it: 300 <= int(it[1]) <= 350),
        ("--direction write", lambda it: it[5].startswith("BC_")),
        ("--direction read --code BC_REPLY", lambda it: False),
        (f"--node {node[4:]}", with_word(node)),
        ("--flag TF_ONE_WAY", lambda it: any(word.startswith("flags=") and "TF_ONE_WAY" in word for word in it)),
        (f"--larger {middle}", lambda it: any(
            word.startswith("data_size=") and int(word[10:]) > middle for word in it)),
    )


def without_attachments(capture: bytes) -> bytes:
    """The capture with the same records, and without attachment entries."""
    return capture[:16] + b"".join(capture[one.place:one.place + 24] + u32(0) + capture[one.place + 28:one.place + 32]
                                   + one.commands for one in frames_of(capture))


def check_narrowed(printer: pathlib.Path, room: pathlib.Path, fail: Fail) -> None:
    """Each option narrows usual traffic to the lines of the whole listing that fit. Attachments are left out, since
    their objects have handles and cookies that are in no line; an object that has one makes its record fit."""
    capture = room / "traffic.cap"
    write_traffic(capture, 2**17, 3)
    capture.write_bytes(without_attachments(capture.read_bytes()))
    stream = stream_for(Given([], [str(capture)]))
    _, whole = printed(printer, Given([], []), stream)
    for words, fits in narrowings(whole):
        due = [line for line in whole if fits(line.split())]
        given = read(LISTING, [*words.split(), str(capture)])
        compare(f"usual traffic, {words}", printed(printer, given, stream), (0, due), fail)
        if not due and words not in ("--device 3", "--direction read --code BC_REPLY"):
            fail(f"usual traffic, {words}: expected some lines, came none")
    (room / "objects.cap").write_bytes(
        HEADER + attached(1, 100, *((of_handle(2, handle), offsets(0)) for handle in (9, 5))))
    lines = came_of(printer, [("--handle", ["5"])], room / "objects.cap")
    compare("a handle in an object", [line.split()[0] for line in lines], ["116"], fail)


# ---- names, and columns


# The columns of `--form tab`, as the command names them. For two of them lines have no word.
FORM = next(it.told for it in LISTING.options() if it.name == "--form")
COLUMNS = FORM.partition(": ")[2].partition(";")[0].split(", ")
OF_COLUMNS = "direction", "code word"
REPLIES = "BC_REPLY", "BC_REPLY_SG", "BR_REPLY"


def check_codes(printer: pathlib.Path, room: pathlib.Path, fail: Fail) -> None:
    """Each code word has its name."""
    capture, ways = room / "codes.cap", ((1, "write", ord("c")), (2, "read", ord("r")))
    words = {way: [word for word in NAMES if word >> 8 & 0xFF == letter] for way, _, letter in ways}
    capture.write_bytes(HEADER + b"".join(frame(way, way, 100, 101, [*map(record, words[way])]) for way in words))
    columns = [line.split("\t") for line in came_of(printer, [("--form", ["tab"])], capture)]
    compare("codes", [line[5:8] for line in columns],
            [[name, NAMES[word], f"{word:#010x}"] for way, name, _ in ways for word in words[way]], fail)
    for it in capture, SIDED:
        check_columns(printer, it, fail)


def check_columns(printer: pathlib.Path, capture: pathlib.Path, fail: Fail) -> None:
    """Columns say the same as lines."""
    lines = [line.split() for line in came_of(printer, [], capture)]
    columns = [dict(zip(COLUMNS, line.split("\t"), strict=True))
               for line in came_of(printer, [("--form", ["tab"])], capture)]
    compare(f"{capture}, columns", [{name: value for name, value in line.items() if value and name not in OF_COLUMNS}
                                    for line in columns],
            [dict(zip(COLUMNS[:5], line)) | {"name": line[5]}
             | dict(word.split("=", 1) for word in line[6:] if not word.startswith("word=")) for line in lines], fail)


def check_interfaces(printer: pathlib.Path, room: pathlib.Path, fail: Fail) -> None:
    """What a payload names is the interface of a transaction, and of no reply."""
    capture = room / "interfaces.cap"
    capture.write_bytes(naming())
    records = chain.from_iterable(cut_of([naming()]).records)
    lines = came_of(printer, [], capture)
    named = [line.partition(" interface=")[2] for line in lines]
    compare("interfaces", named, ["" if line.split()[5] in REPLIES else names_of(it)[0] or ""
                                  for it, line in zip(records, lines, strict=True)], fail)
    names = sorted(set(filter(None, named)))
    for name in (*names[:4], names[0][:-1]):
        compare(f"--interface {name}", came_of(printer, [("--interface", [name])], capture),
                [line for line, it in zip(lines, named) if it == name], fail)
    check_columns(printer, capture, fail)


def check_faults(printer: pathlib.Path, room: pathlib.Path, fail: Fail) -> None:
    """The line of each kind of fault, of one file and of several."""
    for number, kind in enumerate(FAULTS, 1):
        for part, parts, more in (1, 1, ""), (2, 3, " in part 2"):
            ending = encoded_row([number, 48, part, parts, 2], ENDING << SORT_BIT)
            compare(kind, printed(printer, Given([], []), ending), (2, [f"malformed {kind} at 48{more}"]), fail)


# ---- freeze notifications


# What each record of `freezes` says in the listing.
FREEZE_LINES = """\
BC_REQUEST_FREEZE_NOTIFICATION handle=7 cookie=0x70
BC_REQUEST_FREEZE_NOTIFICATION handle=4294967295 cookie=0xffffffffffffffff
BC_ACQUIRE handle=7
BR_NOOP
BR_FROZEN_BINDER cookie=0x70 is_frozen=1
BR_FROZEN_BINDER cookie=0xffffffffffffffff is_frozen=4294967295
BC_FREEZE_NOTIFICATION_DONE cookie=0x70
BC_CLEAR_FREEZE_NOTIFICATION handle=7 cookie=0x70
BR_CLEAR_FREEZE_NOTIFICATION_DONE cookie=0x70
OPAQUE word=0x40046313
OPAQUE word=0x40086313
OPAQUE word=0x40106315
OPAQUE word=0x400c6316
OPAQUE word=0x80087215
OPAQUE word=0x800c7216""".splitlines()


def check_freezes(printer: pathlib.Path, room: pathlib.Path, fail: Fail) -> None:
    """Freeze notifications, which the report counts as opaque, have their names and fields."""
    capture = room / "freezes.cap"
    capture.write_bytes(freezes())
    lines = came_of(printer, [], capture)
    compare("freezes", [line.split(" ", 5)[5] for line in lines], FREEZE_LINES, fail)
    for codes, fits in (
            *(((code,), with_word(name)) for word, name in NEWER.items() for code in (name, hex(word))),
            (("OPAQUE",), with_word("OPAQUE")),
            (("OPAQUE", "BR_FROZEN_BINDER"), lambda it: it[5] in ("OPAQUE", "BR_FROZEN_BINDER"))):
        compare(f"freezes, --code {codes}", came_of(printer, [("--code", [it]) for it in codes], capture),
                [line for line in lines if fits(line.split())], fail)
    for option, value in ("--handle", "7"), ("--handle", str(MAX_32)), ("--cookie", "0x70"):
        compare(f"freezes, {option} {value}", came_of(printer, [(option, [value])], capture),
                [line for line in lines if f"{option[2:]}={value}" in line.split()], fail)
    place = next(line.split()[0] for line in lines if "is_frozen=4294967295" in line)
    compare("freezes, --at", [line.split()[1:] for line in came_of(printer, [("--at", [place])], capture)[3:6]],
            [["cookie", "0xffffffffffffffff"], ["is_frozen", "4294967295"], ["reserved", "9"]], fail)
    check_columns(printer, capture, fail)


# ---- side lists


def with_side(printer: pathlib.Path, capture: pathlib.Path, side: pathlib.Path) -> tuple[int, list[str]]:
    given = Given([("--side", [str(side)])], [str(capture)])
    return printed(printer, given, stream_for(given))


def check_side_begins(printer: pathlib.Path, room: pathlib.Path, fail: Fail) -> None:
    """A side list begins as one of version 1, 2 or 3."""
    side = room / "a.side"
    refused = 4, ["listing: the side list is not of version 1, 2 or 3"]
    for begin, due in (("binder side list 1\n", (0, 2)), ("binder side list 2\n", (0, 2)),
                       ("binder side list 3\n", (0, 2)), ("binder side list 4\n", None), ("binder side list 3", None),
                       ("binder side list 22\n", None), ("binder side list \n", None), ("\n", None), ("", None),
                       ("5 frame 1\n", None)):
        side.write_text(begin + "7 frame 1\n" * begin.endswith("\n"), "utf-8")
        status, lines = with_side(printer, ROOT / "samples/acquire.cap", side)
        came = (status, lines) if due is None else (status, sum("time=7" in line for line in lines))
        compare(f"side list that begins {begin!r}", came, due or refused, fail)


# The times of four frames, by lines of a side list. Of a line that was cut, or of what is behind one that is too long,
# none is taken.
MOST, LONGEST = 2**64 - 1, 2**22
TIMES_OF = (
    ("5 frames 1 2 3 4\n", ["5", "7", "10", "14"]), ("5 frames 1 2 -3 0\n", ["5", "7", "4", "4"]),
    ("5 frames 1\n", ["5"]), ("5 frames 2 2 3\n", ["", "5", "7", "10"]), ("5 frames 1 2 x 4\n", ["5", "7"]),
    ("5 frames 1 2  4\n", ["5", "7"]), ("5 frames 1 2x 4\n", ["5"]), ("5 frames 1 -6 9\n", ["5"]),
    ("5 frames 1 0x2\n", ["5"]), (f"5 frames 1 {'2'.zfill(20)} {'3'.zfill(21)}\n", ["5", "7"]),
    (f"{MOST} frames 1 1\n", [f"{MOST}"]), (f"5 frames {MOST} 1 1\n", []), (f"{MOST + 1} frames 1\n", []),
    *((f"{line}\n", []) for line in (
        "x frames 1 2", "5 frames x 2", "5 frames 1x", "5 frames", "5  frames 1", "x frame 1", "-5 frame 1", " frame 1",
        "5 frame 1 2", "5 frame 0x1", "5 frame", "frame 1", "\0005 frame 1")),
    ("5 frames 1 2 x\n9 frame 3\n11 frames 4 1\n", ["5", "7", "9", "11"]), ("\n\n5 frame 1\n", ["5"]),
    ("5 frame 1\n7 frame 2", ["5"]), ("5 frames 1 2 3", []), ("5 frame 1\0\0\n7 frame 2\n\0\0", ["", "7"]),
    ("5 frame 1\n" + "a" * LONGEST + "\n7 frame 2\n", ["5", "7"]),
    ("5 frame 1\n" + "\0" * LONGEST + "a\n7 frame 2\n", ["5"]))


def check_times(printer: pathlib.Path, room: pathlib.Path, fail: Fail) -> None:
    """Each frame of a line has its time. From a word on that is no number, or makes a number or a time too large or
    too small, no frame of the line has one."""
    capture, side = room / "a.cap", room / "a.side"
    capture.write_bytes(loopers(4))
    for text, due in TIMES_OF:
        side.write_text(f"binder side list 3\n{text}", "utf-8")
        status, lines = with_side(printer, capture, side)
        times = [line.partition(" time=")[2].split(" ")[0] for line in lines]
        compare(f"times of {text[:80]!r}", (status, times), (0, due + [""] * (4 - len(due))), fail)


def check_harmed_sides(printer: pathlib.Path, room: pathlib.Path, fail: Fail) -> None:
    """Side lists of which lines and bytes are changed, cut or lost."""
    chance, side = random.Random("sides"), room / "a.side"
    good = SIDE.read_text("utf-8")
    for form in (good, packed(unpacked(good), 40), unpacked(good)):
        for _ in range(WAYS * 4):
            side.write_bytes(changed_lines(chance, form.encode()))
            status, lines = with_side(printer, SIDED, side)
            if status not in (0, 4) or any("Sanitizer" in line or "runtime error" in line for line in lines):
                fail(f"side list {side.read_bytes()!r}: ends with status {status}: {lines[-40:]}")


# ---- streams that are harmed


def asked_of(chance: random.Random, capture: pathlib.Path) -> Given:
    """Words about a capture."""
    place, names = str(chance.randrange(capture.stat().st_size + 20)), [("--names", [])] * chance.randrange(2)
    narrowed = chance.choice(([], [("--handle", ["7"])], [("--cookie", ["0x70"])], [("--node", ["1"])],
                              [("--code", ["BC_TRANSACTION"])], [("--larger", ["8"]), ("--flag", ["TF_ONE_WAY"])]))
    form = chance.choice(([], [("--objects", [])], [("--form", ["tab"])], [("--at", [place])], [("--call", [place])]))
    return Given([*narrowed, *form, *names], [str(capture)])


def harmed(chance: random.Random, stream: bytes) -> bytes:
    """A stream of which something is cut, changed, left out, repeated or swapped."""
    rows = split(stream)
    way, at = chance.randrange(5), chance.randrange(len(rows))
    if way == 0:
        return stream[:chance.randrange(len(stream))]
    if way == 1:
        made = bytearray(stream)
        for _ in range(chance.randint(1, 4)):
            made[chance.randrange(len(made))] = chance.choice((0, 1, 2, 0x7F, 0x80, 0xFF, chance.randrange(256)))
        return bytes(made)
    if way == 2:
        rows[at] = struct.pack("<Q", struct.unpack_from("<Q", rows[at])[0] ^ 1 << chance.randrange(64)) + rows[at][8:]
    else:
        other = chance.randrange(len(rows))
        rows[at:at + 1] = {3: [], 4: [rows[other], rows[at]]}[way]
    return b"".join(rows)


def check_harmed(printer: pathlib.Path, room: pathlib.Path, number: int, fail: Fail) -> None:
    chance = random.Random(f"printed {number}")
    given = asked_of(chance, chance.choice(SMALL))
    stream = stream_for(given)
    due = printed(printer, given, stream)
    if due[0] not in STATUSES[:3]:
        fail(f"{given}: expected a status of a listing, came {due}")
    for way in range(WAYS):
        status, lines = printed(printer, given, harmed(chance, stream))
        if status not in STATUSES or any("Sanitizer" in line or "runtime error" in line for line in lines):
            fail(f"harm/{number}, {way}, {given}: ends with status {status}: {lines[-40:]}")
    for length in sorted({chance.randrange(len(stream)) for _ in range(WAYS)}):
        compare(f"harm/{number}, {given}, cut at {length}", printed(printer, given, stream[:length])[0], 4, fail)


def parts() -> Iterator[Part]:
    yield from (Part(f"stored/{stored.name}", check_stored, (stored,)) for stored in STORED)
    yield from parts_of(check_options, check_narrowed, check_codes, check_interfaces, check_faults, check_freezes,
                        check_named, check_harmed_names, check_side_begins, check_times, check_harmed_sides)
    yield from (Part(f"harm/{number}", check_harmed, (number,)) for number in range(HARMED))


PARTS = list(parts())


def judge(given: argparse.Namespace, room: pathlib.Path, fail: Fail) -> None:
    printer = build_printer(room, *SANITIZED)
    printer.with_name(METHODS).write_text("".join(lines_of(True, {})), "utf-8")
    play([part for part in PARTS if part.name in given.cases], printer, room, fail)


if __name__ == "__main__":
    check(judge, lambda: [part.name for part in PARTS])
