"""Captures that are costly to judge: each has very many of one thing, or of two that belong together."""

import pathlib
from itertools import chain, count, repeat
from typing import Callable, Iterator, NamedTuple

from checks.kit.captures import (BC_ACQUIRE, BC_CLEAR_DEATH_NOTIFICATION, BC_CLEAR_FREEZE_NOTIFICATION,
                                 BC_FREE_BUFFER, BC_RELEASE, BC_REPLY, BC_REQUEST_DEATH_NOTIFICATION,
                                 BC_REQUEST_FREEZE_NOTIFICATION, BC_TRANSACTION, BINDER, BR_ACQUIRE, BR_DEAD_BINDER,
                                 BR_REPLY, BR_TRANSACTION, BR_TRANSACTION_COMPLETE, HANDLE, HEADER_2, changed, each,
                                 each_long, entry, frame, frozen, node, offsets, record, transaction, u32, u64, watch)
from checks.kit.tokens import marked
from checks.viewer.sessions.session import Session

AT_ONCE = 256  # So many records are in a frame, where that makes no difference.
ONE_WAY, STATUS_CODE = 0x01, 0x08


class Frame(NamedTuple):
    """A frame without its sequence."""
    direction: int
    process: int
    thread: int
    records: list[bytes]
    entries: tuple[bytes, ...] = ()
    device: int = 0


def wrote(process: int, thread: int, *records: bytes, entry: tuple[bytes, ...] = (), device: int = 0) -> Frame:
    return Frame(1, process, thread, list(records), entry, device)


def got(process: int, thread: int, *records: bytes, entry: tuple[bytes, ...] = ()) -> Frame:
    return Frame(2, process, thread, list(records), entry)


# A costly capture: from its size in bytes, which few need, to its frames, which need not end.
Costly = Callable[[int], Iterator[Frame]]
COSTLY: dict[str, Costly] = {}


def costly(make: Costly) -> Costly:
    COSTLY[make.__name__] = make
    return make


def write_costly(name: str, size: int, path: pathlib.Path) -> None:
    """Writes a capture of at least so many bytes."""
    with open(path, "wb") as out:
        out.write(HEADER_2)
        for sequence, (direction, process, thread, records, entries, device) in enumerate(COSTLY[name](size), 1):
            out.write(frame(direction, sequence, process, thread, records, entries, device))
            if out.tell() >= size:
                break


def some(first: int) -> range:
    """The numbers of the records in a frame."""
    return range(first * AT_ONCE, (first + 1) * AT_ONCE)


# ---- the driver's books

# The lines that an opening has very many of in the book `state` of the end, by their number.
CALL = "flags 10 pri 0:120 r1 node 7 size 0:0\n"
LINES = {"served_calls": "    incoming transaction {0}: 0 from 9:9 to 100:101 code 1 " + CALL,
         "made_calls": "    outgoing transaction {0}: 0 from 100:101 to 9:9 code 1 " + CALL,
         "held_handles": "  ref {0}: desc {0} node {0} s 1 w 1 d 0\n",
         "own_nodes": "  node {0}: u{0:x} c{0:x} hs 1 hw 1 ls 0 lw 0 is 1 iw 1 tr 1 proc 9\n"}


def write_costly_book(name: str, size: int, path: pathlib.Path) -> pathlib.Path:
    """Writes a small capture with a book of at least so many bytes beside it. Returns its side list."""
    s = Session()
    service, client = s.two()
    client.main.asks(service.main)
    line = LINES[name]
    s.books("end", of_100="  thread 101: l 12 need_return 0 tr 0\n" + "".join(
        map(line.format, range(1, size // len(line) + 1))))
    path.write_bytes(s.capture())
    path.with_suffix(".side").write_text(s.side(), "utf-8")
    path.with_suffix(".end.state").write_text(s.copies["end.state"], "utf-8")
    return path.with_suffix(".side")


# ---- processes, threads, devices


@costly
def processes(_: int) -> Iterator[Frame]:
    return (wrote(at, at, *each(BC_ACQUIRE, 5)) for at in count())


@costly
def empty_processes(_: int) -> Iterator[Frame]:
    return (wrote(at, at) for at in count())


@costly
def scattered_processes(_: int) -> Iterator[Frame]:
    """Their numbers are multiples of a large power of two."""
    return (wrote(at << 16 & 0xFFFFFFFF | at >> 16, 1) for at in count())


@costly
def threads(_: int) -> Iterator[Frame]:
    return (wrote(1, at) for at in count())


@costly
def devices(_: int) -> Iterator[Frame]:
    return (wrote(1, 1, *each(BC_ACQUIRE, 5), device=at) for at in count())


# ---- references, deaths, frees, codes


@costly
def one_handle(_: int) -> Iterator[Frame]:
    return repeat(wrote(1, 1, *each(BC_ACQUIRE, *[5] * AT_ONCE)))


@costly
def handles(_: int) -> Iterator[Frame]:
    return (wrote(1, 1, *each(BC_ACQUIRE, *some(at))) for at in count())


@costly
def handle_again(_: int) -> Iterator[Frame]:
    return repeat(wrote(1, 1, *each(BC_ACQUIRE, 5), *each(BC_RELEASE, 5)))


@costly
def nodes(_: int) -> Iterator[Frame]:
    return (got(1, 1, *(node(BR_ACQUIRE, ptr, 1) for ptr in some(at))) for at in count())


@costly
def requests(_: int) -> Iterator[Frame]:
    return (wrote(1, 1, *(watch(BC_REQUEST_DEATH_NOTIFICATION, 5, cookie) for cookie in some(at))) for at in count())


@costly
def deaths(_: int) -> Iterator[Frame]:
    return repeat(got(1, 1, *each_long(BR_DEAD_BINDER, *[7] * AT_ONCE)))


@costly
def deaths_of_many(_: int) -> Iterator[Frame]:
    return chain.from_iterable((wrote(at % 50, 1, watch(BC_REQUEST_DEATH_NOTIFICATION, at, 7)),
                                got(at % 50, 1, *each_long(BR_DEAD_BINDER, 7))) for at in count())


@costly
def deaths_far_from_writes(_: int) -> Iterator[Frame]:
    """Many threads are told of deaths, and each writes again only after thousands of frames of others."""
    for at in count():
        yield got(1, at % 4000, *each_long(BR_DEAD_BINDER, 7))
        yield wrote(1, at % 4000, *each(BC_ACQUIRE, 5))


@costly
def freezes(_: int) -> Iterator[Frame]:
    return chain.from_iterable((wrote(1, 1, watch(BC_REQUEST_FREEZE_NOTIFICATION, 5, at)), got(1, 1, frozen(at, 1)))
                               for at in count())


@costly
def deaths_and_clears(_: int) -> Iterator[Frame]:
    """No death is acknowledged, and no clear of its request is confirmed."""
    return chain.from_iterable((wrote(1, 1, watch(BC_REQUEST_DEATH_NOTIFICATION, at, at)),
                                got(1, 1, *each_long(BR_DEAD_BINDER, at)),
                                wrote(1, 1, watch(BC_CLEAR_DEATH_NOTIFICATION, at, at))) for at in count(1))


@costly
def freezes_and_clears(_: int) -> Iterator[Frame]:
    return chain.from_iterable((wrote(1, 1, watch(BC_REQUEST_FREEZE_NOTIFICATION, at, at)), got(1, 1, frozen(at, 1)),
                                wrote(1, 1, watch(BC_CLEAR_FREEZE_NOTIFICATION, at, at))) for at in count(1))


@costly
def frees(_: int) -> Iterator[Frame]:
    return (wrote(1, 1, *each_long(BC_FREE_BUFFER, *(16 * buffer for buffer in some(at)))) for at in count())


@costly
def frees_of_one(_: int) -> Iterator[Frame]:
    return repeat(wrote(1, 1, *each_long(BC_FREE_BUFFER, *[0x1000] * AT_ONCE)))


@costly
def unknown_codes(_: int) -> Iterator[Frame]:
    """Codes without a name, with payloads of many sizes."""
    return repeat(wrote(1, 1, *(record(0x40006300 | size << 16 | number) for number in range(40, 56)
                                for size in range(4, 64, 4))))


# ---- calls


@costly
def calls(_: int) -> Iterator[Frame]:
    """One thread calls within its calls."""
    return repeat(wrote(1, 1, *[transaction(BC_TRANSACTION, 1)] * AT_ONCE))


@costly
def calls_of_many_codes(_: int) -> Iterator[Frame]:
    return (wrote(1, 1, transaction(BC_TRANSACTION, 1, at)) for at in count())


@costly
def calls_and_served(_: int) -> Iterator[Frame]:
    return chain.from_iterable((wrote(1, 1, transaction(BC_TRANSACTION, 1, at)),
                                got(1, 1, transaction(BR_TRANSACTION, code=at, sender=1))) for at in count())


@costly
def served(_: int) -> Iterator[Frame]:
    return repeat(got(1, 1, *[transaction(BR_TRANSACTION)] * AT_ONCE))


@costly
def served_of_many_codes(_: int) -> Iterator[Frame]:
    """Each thread serves a call with a code of its own, and never replies."""
    return (got(1, at, transaction(BR_TRANSACTION, 0x5000, at, buffer=16 * at)) for at in count(1))


@costly
def opened_then_closed(size: int) -> Iterator[Frame]:
    half = size // 2 // 68 // AT_ONCE
    return chain(repeat(wrote(1, 1, *[transaction(BC_TRANSACTION, 1)] * AT_ONCE), half),
                 repeat(got(1, 1, *[transaction(BR_REPLY)] * AT_ONCE)))


@costly
def stray_replies(_: int) -> Iterator[Frame]:
    return repeat(wrote(1, 1, *[transaction(BC_REPLY)] * AT_ONCE))


@costly
def unknown_flags(_: int) -> Iterator[Frame]:
    return repeat(wrote(1, 1, *[transaction(BC_TRANSACTION, 1, flags=0xFFFFFF81)] * AT_ONCE))


@costly
def chain_of_waits(_: int) -> Iterator[Frame]:
    """Each process serves the one before, and calls the next one."""
    for at in count():
        yield wrote(at, at, transaction(BC_TRANSACTION, 1, 1, sizes=(at, 0)))
        yield got(at + 1, at + 1, transaction(BR_TRANSACTION, 5, 1, sender=at, sizes=(at, 0), buffer=16))


@costly
def chain_of_pools(_: int) -> Iterator[Frame]:
    """The same, and another thread of each process waits for the next process."""
    for at in count():
        yield wrote(at, at, transaction(BC_TRANSACTION, 1, 1, sizes=(at, 0)))
        yield got(at + 1, at + 1, transaction(BR_TRANSACTION, 5, 1, sender=at, sizes=(at, 0), buffer=16))
        yield wrote(at, at + 1_000_000, transaction(BC_TRANSACTION, 1, 2, sizes=(at, 0)))


@costly
def web_of_calls(size: int) -> Iterator[Frame]:
    """Each of these processes waits for sixteen others, none of which gets the call."""
    processes = size // 16 // 300 + 1
    for at in count():
        caller, way = divmod(at, 16)
        server = (16 * caller + way + 1) % processes
        yield wrote(caller, caller, transaction(BC_TRANSACTION, way, flags=ONE_WAY, sizes=(at, 0)))
        yield got(server, server, transaction(BR_TRANSACTION, 5, flags=ONE_WAY, sizes=(at, 0), buffer=16 * at + 16))
        yield wrote(caller, at + 1_000_000, transaction(BC_TRANSACTION, way, 2, sizes=(at, 0)))


@costly
def waits_for_one(_: int) -> Iterator[Frame]:
    return chain.from_iterable((wrote(at, at, transaction(BC_TRANSACTION, 1, 1, sizes=(at, 0))),
                                got(0, at, transaction(BR_TRANSACTION, 5, 1, sender=at, sizes=(at, 0), buffer=16 * at)))
                               for at in count(1))


# ---- buffers


@costly
def one_buffer(_: int) -> Iterator[Frame]:
    return repeat(got(1, 1, *[transaction(BR_REPLY, sizes=(8, 0), buffer=0x1000)] * AT_ONCE))


@costly
def buffers(_: int) -> Iterator[Frame]:
    return (got(1, 1, *(transaction(BR_REPLY, sizes=(8, 0), buffer=16 * buffer) for buffer in some(at)))
            for at in count())


@costly
def replies_of_one_path(_: int) -> Iterator[Frame]:
    return chain.from_iterable((wrote(1, 1, transaction(BC_TRANSACTION, 1, 1, sizes=(4, 0))), answer(at))
                               for at in count())


@costly
def replies_of_many_paths(_: int) -> Iterator[Frame]:
    return chain.from_iterable((wrote(1, 1, transaction(BC_TRANSACTION, 1, at, sizes=(4, 0))), answer(at))
                               for at in count())


@costly
def statuses_of_many(_: int) -> Iterator[Frame]:
    return chain.from_iterable((wrote(1, 1, transaction(BC_TRANSACTION, at, 1, sizes=(4, 0))), answer(at, STATUS_CODE))
                               for at in count(1))


def answer(at: int, flags: int = 0) -> Frame:
    return got(1, 1, record(BR_TRANSACTION_COMPLETE),
               transaction(BR_REPLY, flags=flags, sizes=(4, 0), buffer=0x1000 + 16 * at))


# ---- sends and deliveries that may belong together


@costly
def oneway_to_many(_: int) -> Iterator[Frame]:
    return (wrote(1, 1, *(transaction(BC_TRANSACTION, handle, flags=ONE_WAY) for handle in some(at))) for at in count())


@costly
def alike_in_turns(_: int) -> Iterator[Frame]:
    return chain.from_iterable((wrote(1, 1, transaction(BC_TRANSACTION, 1, flags=ONE_WAY, sizes=(4, 0))),
                                delivered(2, at, ONE_WAY, 1)) for at in count())


@costly
def alike_one_after_another(size: int) -> Iterator[Frame]:
    half = size // 2 // 100
    return chain(repeat(wrote(1, 1, transaction(BC_TRANSACTION, 1, flags=ONE_WAY, sizes=(4, 0))), half),
                 (delivered(2, at, ONE_WAY, 0) for at in count()))


@costly
def alike_calls_of_many_threads(size: int) -> Iterator[Frame]:
    half = size // 2 // 100
    return chain((wrote(1, at, transaction(BC_TRANSACTION, 1, sizes=(4, 0))) for at in range(half)),
                 (delivered(at, at, 0, 1) for at in count()))


@costly
def alike_oneway_of_many_threads(size: int) -> Iterator[Frame]:
    half = size // 2 // 100
    return chain((wrote(at % 1000, at, transaction(BC_TRANSACTION, at, flags=ONE_WAY, sizes=(4, 0)))
                  for at in range(half)), (delivered(at, at, ONE_WAY, 0) for at in count()))


def delivered(thread: int, at: int, flags: int, sender: int) -> Frame:
    return got(2, thread, transaction(BR_TRANSACTION, 9, flags=flags, sender=sender, sizes=(4, 0), buffer=16 * at + 16))


# ---- objects and interfaces


@costly
def bad_objects(_: int) -> Iterator[Frame]:
    return repeat(wrote(1, 1, transaction(BC_TRANSACTION, 1, flags=ONE_WAY, sizes=(8, 8)),
                        entry=(entry(0, bytes(8), u64(0)),)))


def of_objects(kind: int, sort: bytes, numbers: range) -> tuple[bytes, bytes]:
    """A oneway transaction with objects of this sort, by their handles or ptrs, and its attachment."""
    body = b"".join(changed(sort, (8, u32(number))) for number in numbers)
    listed = offsets(*range(0, 24 * len(numbers), 24))
    return (transaction(kind, 1, flags=ONE_WAY, sizes=(len(body), len(listed)), buffer=0x1000), entry(0, body, listed))


def of_handles(kind: int, number: int) -> tuple[bytes, bytes]:
    return of_objects(kind, HANDLE, range(number))


@costly
def objects_at_once(size: int) -> Iterator[Frame]:
    """One transaction hands over all objects, each of which another process gets a handle of."""
    sent, sent_entry = of_objects(BC_TRANSACTION, BINDER, range(1, size // 70))
    came, its_entry = of_objects(BR_TRANSACTION, HANDLE, range(1, size // 70))
    yield wrote(1, 1, sent, entry=(sent_entry,))
    yield got(1, 1, record(BR_TRANSACTION_COMPLETE))
    yield got(2, 2, came, entry=(its_entry,))


@costly
def objects(_: int) -> Iterator[Frame]:
    sent, its_entry = of_handles(BC_TRANSACTION, 1024)
    return repeat(wrote(1, 1, sent, entry=(its_entry,)))


@costly
def objects_held(_: int) -> Iterator[Frame]:
    came, its_entry = of_handles(BR_TRANSACTION, 1024)
    return repeat(got(1, 1, came, entry=(its_entry,)))


@costly
def interfaces(_: int) -> Iterator[Frame]:
    return (named(at, f"a.b.I{at:08}") for at in count())


@costly
def one_long_interface(_: int) -> Iterator[Frame]:
    return (named(at, f"a.{'b' * 250}.I") for at in count())


def named(at: int, name: str) -> Frame:
    body = marked(name)
    return wrote(1, 1, transaction(BC_TRANSACTION, at, 1, flags=ONE_WAY, sizes=(len(body), 0)),
                 entry=(entry(0, body, b""),))
