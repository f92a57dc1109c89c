"""A slow second reading of the stream of rows that binder_tables writes with --lines, by the same rules as the tables.

viewer/lines prints it. A row is one of the files of tables, but that the highest byte of its mask is its sort.
"""

import struct
from itertools import chain
from typing import Iterable, Iterator, Sequence

from checks.kit.rows import Value, encoded_row
from checks.kit.second_reading import Frame
from checks.kit.tables.calls import Thread
from checks.kit.tables.cut import FAULTS, GOT_TRANSACTIONS, SENT_TRANSACTIONS, Cut, Record, cut_of
from checks.kit.tables.reading import names_of, numbered, object_rows, record_row

THREAD, INTERFACE, RECORD, OBJECT, WHOLE, SERVICE, MISSING, ENDING = range(1, 9)
SORT_BIT = 56
FRAME_HEADER, CODE_WORD, ENTRY_HEADER = 32, 4, 12
# Columns that are texts.
TEXTS = {INTERFACE: (1,), SERVICE: (1,), WHOLE: (4, 8)}


class Spans:
    """Where frames, records and their attachments are."""

    @staticmethod
    def of_frame(it: Frame) -> range:
        return range(it.place, it.place + FRAME_HEADER + len(it.commands) + len(it.attachments))

    @staticmethod
    def of_record(it: Record) -> range:
        return range(it.place, it.place + CODE_WORD + (it.word >> 16 & 0x3FFF))

    @staticmethod
    def of_entry(it: Record) -> range:
        if it.entry is None or it.attachment is None:
            return range(0)
        return range(it.attachment, it.attachment + ENTRY_HEADER + len(it.entry.body) + len(it.entry.listed))


def covers(it: Record, place: int) -> bool:
    return place in Spans.of_record(it) or place in Spans.of_entry(it)


def is_opener(it: Record) -> bool:
    return it.kind in SENT_TRANSACTIONS + GOT_TRANSACTIONS and not it.oneway


class Sought:
    """The records that are sought, and the places at which nothing is."""

    def __init__(self, cut: Cut, what: str | None, places: list[int]) -> None:
        self.missing = list(places) if what else []
        self.records = list({None: self.all_of, "--at": self.at, "--frame": self.of_frames,
                             "--call": self.of_calls}[what](cut))

    def all_of(self, cut: Cut) -> Iterator[Record]:
        yield from chain.from_iterable(cut.records)

    def take(self, found: list[int]) -> bool:
        self.missing = [place for place in self.missing if place not in found]
        return bool(found)

    def at(self, cut: Cut) -> Iterator[Record]:
        asked = list(self.missing)
        for it in self.all_of(cut):
            if self.take([place for place in asked if covers(it, place)]):
                yield it

    def of_frames(self, cut: Cut) -> Iterator[Record]:
        asked = list(self.missing)
        for frame, records in zip(cut.frames, cut.records):
            if self.take([place for place in asked if place in Spans.of_frame(frame)]):
                yield from records

    def of_calls(self, cut: Cut) -> Iterator[Record]:
        """The records of a thread from the opener of a call to its closer. What is followed is the calls of the thread
        since the opener, the opener first."""
        followed: list[tuple[tuple, Thread]] = []
        for it in self.all_of(cut):
            thread = it.frame.process, it.frame.thread
            if is_opener(it) and self.take([place for place in self.missing if covers(it, place)]):
                followed.append((thread, Thread()))
            of_thread = [calls for owner, calls in followed if owner == thread]
            for calls in of_thread:
                calls.take(it)
            followed = [(owner, calls) for owner, calls in followed if calls.open]
            if of_thread:
                yield it


class Stream:
    """The rows of a capture in these files. Threads and names have the numbers that they have in the tables; of what is
    sought by places, they are numbered as they come."""

    def __init__(self, parts: list[bytes]) -> None:
        self.parts, self.cut = len(parts), cut_of(parts)
        # A joined capture has one file header.
        self.joined = parts[0] + b"".join(part[16:] for part in parts[1:])
        self.threads: dict[tuple, int] = {}
        self.interfaces: dict[str, int] = {}
        self.services: dict[str, int] = {}
        self.made = bytearray()
        for frame in self.cut.frames:
            self.threads.setdefault((frame.process, frame.thread), len(self.threads) + 1)
        for it in chain.from_iterable(self.cut.records):
            interface, service = names_of(it)
            numbered(self.interfaces, interface)
            numbered(self.services, service)
        self.told: set[tuple[int, int]] = set()

    def write(self, sort: int, row: Sequence[Value]) -> None:
        self.made += encoded_row(row, sort << SORT_BIT)

    def tell(self, sort: int, row: Sequence[Value]) -> None:
        """A row about records that follow, once."""
        number = row[0]
        assert isinstance(number, int)
        if (sort, number) not in self.told:
            self.told.add((sort, number))
            self.write(sort, row)

    def tell_thread(self, frame: Frame) -> int:
        utid = self.threads.setdefault((frame.process, frame.thread), len(self.threads) + 1)
        self.tell(THREAD, [utid, *frame.process, frame.thread])
        return utid

    def write_record(self, it: Record) -> None:
        utid, (interface, service) = self.tell_thread(it.frame), names_of(it)
        for sort, name, numbers in ((INTERFACE, interface, self.interfaces), (SERVICE, service, self.services)):
            if name is not None:
                self.tell(sort, [numbered(numbers, name), name])
        self.write(RECORD, record_row(it, utid, numbered(self.interfaces, interface), numbered(self.services, service)))

    def write_whole(self, it: Record) -> None:
        frame = it.frame
        row: list[Value] = [frame.place, frame.direction, len(frame.commands), len(frame.attachments),
                            self.bytes_at(Spans.of_record(it))]
        if it.entry is not None:
            row += [it.attachment, len(it.entry.body), len(it.entry.listed), self.bytes_at(Spans.of_entry(it))]
        self.write(WHOLE, row)

    def bytes_at(self, span: range) -> bytes:
        return self.joined[span.start:span.stop]

    def of(self, has_objects: bool, what: str | None, places: list[int]) -> bytes:
        sought = Sought(self.cut, what, places)
        frames: Iterable[tuple[Frame, list[Record]]] = zip(self.cut.frames, self.cut.records)
        if what:
            frames = [(it.frame, [it]) for it in sought.records]
            self.threads, self.interfaces, self.services = {}, {}, {}
        for frame, records in frames:
            self.tell_thread(frame)
            for it in records:
                self.write_record(it)
                if what == "--at":
                    self.write_whole(it)
                for row in object_rows(it) if has_objects or what == "--at" else ():
                    self.write(OBJECT, row)
        kind, *where = self.cut.fault or (None, None, None)
        for place in () if kind else sought.missing:
            self.write(MISSING, [place])
        status = 2 if kind else int(bool(sought.missing))
        self.write(ENDING, [kind and FAULTS.index(kind) + 1, *where, self.parts, status])
        return bytes(self.made)


def stream_of(parts: list[bytes], has_objects: bool = False, what: str | None = None, places: list[int] | None = None
              ) -> bytes:
    """The stream of a capture in these files. `what` is --at, --frame or --call, if something is sought by places."""
    return Stream(parts).of(has_objects, what, places or [])


def split(stream: bytes) -> list[bytes]:
    """The rows of a stream."""
    rows, begin = [], 0
    while begin < len(stream):
        mask, = struct.unpack_from("<Q", stream, begin)
        at = begin + 8
        for column in range(SORT_BIT):
            if mask >> column & 1:
                length, = struct.unpack_from("<Q", stream, at)
                at += 8 + length * (column in TEXTS.get(mask >> SORT_BIT, ()))
        rows.append(stream[begin:at])
        begin = at
    return rows
