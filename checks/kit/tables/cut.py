"""What counts of a capture for the raw tables: frames, records and attachment entries up to the first fault.

docs/ENVELOPE.md and docs/COMMANDS.md have the rules, and viewer/database/schema.sql the numbers of kinds and the fields
of raw_record.
"""

from typing import NamedTuple

from checks.kit.second_reading import (NEWER, READ, SORTS, Entry, Fault, Frame, entries_of, number, objects_of,
                                       read_frame, records_of, version_of)

# The kinds of fault, in the order of docs/ENVELOPE.md.
FAULTS = ("HeaderShort", "HeaderMagic", "HeaderProtocol", "HeaderReserved", "FrameShort", "FrameSequence",
          "FrameDirection", "FrameReserved", "FrameLength", "RecordShort", "RecordDirection", "RecordSize",
          "AttachShort", "AttachRecord", "AttachSize")

# Kinds of records, as raw_record numbers them.
SENT_TRANSACTIONS, SENT_REPLIES = (0, 17), (1, 18)
SENT = SENT_TRANSACTIONS + SENT_REPLIES
SEC_CTX = 514
GOT_TRANSACTIONS, GOT_REPLY = (258, SEC_CTX), 259
DELIVERED = (*GOT_TRANSACTIONS, GOT_REPLY)
ATTEMPTS = BC_ATTEMPT_ACQUIRE, BR_ATTEMPT_ACQUIRE = 10, 267
FREE = 3
INCREFS, ACQUIRE, RELEASE, DECREFS = 4, 5, 6, 7
REGISTER_LOOPER, ENTER_LOOPER = 11, 12
TOLD_OF_NODE = BR_INCREFS, BR_ACQUIRE = 263, 264
ERROR_REPLIES = 261, 273, 274
CONFIRMATIONS = 262, 275, 276
FROZEN_BINDER = 277
UNNAMED = {1: 255, READ: 511}

ONE_WAY, STATUS_CODE, UPDATE = 0x01, 0x08, 0x40

# A field of a record: its column, where it begins in the payload, how many bytes it has, and whether it has a sign.
Field = tuple[str, int, int, bool]


def plain(column: str, at: int, size: int) -> Field:
    return column, at, size, False


OF_ALL = (plain("address", 48, 8), plain("code", 16, 4), plain("flags", 20, 4), ("sender_pid", 24, 4, True),
          plain("sender_euid", 28, 4), plain("data_size", 32, 8), plain("offsets_size", 40, 8), plain("offsets", 56, 8))
HANDLE, NODE, EXTRA = plain("handle", 0, 4), (plain("ptr", 0, 8), plain("cookie", 8, 8)), plain("extra", 64, 8)
COOKIE, HANDLE_AND_COOKIE = plain("cookie", 0, 8), (HANDLE, plain("cookie", 4, 8))
SIGNED = "value", 0, 4, True

FIELDS: dict[int, tuple[Field, ...]] = {
    0: (HANDLE, *OF_ALL), 17: (HANDLE, *OF_ALL, EXTRA), 1: OF_ALL, 18: (*OF_ALL, EXTRA),
    258: (*NODE, *OF_ALL), SEC_CTX: (*NODE, *OF_ALL, EXTRA), GOT_REPLY: OF_ALL,
    **dict.fromkeys((INCREFS, ACQUIRE, RELEASE, DECREFS), (HANDLE,)),
    **dict.fromkeys((8, 9, 263, 264, 265, 266), NODE),
    **dict.fromkeys((14, 15, 19, 20), HANDLE_AND_COOKIE),
    **dict.fromkeys((16, 21, 271, 272, 278), (COOKIE,)),
    FREE: (plain("address", 0, 8),),
    FROZEN_BINDER: (COOKIE, plain("value", 8, 4)),
    **dict.fromkeys((256, 2, 260), (SIGNED,)),
    BC_ATTEMPT_ACQUIRE: (SIGNED, plain("handle", 4, 4)),
    BR_ATTEMPT_ACQUIRE: (SIGNED, plain("ptr", 8, 8), plain("cookie", 16, 8)),
}

# The fields of an object, by the first letters of its sort.
FLAGS, AS_COOKIE = plain("flags", 4, 4), plain("cookie", 16, 8)
OF_BINDER, OF_HANDLE = (FLAGS, plain("binder", 8, 8), AS_COOKIE), (FLAGS, plain("handle", 8, 4), AS_COOKIE)
OBJECT_FIELDS: dict[str, tuple[Field, ...]] = {
    "binder": OF_BINDER, "weak_binder": OF_BINDER, "handle": OF_HANDLE, "weak_handle": OF_HANDLE,
    "fd": (plain("fd", 8, 4), AS_COOKIE),
    "ptr": (FLAGS, plain("buffer", 8, 8), plain("length", 16, 8), plain("parent", 24, 8),
            plain("parent_offset", 32, 8)),
    "fda": (plain("num_fds", 8, 8), plain("parent", 16, 8), plain("parent_offset", 24, 8)),
}


def read_fields(fields: tuple[Field, ...], data: bytes, begin: int = 0) -> dict[str, int]:
    return {column: int.from_bytes(data[begin + at:begin + at + size], "little", signed=signed)
            for column, at, size, signed in fields}


class Object(NamedTuple):
    """A good object of an attachment. `number` is its index in the list of offsets."""
    number: int
    offset: int
    name: str
    sort: int
    length: int
    fields: dict[str, int]


class Record:
    """A record that counts. `entry` is its attachment entry, and `attachment` the place of that, if it has one that
    counts; `good` are the good objects, and `bad` is index, offset and cause of a bad one."""

    def __init__(self, place: int, frame: Frame, word: int, kind: int, payload: bytes) -> None:
        self.place, self.frame, self.word, self.kind = place, frame, word, kind
        self.fields = read_fields(FIELDS.get(kind, ()), payload)
        self.entry: Entry | None = None
        self.attachment: int | None = None
        self.good: list[Object] = []
        self.bad: tuple[int, int, str] | None = None

    def attach(self, entry: Entry, place: int) -> None:
        self.entry, self.attachment = entry, place
        good, self.bad = objects_of(entry)
        for index, (name, offset) in enumerate(good):
            sort = number(entry.body, offset, 4)
            self.good.append(Object(index, offset, name, sort, SORTS[sort][1],
                                    read_fields(OBJECT_FIELDS[name], entry.body, offset)))

    @property
    def seq(self) -> int:
        return self.frame.sequence

    @property
    def oneway(self) -> bool:
        return self.fields["flags"] & ONE_WAY != 0

    def references(self) -> list[tuple[str, int]]:
        """The good HANDLE and WEAK_HANDLE objects, in order: of each its name and its handle."""
        return [(it.name, it.fields["handle"]) for it in self.good if it.name in ("handle", "weak_handle")]


class Cut(NamedTuple):
    """What counts of a capture. The places are those of the joined capture; the fault is its kind, its place in its
    file, and the number of this file. `bytes` is the length up to there."""
    frames: list[Frame]
    records: list[list[Record]]  # of each frame
    bytes: int
    fault: tuple[str, int, int] | None


def kind_number(code: int, name: str, direction: int) -> int:
    """The kind in raw_record of a record with this code word and name."""
    if name == "OPAQUE" and code not in NEWER:
        return UNNAMED[direction]
    return SEC_CTX if name == "BR_TRANSACTION_SEC_CTX" else (code & 0xFF) + 256 * (direction == READ)


def read_contents(frame: Frame, records: list[Record]) -> None:
    """Adds the records of a frame, and gives them their attachment entries, up to a fault."""
    told = []
    for one in records_of(frame):
        told.append(one)
        kind = kind_number(one.code, one.kind, frame.direction)
        records.append(Record(frame.place + 32 + one.offset, frame, one.code, kind, one.payload))
    owners = {one.offset: record for one, record in zip(told, records)}
    for offset, place, entry in entries_of(frame, told):
        owners[offset].attach(entry, place)


def read_part(part: bytes, base: int, frames: list[Frame], records: list[list[Record]]) -> None:
    """Adds the frames of a file, whose places are `base` more in the joined capture, up to a fault."""
    version, place = version_of(part), 16
    while place < len(part):
        one = read_frame(part, version, place, frames[-1] if frames else None)
        frames.append(one._replace(place=base + place))
        records.append([])
        read_contents(frames[-1], records[-1])
        place += 32 + len(one.commands) + len(one.attachments)


def cut_of(parts: list[bytes]) -> Cut:
    """What counts of a capture in these files."""
    frames: list[Frame] = []
    records: list[list[Record]] = []
    base = 0
    for count, part in enumerate(parts, 1):
        try:
            read_part(part, base, frames, records)
        except Fault as fault:
            kind, place = fault.args
            # The reader of a frame's header names the place in the file, that of its contents the joined one.
            inside = kind.startswith(("Record", "Attach"))
            return Cut(frames, records, place if inside else base + place,
                       (kind, place - base if inside else place, count))
        base += len(part) - 16
    return Cut(frames, records, base + 16, None)
