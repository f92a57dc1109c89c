"""What the lines of `record --live` say; docs/RECORD.md explains them. They may come from a device that means harm,
so a line that is none is passed over, and no more of a sort are taken than a recorder writes."""

import re
from typing import NamedTuple

MARK = b"\x1e"  # before each line for a program
MOST_ROWS = 1000  # of a sort
LONGEST = 300  # the most characters of a name

Fields = dict[str, str]


class Rate(NamedTuple):
    """Calls of one code from one process to another, in the last second and in all."""

    is_oneway: bool
    times: int
    all: int
    sender: int
    receiver: int
    code: int
    interface: str
    sender_name: str
    receiver_name: str


class Open(NamedTuple):
    """A call that has been open for long, and who has it; or for whom it is, if nobody has it."""

    seconds: float
    process: int
    thread: int
    handle: int
    code: int
    interface: str
    name: str
    thread_name: str
    in_process: int  # 0: nobody has it
    in_thread: int
    waits: str  # `answer`, a function of the kernel, or `-`
    in_name: str
    in_thread_name: str
    receiver: int  # 0: not known
    receiver_name: str


class Pool(NamedTuple):
    process: int
    serving: int
    threads: int
    waiting: int
    full: float  # seconds since which all serve
    name: str


class Async(NamedTuple):
    process: int
    calls: int
    bytes: int
    name: str


class Head(NamedTuple):
    time: float
    seconds: float
    calls: int
    oneways: int
    refused: int
    lost: int
    lost_in_all: int
    bytes: int  # to the disk, a second
    reach: str  # seconds, or `-`
    unknown: int  # oneways that nobody took, for somebody who is not known


class Picture(NamedTuple):
    """What goes on in a second."""

    head: Head
    rates: list[Rate]
    open: list[Open]
    pools: list[Pool]
    asyncs: list[Async]
    totals: dict[str, int]  # how many there are of each sort, also of those that are left out


def text_of(word: str) -> str:
    """A name: bytes that are no UTF-8 stay as they are written."""
    data = re.sub(rb"\\x([0-9a-f]{2})", lambda found: bytes([int(found[1], 16)]), word.encode())
    return data.decode("utf-8", "backslashreplace")[:LONGEST]


def number(fields: Fields, name: str) -> int:
    """At most 20 digits: Python is slow with very long ones."""
    found = re.fullmatch("[0-9]{1,20}", fields.get(name, "0"))
    if not found:
        raise ValueError(name)
    return int(found[0])


def seconds(fields: Fields, name: str) -> float:
    found = re.fullmatch(r"[0-9]{1,15}(\.[0-9]{1,9})?", fields.get(name, "0"))
    if not found:
        raise ValueError(name)
    return float(found[0])


def name(fields: Fields, key: str) -> str:
    return text_of(fields.get(key, "-"))


def rate_of(kind: str, fields: Fields) -> Rate:
    return Rate(kind == "oneway", number(fields, "n"), number(fields, "all"), number(fields, "from"),
                number(fields, "to"), number(fields, "code"), name(fields, "interface"), name(fields, "from-name"),
                name(fields, "to-name"))


def open_of(fields: Fields) -> Open:
    return Open(seconds(fields, "seconds"), number(fields, "from"), number(fields, "thread"),
                number(fields, "handle"), number(fields, "code"), name(fields, "interface"),
                name(fields, "from-name"), name(fields, "thread-name"), number(fields, "in"),
                number(fields, "in-thread"), name(fields, "waits"), name(fields, "in-name"),
                name(fields, "in-thread-name"), number(fields, "for"), name(fields, "for-name"))


def head_of(fields: Fields) -> Head:
    return Head(seconds(fields, "time"), seconds(fields, "seconds") or 1.0, number(fields, "calls"),
                number(fields, "oneways"), number(fields, "refused"), number(fields, "lost"),
                number(fields, "lost-in-all"), number(fields, "bytes"), name(fields, "reach"),
                number(fields, "unknown-oneways"))


class Reader:
    """Puts pictures together."""

    def __init__(self) -> None:
        self.picture: Picture | None = None  # that is not whole

    def take(self, line: str) -> Picture | None:
        """Takes a line. Returns the picture that it ends."""
        kind, *words = line.split(" ")
        fields = dict(word.split("=", 1) for word in words if "=" in word)
        try:
            return self.take_fields(kind, fields)
        except ValueError:
            return None

    def take_fields(self, kind: str, fields: Fields) -> Picture | None:
        if kind == "live":
            self.picture = Picture(head_of(fields), [], [], [], [], {})
        made = self.picture
        if not made:
            return None
        if kind == "end":
            self.picture = None
            return made._replace(totals={sort: number(fields, sort) for sort in ("rates", "open", "pools", "async")})
        if kind in ("call", "oneway") and len(made.rates) < MOST_ROWS:
            made.rates.append(rate_of(kind, fields))
        elif kind == "open" and len(made.open) < MOST_ROWS:
            made.open.append(open_of(fields))
        elif kind == "pool" and len(made.pools) < MOST_ROWS:
            made.pools.append(Pool(number(fields, "process"), number(fields, "serving"), number(fields, "of"),
                                   number(fields, "waiting"), seconds(fields, "full"), name(fields, "name")))
        elif kind == "async" and len(made.asyncs) < MOST_ROWS:
            made.asyncs.append(Async(number(fields, "process"), number(fields, "n"), number(fields, "bytes"),
                                     name(fields, "name")))
        return None
