"""The driver's books, as the kernels 6.1 to 7.2 write them: `state` and `stats`, of a binderfs or of debugfs.

The driver in Rust, which 7.2 has, writes other lines than the one in C. Where the kernel has both, a book has first
what the one in C writes, and then what the one in Rust writes."""

import re
from collections import Counter
from typing import Iterator, NamedTuple, TypeVar

# Each form of a line is compiled by `re` when it is needed first: a recording may have none.
TRANSACTION = (
    r"(outgoing|incoming|bad|pending|pending async) transaction (\d+): \S+ from (-?\d+):(-?\d+) to (-?\d+):(-?\d+)"
    r"(?: context \S+)? code ([0-9a-f]+) flags ([0-9a-f]+)(?: .*?\b(a\d+ )?r(\d+))?(?:.* node (\d+) )?")
NODE = r"node (\d+): u([0-9a-f]+) c([0-9a-f]+) (?:pri \d+:\d+ )?hs (\d+) hw (\d+) ls (-?\d+) lw (-?\d+)"
REF = r"ref \d+: desc (\d+) (dead )?node (\d+) s (-?\d+) w (-?\d+) d ([0-9a-f]+|\(____ptrval____\))"
BUFFER = r"buffer (\d+): ([0-9a-f]+) size (\d+):(\d+):(\d+) (active|delivered)"
TF_ONE_WAY = 1
# Bits of a thread, in hexadecimal digits: it said that it is a looper, as the driver asked for or by itself; and that
# it is none any more.
THREAD = r"  thread (\d+):(?: l ([0-9a-f]+))?"
IS_LOOPER, HAS_LEFT = 0x01 | 0x02, 0x04

# Lines of the driver in Rust. It ends no line of a handle: the next one, or what comes after the handles, is on the
# same line. A buffer has no number, but its place in the mapping, in decimal digits, and its data, offsets and the rest
# together. It is reserved until its receiver has read of it.
RUST_TRANSACTION = (
    r"(outgoing|incoming|bad|pending|pending async) transaction (\d+): from (-?\d+):(-?\d+) to (-?\d+)"
    r" code ([0-9a-f]+) flags ([0-9a-f]+) elapsed \d+ms(?: node (\d+))? size")
RUST_NODE = r"node (\d+): u([0-9a-f]+) c([0-9a-f]+) hs (true|false) hw (true|false) cs \d+ cw \d+"
RUST_REF = r"ref \d+: desc (\d+) (dead )?node (\d+) s (-?\d+) w (-?\d+)(?!\d| d )"
NEXT_RUST_REF = rf"\s*{RUST_REF}"
RUST_BUFFER = (
    r"buffer(?: \d+)?: (\d+) size (\d+) pid -?\d+(?: oneway(?: true| false)?)? (reserved|allocated)")
RUST_LINE = "(?m:%s)" % "|".join((
    r"thread \d+: l \w+ need_return (?:true|false)$", RUST_TRANSACTION, RUST_NODE, RUST_REF, RUST_BUFFER))


class Transaction(NamedTuple):
    """A transaction: its number, the thread that has it, and the number of its node, 0 if none is named. A reply that
    waits for its reader `is_reply`. The driver begins with what a thread made or got last: `above` are so many."""
    number: int
    thread: int
    code: int
    flags: int
    node: int
    is_reply: bool
    above: int


class Handle(NamedTuple):
    """What a process holds by a handle, and the number of the node."""
    strong: int
    weak: int
    node: int
    is_dead: bool


class Buffer(NamedTuple):
    """A buffer: its address, or in newer kernels where it is in the mapping, and the sizes of data and offsets, which
    the driver in Rust does not tell."""
    address: int
    data: int | None
    offsets: int | None


class Opening:
    """One opening of a device, as the state of the driver in C shows it."""

    driver = "C"

    def __init__(self, pid: int):
        self.pid, self.context = pid, ""
        self.refs: dict[int, Handle] = {}
        self.requests: set[int] = set()
        self.nodes: dict[tuple[int, int], tuple[int, int, int | None, int | None]] = {}
        self.node_numbers: dict[tuple[int, int], int] = {}
        self.areas: dict[int, Buffer] = {}
        self.active: set[int] = set()
        self.outgoing: list[Transaction] = []
        self.incoming: list[Transaction] = []
        self.pending: list[Transaction] = []
        self.errors: Counter[int] = Counter()
        self.calls: Counter[int] = Counter()
        self.loopers = 0
        self.deaths = self.clears = self.cleared_and_dead = 0
        self.freezes = self.freeze_clears = 0

    @property
    def handles(self) -> dict[int, tuple[int, int]]:
        """The strong and weak references of each handle."""
        return {handle: (ref.strong, ref.weak) for handle, ref in self.refs.items()}

    @property
    def unread(self) -> set[int]:
        """The numbers of the buffers that were on their way, and of all else that was. An active buffer has a
        transaction. If no thread serves that, and it does not wait, it was sent while the driver wrote the book, which
        has what waits at the nodes before the buffers."""
        return {item.number for item in self.pending} | self.active - {item.number for item in self.incoming}

    def is_requested(self, handle: int) -> bool | None:
        """Whether the death of the handle is asked for, as far as the driver tells."""
        return handle in self.requests

    def take_thread(self, bits: int) -> None:
        self.loopers += bool(bits & IS_LOOPER) and not bits & HAS_LEFT

    def take_line(self, line: str, thread: int) -> None:
        self.take(line, thread)

    def take(self, line: str, thread: int) -> None:
        word = line.strip()
        if found := re.match(TRANSACTION, word):
            self.take_transaction(found, thread)
        elif found := re.match(NODE, word):
            node = int(found[2], 16), int(found[3], 16)
            self.nodes[node] = int(found[4]), int(found[5]), int(found[6]), int(found[7])
            self.node_numbers[node] = int(found[1])
        elif found := re.match(REF, word):
            self.refs[int(found[1])] = Handle(int(found[4]), int(found[5]), int(found[3]), found[2] is not None)
            if found[6].strip("0"):
                self.requests.add(int(found[1]))
        elif found := re.match(BUFFER, word):
            self.areas[int(found[1])] = Buffer(int(found[2], 16), int(found[3]), int(found[4]))
            if found[6] == "active":
                self.active.add(int(found[1]))
        elif word.startswith("transaction error: "):
            self.errors[thread] += 1
        elif word == "has delivered dead binder":
            self.deaths += 1
        elif word == "has cleared death notification":
            self.clears += 1
        elif word == "has cleared dead binder":
            self.cleared_and_dead += 1
        elif word == "has delivered freeze binder":
            self.freezes += 1
        elif word == "has cleared freeze notification":
            self.freeze_clears += 1

    def take_transaction(self, found: re.Match[str], thread: int) -> None:
        kind, flags = found[1], int(found[8], 16)
        # `r` says whether a reply is needed; after `a`, in newer kernels, whether this is one.
        is_reply = kind == "pending" and found[10] == ("1" if found[9] else "0") and not flags & TF_ONE_WAY
        self.add(kind, int(found[2]), thread, int(found[7], 16), flags, int(found[11] or 0), is_reply)

    def add(self, kind: str, number: int, thread: int, code: int, flags: int, node: int, is_reply: bool) -> None:
        item = Transaction(number, thread, code, flags, node, is_reply, self.calls[thread])
        lists = {"outgoing": self.outgoing, "incoming": self.incoming}
        self.calls[thread] += kind in lists
        lists.get(kind, self.pending).append(item)


class RustOpening(Opening):
    """One opening of a device, as the state of the driver in Rust shows it."""

    driver = "Rust"

    def __init__(self, pid: int):
        super().__init__(pid)
        self.reserved: set[int] = set()

    @property
    def unread(self) -> set[int]:
        return self.reserved

    def is_requested(self, handle: int) -> bool | None:
        return None

    def take_line(self, line: str, thread: int) -> None:
        at = 0
        while found := re.compile(NEXT_RUST_REF).match(line, at):
            self.refs[int(found[1])] = Handle(int(found[4]), int(found[5]), int(found[3]), found[2] is not None)
            at = found.end()
        self.take(line[at:], thread)

    def take(self, line: str, thread: int) -> None:
        word = line.strip()
        if found := re.match(RUST_TRANSACTION, word):
            # Only a call, or a oneway send, has a node.
            flags = int(found[7], 16)
            self.add(found[1], int(found[2]), thread, int(found[6], 16), flags, int(found[8] or 0),
                     found[1] == "pending" and found[8] is None and not flags & TF_ONE_WAY)
        elif found := re.match(RUST_NODE, word):
            node = int(found[2], 16), int(found[3], 16)
            self.nodes[node] = int(found[4] == "true"), int(found[5] == "true"), None, None
            self.node_numbers[node] = int(found[1])
        elif found := re.match(RUST_BUFFER, word):
            place = int(found[1])
            self.areas[place] = Buffer(place, None, None)
            if found[3] == "reserved":
                self.reserved.add(place)
        else:
            super().take(line, thread)


class Counts(NamedTuple):
    """What the book `stats` says of an opening: how often it wrote and read what; how many threads the driver has asked
    it for that have not come, how many have come, and for how many it may ask in all; and how many bytes of its space
    for oneway sends are free, None before the device is mapped."""
    driver: str
    pid: int
    context: str
    codes: Counter[str]
    requested: int
    started: int
    most: int
    oneway_free: int | None


RUST_STATS = r"(?m:^  (?:free oneway space|outstanding transactions): )"


def sections_of(text: str, name: str, of_rust: str) -> Iterator[tuple[str, str]]:
    """What each driver wrote of a book, with the driver."""
    for section in re.split(rf"^binder {name}:\n", text, flags=re.M):
        if section:
            yield "Rust" if re.search(of_rust, section) else "C", section


Listed = TypeVar("Listed")


def latest_first(driver: str, openings: list[Listed]) -> list[Listed]:
    """The driver in C lists the latest opening first, and the one in Rust the latest of a device last."""
    return openings[::-1] if driver == "Rust" else openings


def state(text: str) -> list[Opening]:
    """The openings, of each process the latest first."""
    return [opening for driver, section in sections_of(text, "state", RUST_LINE)
            for opening in latest_first(driver, openings_of(driver, section))]


def openings_of(driver: str, section: str) -> list[Opening]:
    openings: list[Opening] = []
    thread = 0
    for line in section.splitlines():
        if found := re.match(r"proc (\d+)$", line):
            openings.append((RustOpening if driver == "Rust" else Opening)(int(found[1])))
            thread = 0
        elif not openings:
            continue
        elif found := re.match(r"context (\S+)$", line):
            openings[-1].context = found[1]
        else:
            if found := re.match(THREAD, line):
                thread = int(found[1])
                openings[-1].take_thread(int(found[2] or "0", 16))
            openings[-1].take_line(line, thread)
    return openings


def stats(text: str) -> tuple[Counter[str], list[Counts]]:
    """The counts of commands and returns of all openings, also of those that were closed; and what is said of each
    opening, of each process the latest first."""
    whole: Counter[str] = Counter()
    openings: list[Counts] = []
    for driver, section in sections_of(text, "stats", RUST_STATS):
        before, *parts = re.split(r"^proc (?=\d+$)", section, flags=re.M)
        whole.update(codes_of(before))
        openings += latest_first(driver, [counts_of(driver, part) for part in parts])
    return whole, openings


def codes_of(part: str) -> Counter[str]:
    return Counter({name: int(count) for name, count in re.findall(r"^ *(B[CR]_\w+): (\d+)$", part, re.M)})


def counts_of(driver: str, part: str) -> Counts:
    context = re.search(r"^context (\S+)$", part, re.M)
    threads = re.search(r"^  requested threads: (\d+)\+(\d+)/(\d+)$", part, re.M)
    oneway = re.search(r"^  free (?:async space|oneway space:) (\d+)$", part, re.M)
    requested, started, most = map(int, threads.groups()) if threads else (0, 0, 0)
    return Counts(driver, int(part.split("\n", 1)[0]), context[1] if context else "", codes_of(part), requested,
                  started, most, int(oneway[1]) if oneway else None)
