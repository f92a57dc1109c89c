"""A call and all that was made within it, as rows with their own times: for a terminal, and for the page."""

import pathlib
import sqlite3
from typing import Iterator, NamedTuple

from viewer.rules.names import Names

QUERIES = pathlib.Path(__file__).resolve().parents[1] / "page/queries"
TREE, HOLDERS = ((QUERIES / f"{name}.sql").read_text("utf-8") for name in ("call_tree", "queue_holders"))

# The most rows of a tree that are shown, and the most callers that had the threads of a server.
ROWS, CALLERS = 200, 8
# From here on a queue is worth saying who had the threads meanwhile, in nanoseconds.
WORTH = 1_000_000


class Hop(NamedTuple):
    """A row: a call, or what is not known of it. Times are nanoseconds, NULL if the capture has none."""
    level: int
    place: int
    is_unknown: int
    ts: int | None
    since: int | None
    dur: int | None
    queue: int | None
    work: int | None
    below: int | None
    back: int | None
    why: str | None
    is_open: int
    certain: int | None
    client_upid: int
    client_tid: int | None
    main_thread: int | None
    server_upid: int | None
    server_tid: int | None
    server_thread: str | None
    to_upid: int
    to_ptr: int
    code: int
    interface: int | None
    outcome: str

    @property
    def own(self) -> int:
        return self.dur or 0 if self.is_unknown else (self.queue or 0) + (self.work or 0) + (self.back or 0)


class Holder(NamedTuple):
    """What threads were in while a call waited for one: of which caller and method, how often, and for how long."""
    own: int
    oneway: int
    client_upid: int | None
    to_upid: int | None
    to_ptr: int | None
    code: int | None
    n: int
    dur: int
    threads: int


class Stretch(NamedTuple):
    """What a call was in, from when to when."""
    what: str
    begin: int
    end: int


class Part(NamedTuple):
    """A part of the time of the call: whose it is, what it is, and how long."""
    ns: int
    upid: int | None
    hop: Hop
    what: str


def parts_of(hops: list[Hop]) -> Iterator[Part]:
    """The own times of all calls, one by one: queue and work belong to the server, and the way back too."""
    for hop in hops:
        if hop.is_unknown:
            yield Part(hop.dur or 0, hop.server_upid, hop, "unknown")
        else:
            for what, ns in (("queue", hop.queue), ("work", hop.work), ("back", hop.back)):
                if ns:
                    yield Part(ns, hop.server_upid, hop, what)


class Tree:
    """The rows of a call. There is none if the place is not that of a call."""

    def __init__(self, database: sqlite3.Connection, names: Names, place: int):
        self.names = names
        self.hops = [Hop(*row) for row in database.execute(TREE, (place,))]
        self.parts = sorted(parts_of(self.hops), key=lambda part: -part.ns)
        self.holders: dict[int, list[Holder]] = {
            hop.place: [Holder(*row) for row in database.execute(HOLDERS, (hop.place, CALLERS))]
            for hop in self.hops[:ROWS] if not hop.is_unknown and (hop.queue or 0) >= WORTH}

    @property
    def root(self) -> Hop:
        return self.hops[0]

    def stretches(self, at: int) -> list[Stretch]:
        """When a row was in what, since the send of the root, in its order: what was made within it lies over its
        work."""
        hop = self.hops[at]
        begin, end = hop.since or 0, (hop.since or 0) + (hop.dur or 0)
        if hop.is_unknown:
            return []
        got, left = begin + (hop.queue or 0), end - (hop.back or 0)
        known = Stretch("work", got, left) if hop.work else Stretch("unknown", got, left)
        below = [Stretch("below", one.since or 0, (one.since or 0) + (one.dur or 0)) for one in self.within(at)]
        return [Stretch("queue", begin, got), known, *below, Stretch("back", left, end)]

    def within(self, at: int) -> Iterator[Hop]:
        """The calls that the server of a row made within it."""
        level = self.hops[at].level
        for hop in self.hops[at + 1:]:
            if hop.level <= level and hop.place != self.hops[at].place:
                return
            if hop.level == level + 1 and not hop.is_unknown:
                yield hop

    def called(self, hop: Hop) -> str:
        """What a call is called."""
        return self.names.call(hop.code, hop.to_upid, hop.to_ptr, hop.interface) or ""

    def held(self, holder: Holder) -> str:
        """What threads were in."""
        call = self.names.call(holder.code, holder.to_upid, holder.to_ptr) or "a call"
        return f"a call of its own, {call}" if holder.own else f"oneway {call}" if holder.oneway else call
