"""What a timeline has, whatever its format: a reader takes event by event, in the order of the file."""

import sqlite3
from collections import defaultdict
from typing import Hashable

from checks.kit.checking import Fail, compare

Track = Hashable


class Slice:
    """A slice: its track, its beginning and its arguments; later its end and what it is in."""

    def __init__(self, track: Track, begin: int, cat: str, name: str, args: dict, outer: "Slice | None"):
        self.track, self.begin, self.cat, self.name, self.args = track, begin, cat, name, dict(args)
        self.end, self.outer, self.last_within = -1, outer, begin


class Instant:
    def __init__(self, track: Track, cat: str, name: str, args: dict):
        self.track, self.cat, self.name, self.args = track, cat, name, args


class Queue:
    """How long a oneway transaction waited."""

    def __init__(self, track: Track, begin: int, args: dict):
        self.track, self.begin, self.args, self.end = track, begin, args, -1


class Read:
    """A timeline. Times are in nanoseconds; counters are those of a process of the database."""

    def __init__(self, database: sqlite3.Connection, fail: Fail, whole: bool = True):
        self.database, self.fail, self.whole = database, fail, whole
        self.told: dict[str, object] = {}
        self.shift = 0  # how much later its times are than those of the side list
        self.slices: list[Slice] = []
        # The slices at the two ends of each flow between a send and its delivery, and those of each other one.
        self.flows: dict[int, list[Slice | Instant | None]] = defaultdict(list)
        self.links: dict[int, list[Instant]] = defaultdict(list)
        self.last: dict[tuple[int, str], int] = {}
        self.most: dict[tuple[int, str], int] = defaultdict(int)
        self.instants: list[Instant] = []
        self.queues: dict[int, Queue] = {}
        self.stacks: dict[Track, list[Slice]] = defaultdict(list)
        self.owner = {place: (upid, utid) for place, upid, utid in
                      database.execute("SELECT place, upid, utid FROM record")}
        self.counted = 0

    def begin(self, track: Track, ns: int, cat: str, name: str, args: dict) -> Slice:
        stack = self.stacks[track]
        made = Slice(track, ns, cat, name, args, stack[-1] if stack else None)
        if stack and made.begin < stack[-1].begin:
            self.fail(f"a slice begins before the one around it: {args}")
        stack.append(made)
        self.slices.append(made)
        return made

    def finish(self, track: Track, ns: int, args: dict) -> Slice | None:
        stack = self.stacks[track]
        if not stack:
            self.fail(f"an end without a begin on {track} at {ns}")
            return None
        ended = stack.pop()
        ended.end = ns
        ended.args.update(args)
        if ended.end < ended.last_within:
            self.fail(f"a slice ends before it begins, or before one within it: {ended.args}")
        if ended.outer:
            ended.outer.last_within = max(ended.outer.last_within, ns)
        return ended

    def queue(self, track: Track, ns: int, args: dict) -> Queue:
        if args["place"] in self.queues:
            self.fail(f"a queue twice: {args}")
        made = self.queues[args["place"]] = Queue(track, ns, args)
        return made

    def end_of_file(self) -> None:
        compare("slices without an end", [s.args for stack in self.stacks.values() for s in stack], [], self.fail)

    # -- counters

    def within(self, upid: int, cats: tuple[str, ...]) -> list[int]:
        """The threads that are in a slice of these categories and not only in a send, one for each slice."""
        found = []
        for stack in self.stacks.values():
            for one in stack:
                owner = self.owner.get(one.args.get("place", -1))
                if owner is not None and owner[0] == upid and one.cat in cats and not one.name.startswith("send"):
                    found.append(owner[1])
        return found

    def count(self, upid: int, name: str, value: int) -> None:
        self.counted += 1
        if name == "threads" and self.whole:
            compare(f"busy threads of {upid}", value, len(set(self.within(upid, ("served", "oneway")))), self.fail)
        if name == "calls" and self.whole:
            compare(f"calls of {upid}", value, len(self.within(upid, ("call",))), self.fail)
        self.last[upid, name] = value
        self.most[upid, name] = max(self.most[upid, name], value)
