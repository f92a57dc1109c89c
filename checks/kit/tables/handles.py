"""The generations of handles: what raw_generation says in viewer/database/schema.sql."""

from checks.kit.tables.cut import ACQUIRE, DECREFS, DELIVERED, INCREFS, RELEASE, Record

COUNTED = {ACQUIRE: "acquired", RELEASE: "released", INCREFS: "increfs", DECREFS: "decrefs"}


class Generation:
    """A span in which a handle of a process means one object. `process` is its upid, and `missing` how many frames are
    missing before its begin."""

    def __init__(self, process: int, handle: int, n: int, begin: Record, missing: int) -> None:
        self.process, self.handle, self.n, self.begin, self.missing = process, handle, n, begin, missing
        self.id = 0
        self.end: Record | None = None
        self.given_by: Record | None = None
        self.held_since: Record | None = None
        self.counts = dict.fromkeys(COUNTED.values(), 0)
        self.strong = self.weak = 0
        self.held = {"handle": 0, "weak_handle": 0}

    def take(self, record: Record) -> int:
        """A BC_ACQUIRE, BC_RELEASE, BC_INCREFS or BC_DECREFS of the handle. Returns by how much strong rises."""
        self.counts[COUNTED[record.kind]] += 1
        strong = self.strong
        if record.kind == ACQUIRE:
            if strong == 0:
                self.held_since = record
            self.strong += 1
        elif record.kind == RELEASE:
            self.strong = max(0, strong - 1)
        else:
            self.weak = max(0, self.weak + (1 if record.kind == INCREFS else -1))
        if record.kind in (RELEASE, DECREFS):
            self.end_if_empty(record)
        return self.strong - strong

    def end_if_empty(self, record: Record) -> None:
        """Ends it at a record that lets go of a reference."""
        if self.handle and self.end is None and not any((self.strong, self.weak, *self.held.values())):
            self.end = record

    def overlaps(self, other: "Generation") -> bool:
        """Whether each begins before the other one ends."""
        return all(one.end is None or two.begin.place < one.end.place for one, two in ((self, other), (other, self)))


class Handles:
    """The generations of the handles of a process. Each new one is added to `made`."""

    def __init__(self, process: int, made: list[Generation]) -> None:
        self.process, self.made = process, made
        self.latest: dict[int, Generation] = {}

    def named_by(self, record: Record, handle: int, missing: int) -> Generation:
        """The generation of a handle that a record names."""
        latest = self.latest.get(handle)
        if latest is None or latest.end is not None and record.kind in (ACQUIRE, INCREFS, *DELIVERED):
            self.latest[handle] = Generation(self.process, handle, latest.n + 1 if latest else 1, record, missing)
            self.made.append(self.latest[handle])
        return self.latest[handle]
