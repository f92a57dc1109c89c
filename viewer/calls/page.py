"""What the page shows of times: methods, who talks to whom by method, and where the time of slow calls went."""

import functools
from typing import NamedTuple

from viewer.calls.tree import ROWS, Tree
from viewer.page.capture import ROWS as MOST, Capture

# Of so many calls of main threads the page shows where the time went, the longest ones.
TREES = 20
# How wide the picture of a call is.
WIDTH = 640


class Method(NamedTuple):
    """The calls of a method: of one caller, or of all of them together. Times are nanoseconds."""
    client: int | None
    server: int | None
    call: str
    oneway: int
    calls: int
    per_s: float | None
    median: int
    p95: int
    p99: int
    longest: int
    queue: int
    queue_p95: int
    queue_longest: int
    work: int
    work_p95: int
    work_longest: int
    client_uid: int | None
    server_uid: int | None
    device: str | None
    client_package: str | None
    server_package: str | None
    all_rows: int


class Sent(NamedTuple):
    """What a process sent to an object by a code. Times are nanoseconds."""
    client: int
    handle: int
    server: int | None
    ptr: int | None
    code: int
    oneway: int
    delivered: int
    one_fits: int
    sends: int
    failed: int
    open: int
    bytes: int
    kept: int
    peak: int | None
    longest: int | None
    frames: int | None
    client_uid: int | None
    server_uid: int | None
    device: str | None
    client_package: str | None
    server_package: str | None
    all_rows: int


class Bar(NamedTuple):
    """A stretch of a picture: what it is, where it begins, and how wide it is."""
    what: str
    x: float
    width: float


class Spent:
    """The times of a capture. Each is asked for when it is shown, and once."""

    def __init__(self, capture: Capture):
        self.capture = capture
        self.most = ROWS

    @functools.cached_property
    def of_methods(self) -> list[Method]:
        return [Method(*row) for row in self.capture.asked("method_times", MOST, self.capture.upids)]

    def methods(self) -> list[Method]:
        """The methods, of all callers together."""
        return [one for one in self.of_methods if one.client is None]

    def talk(self) -> list[Method]:
        """The methods by caller."""
        return [one for one in self.of_methods if one.client is not None]

    def objects(self) -> list[Sent]:
        """Who talks to whom, object by object."""
        return [Sent(*row) for row in self.capture.asked("talk", MOST, self.capture.upids)]

    def trees(self) -> list[Tree]:
        """The longest of the slow calls of main threads."""
        return [self.tree(row[9]) for row in self.capture.slow_calls(TREES)]

    def tree(self, place: int) -> Tree:
        return Tree(self.capture.database, self.capture.names, place)

    @staticmethod
    def bars(tree: Tree, at: int) -> list[Bar]:
        """The picture of a row: its stretches, one over another."""
        whole = max(tree.root.dur or 0, 1)
        return [Bar(one.what, round(one.begin * WIDTH / whole, 1), round((one.end - one.begin) * WIDTH / whole, 1))
                for one in tree.stretches(at) if one.end > one.begin]
