"""Whether the send of a delivery must be in the capture: viewer/database/schema.sql, above raw_send."""

from checks.kit.tables.cut import ENTER_LOOPER, REGISTER_LOOPER, TOLD_OF_NODE, Record
from checks.kit.tables.messages import Delivery, Node


class Seen:
    """What is seen of processes, threads and nodes, frame by frame."""

    def __init__(self) -> None:
        # The processes that are older than the capture, and the threads that said that they take calls.
        self.old: set[int] = set()
        self.loopers: set[int] = set()
        # How many frames are missing before the last frame of a thread, and before the one before that.
        self.latest: dict[int, int] = {}
        self.before: dict[int, int] = {}
        # The nodes of whose references a process was told, each with how many frames are missing before that.
        self.told: set[tuple[Node, int]] = set()

    def take_frame(self, process: int, thread: int, is_read: bool, missing: int) -> None:
        if thread in self.latest:
            self.before[thread] = self.latest[thread]
        elif is_read:
            self.old.add(process)
        self.latest[thread] = missing

    def take(self, process: int, thread: int, record: Record, missing: int) -> None:
        if record.kind in (ENTER_LOOPER, REGISTER_LOOPER):
            self.loopers.add(thread)
        elif record.kind in TOLD_OF_NODE and self.before.get(thread) == missing:
            self.told.add((Node(process, record.fields["ptr"], record.fields["cookie"]), missing))

    def take_delivery(self, it: Delivery) -> None:
        """A transaction that a thread gets."""
        if it.thread not in self.loopers and (it.oneway or it.call is not None and it.call.depth == 1):
            self.old.add(it.process)
        it.is_told = (it.node, it.missing) in self.told

    def all_are_there(self, it: Delivery) -> bool:
        """Whether the send of a delivery must be in the capture, after all records were seen."""
        return it.is_told or it.missing == 0 and it.process not in self.old
