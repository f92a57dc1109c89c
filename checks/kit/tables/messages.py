"""Sends and deliveries: the transactions and replies of a capture, with what the rules of pairs ask of them."""

from typing import NamedTuple

from checks.kit.tables.calls import Call
from checks.kit.tables.cut import SENT_TRANSACTIONS, UPDATE, Record
from checks.kit.tables.handles import Generation

# What a sum is of: in place of the sum, the bytes themselves. None is that of a record without an entry.
Sum = bytes | None
Key = tuple[int, int, int, int, int, Sum]


class Node(NamedTuple):
    process: int
    ptr: int
    cookie: int


def summed(record: Record) -> Sum:
    """The bytes of a body that lie in no good object; after the last good one all, if there is a bad one."""
    if not record.fields["data_size"] and not record.fields["offsets_size"]:
        return b""
    if record.entry is None:
        return None
    body, rest, at = record.entry.body, [], 0
    for it in record.good:
        rest.append(body[at:it.offset])
        at = it.offset + it.length
    return b"".join((*rest, body[at:]))


def key_of(record: Record) -> Key:
    fields = record.fields
    return (record.frame.process.device, fields["code"], fields["flags"], fields["data_size"], fields["offsets_size"],
            summed(record))


class Message:
    """A transaction or reply. `process` and `thread` are its upid and its utid, `missing` how many frames are missing
    before it, `call` the call that it opens or properly closes. `handles` has the generations of its good HANDLE and
    WEAK_HANDLE objects, and `nodes` what its BINDER and WEAK_BINDER objects are, both by the number of the object."""

    def __init__(self, record: Record, process: int, thread: int, missing: int) -> None:
        self.record, self.process, self.thread, self.missing = record, process, thread, missing
        self.place, self.seq, self.oneway = record.place, record.seq, record.oneway
        self.key = key_of(record)
        self.call: Call | None = None
        self.handles: dict[int, Generation] = {}
        self.nodes = {it.number: Node(process, it.fields["binder"], it.fields["cookie"])
                      for it in record.good if it.name in ("binder", "weak_binder")}


class Send(Message):
    def __init__(self, record: Record, process: int, thread: int, missing: int) -> None:
        super().__init__(record, process, thread, missing)
        self.is_transaction = record.kind in SENT_TRANSACTIONS
        self.updates = record.fields["flags"] & UPDATE != 0
        # Of a transaction the generation of its target.
        self.generation: Generation | None = None
        self.confirmed: Record | None = None
        self.refused: Record | None = None
        self.delivery: Delivery | None = None
        self.certain: bool | None = None
        self.fits: int | None = None

    @property
    def target(self) -> Generation:
        assert self.generation is not None
        return self.generation

    def is_closed_before(self, place: int) -> bool:
        """Whether it is a call that is closed before a place."""
        closer = self.call.closer if self.call else None
        return closer is not None and closer.place < place


class Delivery(Message):
    def __init__(self, record: Record, process: int, thread: int, missing: int) -> None:
        super().__init__(record, process, thread, missing)
        self.freed_by: Record | None = None
        self.send: Send | None = None
        self.held = 0
        # Whether its process was told of references to the node, as Seen says.
        self.is_told = False
        # The references that it holds: whether they are weak, and of which generation.
        self.holds: list[tuple[str, Generation]] = []

    @property
    def node(self) -> Node:
        return Node(self.process, self.record.fields["ptr"], self.record.fields["cookie"])

    @property
    def path(self) -> object:
        """What `held` counts together."""
        fields = self.record.fields
        if "ptr" in fields:
            return fields["code"], fields["ptr"], fields["cookie"], self.oneway
        if self.call is None:
            return None
        of_call = self.call.opener.fields
        return of_call["code"], of_call["handle"]
