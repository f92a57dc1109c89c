"""The calls of each thread, as docs/REPORT.md#calls-of-each-thread has them, with depth and parent."""

from checks.kit.tables.cut import (CONFIRMATIONS, ERROR_REPLIES, GOT_REPLY, GOT_TRANSACTIONS, SENT, SENT_REPLIES,
                                   SENT_TRANSACTIONS, Record)

OPEN, ANSWERED, REPLIED, FAILED, CROSSED = range(5)


class Call:
    """A call: its opener, how deep it is, and the call around it. It is open until it has a closer."""

    def __init__(self, opener: Record, parent: "Call | None") -> None:
        self.opener, self.parent = opener, parent
        self.served = opener.kind in GOT_TRANSACTIONS
        self.depth: int = parent.depth + 1 if parent else 1
        self.closer: Record | None = None

    @property
    def verdict(self) -> int:
        if self.closer is None:
            return OPEN
        if self.served:
            return REPLIED if self.closer.kind in SENT_REPLIES else CROSSED
        if self.closer.kind in ERROR_REPLIES:
            return FAILED
        return ANSWERED if self.closer.kind == GOT_REPLY else CROSSED


class Thread:
    """The calls of a thread that are open, the innermost last, and its latest mark."""

    def __init__(self) -> None:
        self.open: list[Call] = []
        self.latest: Record | None = None

    def take(self, record: Record) -> tuple[Call | None, Call | None]:
        """The call that a record opens, and the one that it closes."""
        opened = closed = None
        if record.kind in SENT_TRANSACTIONS + GOT_TRANSACTIONS and not record.oneway:
            opened = Call(record, self.open[-1] if self.open else None)
            self.open.append(opened)
        elif self.is_closer(record) and self.open:
            closed = self.open.pop()
            closed.closer = record
        if record.kind in (*SENT, GOT_REPLY, *CONFIRMATIONS, *ERROR_REPLIES) or opened:
            self.latest = record
        return opened, closed

    def is_closer(self, record: Record) -> bool:
        if record.kind in ERROR_REPLIES:
            return not self.latest_may_be_refused()
        return record.kind in (GOT_REPLY, *SENT_REPLIES)

    def latest_may_be_refused(self) -> bool:
        """Whether the latest mark is a oneway send, or a reply that was sent."""
        it = self.latest
        return it is not None and (it.kind in SENT_REPLIES or it.kind in SENT_TRANSACTIONS and it.oneway)
