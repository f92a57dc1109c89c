"""What a timeline is made of, in whatever format: tracks of threads, and what is on them."""

from typing import Mapping, NamedTuple, Protocol

# What a slice of a thread is: a call that it makes, a call that it serves, a oneway transaction that it sends, and one
# that came to it.
CALL, SERVED, SENT, CAME = SORTS = range(4)
CATEGORIES = "call", "served", "oneway", "oneway"
VERBS = "call", "serve", "send oneway", "serve oneway"

# The arguments of each, in the order in which walk.c has their values. Those of what is called come after them.
ARGUMENTS = (("place", "seq", "handle", "to", "data_size", "delivery", "fits", "verdict", "closer"),
             ("place", "seq", "ptr", "cookie", "sender_pid", "data_size", "from", "send", "fits", "verdict", "closer"),
             ("place", "seq", "handle", "to", "data_size", "delivery", "fits", "refused"),
             ("place", "seq", "ptr", "cookie", "sender_pid", "data_size", "from", "send", "fits"))
TEXTS = "to", "from", "verdict"
ADDRESSES = "ptr", "cookie"
SIGNED = "handle", "sender_pid", "fits"


class Called(NamedTuple):
    """What a transaction is for: its name, its code, and what is known of the object."""
    label: str
    code: int
    interface: str | None
    method: str | None
    service: str | None

    def fields(self) -> dict[str, object]:
        return {name: value for name, value in zip(self._fields[1:], self[1:]) if value is not None}


class Finding(NamedTuple):
    """A finding at its record. `one` is the number of the finding that it is one with, or its own."""
    verdict: str
    title: str
    one: int
    fields: dict[str, object]


class Where(NamedTuple):
    """The track of a thread or of a process, or of all."""
    utid: int | None = None
    upid: int | None = None


# The counters of a process: the name, and what is counted.
COUNTERS = (("buffers", "held"), ("bytes", "held"), ("async bytes", "held"), ("references", "strong"),
            ("calls", "open"), ("threads", "busy"))

# Where the walk says why something begins or ends elsewhere than at its record.
END_OF_SLICE, BEGIN_OF_SLICE, END_OF_QUEUE = range(3)


class Out(Protocol):
    """Where a format puts what it makes besides slices: to the walk, which writes it between these."""

    # Whether anything was written.
    has_written: bool

    def packet(self, data: bytes) -> None: ...

    def event(self, data: bytes) -> None: ...

    def line(self, data: bytes) -> None: ...

    def write(self, data: bytes) -> None:
        """Writes behind all that the walk has written."""

    def flush(self) -> None: ...


class Events(Protocol):
    """A format. The walk in C writes slices, flows, counters and queues; how, it asks for once: what a track or a name
    is in the format. The rest comes from here."""

    # What the walk calls the format, whether it has the names of Android, and what the axis is.
    form: str
    is_android: bool
    clock: str

    # What stands before the time of an event, and the number of the recording, if the format has them.
    event_begin: bytes
    recording: int

    def begin(self) -> None:
        """What comes before all events."""

    def lane_of(self, utid: int) -> object:
        """What two threads of the capture have in common if they are one thread of the system, and so one track."""

    def head_of_thread(self, utid: int) -> bytes:
        """How events name the track of a thread."""

    def argument_head(self, name: str) -> bytes:
        """What comes before the value of an argument, if that is a number."""

    def argument(self, name: str, value: str) -> bytes:
        """An argument that is a text."""

    def called(self, called: Called) -> list[bytes]:
        """What the begin of a slice of each sort has of what is called; and maybe what ends it."""

    def aidl(self, sort: int, called: Called) -> bytes:
        """The name of a slice that says what is called."""

    def name_of_queue(self, called: Called) -> bytes: ...

    def queue_track(self, upid: int, lane: int) -> bytes: ...

    def counters(self, upid: int) -> list[bytes]:
        """What comes before the values of the counters of a process."""

    def stack(self, stack: int) -> bytes: ...

    def why(self, use: int, why: str) -> bytes: ...

    def has_new(self) -> bool:
        """Whether the next event needs what `tell_new` tells."""

    def tell_new(self) -> None: ...

    def instant(self, where: Where, at: str, category: str, name: str, fields: Mapping[str, object]) -> None:
        """Something that takes no time, on a track. `at` is the time, if the format has it as a text."""

    def finding(self, utid: int, upid: int, at: str, finding: Finding) -> None: ...

    def end_frame(self) -> None:
        """All that a frame has was told. It is called if the frame has an instant."""

    def finish(self, told: dict[str, object]) -> None:
        """The end, and what the timeline says of itself."""
