"""The moment at which a flight recorder kept the capture, while the recording went on."""

from typing import NamedTuple

from viewer.page.axis import Axis, Span
from viewer.page.capture import Capture
from viewer.page.why_kept import kept_of


class Moment(NamedTuple):
    """From when on there was what it was kept for, and when the recorder saw that; the group or the call that this is
    of, or else the process."""
    span: Span
    ts: int
    opens: str | None
    process: int | None

    @property
    def of(self) -> str | None:
        """The name of what its bar opens."""
        return self.opens or (None if self.process is None else f"process-{self.process}")


def moment_of(capture: Capture, axis: Axis, calls: list[tuple]) -> Moment | None:
    """The moment; None of a capture that was not kept so, and if its time is not known."""
    facts, kept = capture.facts, kept_of(capture.database, capture.groups)
    seen = axis.tick(facts["kept_ts"], None) if kept else None
    if kept is None or seen is None:
        return None
    since = axis.tick(facts.get("kept_since"), None)
    opens = None
    if kept.group is not None:
        opens = f"group-{kept.group}"
    elif any(call[0] == kept.place for call in calls):
        opens = f"call-{kept.place}"
    return Moment(Span(min(seen if since is None else since, seen), seen), facts["kept_ts"], opens, kept.upid)
