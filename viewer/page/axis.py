"""The axis of the strip of time, and where on it something was."""

from typing import NamedTuple

from viewer.page.capture import Capture

# A tick of a capture with times, in nanoseconds.
TICK = 1000


class Span(NamedTuple):
    """From tick to tick."""
    begin: int
    end: int


class Axis(NamedTuple):
    """From the first frame to the end of the recording, in microseconds; without times in frames, to the last one."""
    first: int
    length: int
    has_times: bool

    def tick(self, ts: int | None, seq: int | None) -> int | None:
        """Where a moment is; None if that is not known."""
        at = (ts - self.first) // TICK if self.has_times and ts is not None else (
            None if self.has_times or seq is None else seq - self.first)
        return None if at is None else min(max(at, 0), self.length)

    def span(self, ts: int | None, seq: int | None, age: int | None, age_seq: int | None) -> Span | None:
        """Where something was that began at a moment, and lasted so long or so many frames."""
        begin = self.tick(ts, seq)
        if begin is None:
            return None
        lasted = (age or 0) // TICK + bool(age) if self.has_times else age_seq or 0
        return Span(begin, min(begin + lasted, self.length))

    def word(self, *spans: Span | None) -> str:
        """Spans as the script of the page reads them; nothing if one is not known."""
        return "" if None in spans else " ".join(f"{one.begin} {one.end}" for one in spans if one)

    def at(self, ts: int | None, age: int | None = None, seq: int | None = None, age_seq: int | None = None) -> str:
        """The word of one span."""
        return self.word(self.span(ts, seq, age, age_seq))

    def between(self, begin: int | None, end: int | None) -> str:
        """The word of the span from one time to another, as far as there are times."""
        if not self.has_times or begin is None:
            return ""
        return self.at(begin, None if end is None else max(end - begin, 0))


def axis_of(capture: Capture) -> Axis:
    first, until = capture.facts.get("first_ts"), capture.facts.get("until_ts")
    if first is not None and until is not None:
        return Axis(first, max((until - first) // TICK, 1), True)
    first, last = (capture.facts.get(key) or 0 for key in ("first_seq", "last_seq"))
    return Axis(first, max(last - first, 1), False)


def merged(spans: list[Span], near: int) -> list[Span]:
    """Spans in order, those joined that are no further from one another than so many ticks."""
    found: list[Span] = []
    for span in sorted(spans):
        if found and span.begin - found[-1].end <= near:
            found[-1] = Span(found[-1].begin, max(found[-1].end, span.end))
        else:
            found.append(span)
    return found
