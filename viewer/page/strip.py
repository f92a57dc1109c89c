"""The strip of time at the head of the page: the traffic, and below it what was found, which calls took long, and where
frames are missing, each from when to when; and the moment at which the capture was kept, if it was."""

from collections import defaultdict
from typing import Iterable, Iterator, NamedTuple

from viewer.page.axis import TICK, Span, axis_of, merged
from viewer.page.bars import Lane, Mark, bars_of
from viewer.page.capture import Capture
from viewer.page.moment import moment_of
from viewer.terminal import shown
from viewer.units import counted, duration_of

# The width of the strip, in the units of its pictures; its parts; and the height of the traffic.
WIDTH, PARTS, HEIGHT = 1000, 250, 40

# How many gaps between frames are shown.
GAPS = 400

# A call is long if it had no answer, took such a part of the recording, or as long as a slow call of a main thread.
LONG = 1 / 100

# Where ticks are named, in parts of the strip.
NAMED = 4


class Tick(NamedTuple):
    since: str
    clock: str


class Spans:
    """When the findings of a capture were: of each how long it lasted in nanoseconds, and of each group all spans."""

    def __init__(self, capture: Capture):
        self.axis = axis_of(capture)
        self.lasted: dict[int, int | None] = {}
        self.spans: dict[int, Span | None] = {}
        self.groups: dict[int, list[Span]] = defaultdict(list)
        for id, group, leads, seq, ts, lasted, lasted_seq in capture.asked("spans"):
            span = self.axis.span(ts, seq, lasted, lasted_seq)
            self.lasted[id], self.spans[id] = lasted, span
            if leads and span is not None:
                self.groups[group].append(span)
        near = self.axis.length // WIDTH
        self.groups = {group: merged(spans, near) for group, spans in self.groups.items()}

    def of(self, group: int) -> str:
        """Where the findings of a group are, as the script of the page reads it."""
        return self.axis.word(*self.groups.get(group, ()))

    def word(self, finding: int) -> str:
        return self.axis.word(self.spans[finding])

    def until(self, group: int) -> int | None:
        """When the last finding of a group ends, if there are times."""
        spans = self.groups.get(group)
        return self.axis.first + TICK * max(span.end for span in spans) if spans and self.axis.has_times else None


class Strip:
    """All that the strip shows of a capture."""

    def __init__(self, capture: Capture, spans: Spans, calls: list[tuple]):
        self.capture, self.spans, self.axis = capture, spans, spans.axis
        self.width, self.height, self.length = WIDTH, HEIGHT, spans.axis.length
        self.line = self.traffic()
        self.moment = moment_of(capture, self.axis, calls)
        self.lanes = [lane for lane in self.all_lanes(calls) if lane.bars]
        self.ticks = [self.tick(at) for at in range(NAMED + 1)]
        self.unit = "µs" if self.axis.has_times else "frames"

    @property
    def is_there(self) -> bool:
        return bool(self.line)

    def tick(self, at: int) -> Tick:
        if not self.axis.has_times:
            return Tick(f"frame {self.axis.first + self.axis.length * at // NAMED:,}", "")
        ts = self.axis.first + self.axis.length * 1000 * at // NAMED
        times = self.capture.times
        return Tick(times.since(ts), times.clock(ts))

    def traffic(self) -> str:
        """The line of the traffic, as an area; nothing without frames."""
        axis = self.axis
        rows = (self.capture.asked("strip_times", axis.first, axis.length * 1000, PARTS) if axis.has_times
                else self.capture.asked("strip_frames", axis.first, axis.length, PARTS))
        parts = {part: n for part, n in rows}
        if not parts:
            return ""
        self.most = max(parts.values())
        step = WIDTH / PARTS
        tops = (f"V{HEIGHT - (HEIGHT - 2) * parts.get(at, 0) / max(self.most, 1):.1f}H{(at + 1) * step:g}"
                for at in range(PARTS))
        return f"M0 {HEIGHT}{''.join(tops)}V{HEIGHT}Z"

    @property
    def at_moment(self) -> float | None:
        """Where the moment is, if there is one."""
        return round(self.moment.span.end * WIDTH / self.axis.length, 1) if self.moment else None

    def lane(self, name: str, sort: str, marks: Iterable[Mark]) -> Lane:
        return Lane(name, sort, list(bars_of(marks, WIDTH / self.axis.length, WIDTH)))

    def all_lanes(self, calls: list[tuple]) -> Iterator[Lane]:
        if self.moment:
            yield self.lane("kept", "kept", [Mark(self.moment.span, "what it was kept for", self.moment.of)])
        for verdict in ("real", "maybe", "explained"):
            yield self.lane(verdict, verdict, self.found(verdict))
        yield self.lane("long calls", "call", self.long(calls))
        yield self.lane("frames missing", "lost", self.missing())

    def found(self, verdict: str) -> Iterator[Mark]:
        for group, title in self.capture.ask("SELECT grp, title FROM finding_group WHERE verdict = ?", verdict):
            if group in self.capture.groups:
                for span in self.spans.groups.get(group, ()):
                    yield Mark(span, title, f"group-{group}")

    def long(self, calls: list[tuple]) -> Iterator[Mark]:
        """The calls that are long."""
        for place, _, _, _, _, verdict, _, frames, dur, *_, ts in calls:
            span = self.axis.span(ts, None, dur, frames)
            is_slow = dur is not None and dur >= self.capture.slow
            if span and (verdict != "answered" or is_slow or span.end - span.begin >= self.axis.length * LONG):
                took = duration_of(dur) if dur is not None else counted(frames or 0, "frame")
                yield Mark(span, f"a call at place {place}, {verdict}, {took}", f"call-{place}")

    def missing(self) -> Iterator[Mark]:
        for before, begin, after, end, missing in self.capture.asked("gaps", GAPS):
            span, last = self.axis.span(begin, before, 0, 0), self.axis.span(end, after, 0, 0)
            if span and last:
                yield Mark(Span(span.begin, max(last.end, span.begin)), f"{counted(missing, 'frame')} missing", None)
        for ts, what, count in self.capture.ask("SELECT ts, what, count FROM side_missed ORDER BY ts LIMIT ?", GAPS):
            if self.axis.has_times and (span := self.axis.span(ts, None, 0, 0)):
                yield Mark(span, f"missed without a number: {count} {shown(what)}", None)
