"""Where the time of a call went, once more: by painting a stretch of time.

It shares no code with the views, and takes what a second reading of the capture (kit/tables) has of its calls. The time
of a call is a stretch. What is known of it is painted on it, and what was made within it over that, call by call: the
colour of a nanosecond is the call and the part that had it. What is left blank is not known."""

import re
from collections import Counter
from typing import Iterator, NamedTuple

from checks.kit.side_lists import unpacked
from checks.kit.tables.calls import ANSWERED, CROSSED, OPEN, REPLIED, Call
from checks.kit.tables.cut import Record, cut_of
from checks.kit.tables.messages import Send
from checks.kit.tables.reading import Reading

# By so many nanoseconds the clocks of two processors may differ.
DIFFER = 1_000_000

# A call, by the place of its send, and a part: queue, work, back or unknown.
Colour = tuple[int, str]


class Side(NamedTuple):
    """What a side list says: the time of each frame; when a thread or a process ended, by device, process and thread,
    or 0 for the process; frames that are lost, each with its process or None; between which frames something was
    missed; and when the recording ended."""
    times: dict[int, int]
    ends: dict[tuple[int, int, int], int]
    lost: list[tuple[int, tuple[int, int] | None]]
    missed: list[tuple[int, int]]
    until: int


def side_of(text: str) -> Side:
    """What a side list of any form says."""
    text = unpacked(text)
    times = {int(number): int(time) for time, number in re.findall(r"^(\d+) frame (\d+)$", text, re.M)}
    ends = {(int(device), int(process), int(thread)): int(time) for time, device, process, thread in re.findall(
        r"^(\d+) end thread (\d+) (\d+) (\d+) ", text, re.M)}
    pids: dict[int, list[tuple[int, int]]] = {}
    for device, process, pid in re.findall(r"^\d+ process (\d+) (\d+) pid=(\d+)", text, re.M):
        pids.setdefault(int(pid), []).append((int(device), int(process)))
    for time, device, process in re.findall(r"^(\d+) end opening (\d+) (\d+) ", text, re.M):
        ends.setdefault((int(device), int(process), 0), int(time))
    for time, pid in re.findall(r"^(\d+) end pid (\d+) ", text, re.M):
        for of in pids.get(int(pid), ()):
            ends[*of, 0] = min(int(time), ends.get((*of, 0), int(time)))
    lost: list[tuple[int, tuple[int, int] | None]] = [
        (int(number), (int(device), int(process)) if device else None) for number, device, process in re.findall(
            r"^\d+ lost (\d+)(?: device=(\d+) process=(\d+))?", text, re.M)]
    missed = [(int(first), int(last)) for first, last in
              re.findall(r"^\d+ missed .*\bfrom=(\d+) after=(\d+)", text, re.M)]
    stopped = re.search(r"^(\d+) end recording ", text, re.M)
    return Side(times, ends, lost, missed, int(stopped[1]) if stopped else max(times.values()))


class Painted(NamedTuple):
    """A call with its whole time, and how many nanoseconds each colour has."""
    whole: int
    parts: Counter[Colour]


class Recording:
    """A capture with its side list, and the calls that were made within each call that was served."""

    def __init__(self, capture: bytes, side: str) -> None:
        self.side, self.reading = side_of(side), Reading(cut_of([capture]), 1)
        self.of_opener: dict[Record, Send] = {it.record: it for it in self.reading.sends if it.is_transaction}
        self.of_reply: dict[Record, Send] = {it.record: it for it in self.reading.sends if not it.is_transaction}
        self.owner = {call.opener: thread for thread, call in self.reading.calls}
        self.key = {thread.number: (*process, number) for (process, number), thread in self.reading.threads.items()}
        self.within: dict[Record, list[Send]] = {}
        for _, call in self.reading.calls:
            if not call.served and call.parent:
                self.within.setdefault(call.parent.opener, []).append(self.of_opener[call.opener])
        self.there = {frame.sequence for frame in self.reading.cut.frames}

    def calls(self) -> list[Send]:
        """The calls that are made, but not the oneway sends."""
        return [it for it in self.of_opener.values() if it.call]

    def time(self, record: Record) -> int:
        return self.side.times[record.seq]

    def end_of_thread(self, utid: int) -> int:
        device, process, thread = self.key[utid]
        ends = [self.side.ends.get((device, process, one)) for one in (thread, 0)]
        return min([self.side.until, *(end for end in ends if end is not None)])

    def end(self, send: Send) -> int:
        """When a call ended, or up to when it was there."""
        call = send.call
        assert call
        closer = call.closer or (send.refused if call.verdict == OPEN else None)
        if closer is not None:
            return self.time(closer)
        if call.parent and call.parent.closer:
            return self.time(call.parent.closer)
        return self.end_of_thread(send.thread)

    def has_lost(self, send: Send) -> bool:
        """Whether a frame is missing meanwhile that may be of its caller or of its server."""
        call, delivery = send.call, send.delivery
        assert call
        closer = call.closer or send.refused
        first, last = send.seq, closer.seq if closer else self.reading.cut.frames[-1].sequence
        ours = {self.key[it.thread][:2] for it in (send, delivery) if it}
        gone = {number: of for number, of in self.side.lost}
        if any(first <= after and begin <= last for begin, after in self.side.missed):
            return True
        if any(of is None or of in ours for number, of in gone.items() if first <= number <= last):
            return True
        span = self.reading.cut.frames
        is_told = all(number in gone for number in range(span[0].sequence, span[-1].sequence + 1)
                      if number not in self.there)
        return not is_told and any(number not in self.there and number not in gone for number in range(first, last + 1))

    def parts(self, send: Send) -> Iterator[tuple[str, int, int]]:
        """The parts of a call, each from when to when, without what was made within it."""
        call, begin, end = send.call, self.time(send.record), self.end(send)
        assert call
        lost = self.has_lost(send)
        if send.delivery is None:
            yield ("unknown" if lost or call.verdict in (ANSWERED, CROSSED) else "queue"), begin, end
            return
        served, got = send.delivery.call, self.time(send.delivery.record)
        replied = served and served.verdict == REPLIED and self.of_reply.get(served.closer)  # type: ignore[arg-type]
        left = self.time(served.closer) if served and replied and served.closer else None
        if any(later - earlier < -DIFFER for earlier, later in ((begin, got), (got, left or got), (left or got, end))):
            yield "unknown", begin, end
            return
        yield "queue", begin, got
        yield from self.served_parts(call, served, replied or None, got, left, end, lost)

    @staticmethod
    def served_parts(call: Call, served: Call | None, replied: Send | None, got: int, left: int | None, end: int,
                     lost: bool) -> Iterator[tuple[str, int, int]]:
        """The parts of a call from when it was got."""
        crossed = call.verdict == CROSSED or served is not None and served.verdict == CROSSED
        came = replied.delivery.record if replied and replied.delivery else None
        if crossed or call.verdict == ANSWERED and (left is None or came is not call.closer):
            yield "unknown", got, end
        elif left is None:
            yield ("unknown" if lost else "work"), got, end
        else:
            yield ("unknown" if lost else "work"), got, left
            yield "back", left, end

    def paint(self, send: Send) -> Painted:
        """Paints a call, and all that was made within it. A part that would be shorter than nothing paints nothing."""
        begin, end = self.time(send.record), self.end(send)
        cuts: list[tuple[int, int, Colour]] = []
        self.lay(send, cuts)
        edges = sorted({begin, end, *(max(begin, min(edge, end)) for first, last, _ in cuts for edge in (first, last))})
        parts: Counter[Colour] = Counter()
        for first, last in zip(edges, edges[1:]):
            parts[next(colour for one, two, colour in reversed(cuts) if one <= first and last <= two)] += last - first
        return Painted(end - begin, parts)

    def lay(self, send: Send, cuts: list[tuple[int, int, Colour]]) -> None:
        """Adds what is to be painted, in order: what comes later is painted over what was before it."""
        cuts.extend((first, last, (send.place, part)) for part, first, last in self.parts(send) if last > first)
        if send.delivery:
            for one in self.within.get(send.delivery.record, ()):
                self.lay(one, cuts)
