"""The trace event format, which ui.perfetto.dev and Chromium's chrome://tracing open: JSON."""

import functools
import json
from typing import Iterator, Mapping

from viewer.timeline.events import (ADDRESSES, BEGIN_OF_SLICE, CATEGORIES, COUNTERS, END_OF_SLICE, SORTS, VERBS, Called,
                                    Finding, Out, Where)
from viewer.timeline.tracks import Axis, Tracks

# The first number that a process gets in place of its own if that is taken by a process of another device.
OTHER_NUMBERS = 1_000_000_000

# What the file begins with; json_events.c has it too.
FILE_BEGIN = '{"displayTimeUnit":"ns","traceEvents":[\n'

# Signs that are not of ASCII stay as they are: Perfetto 56 refuses a file in which one above U+FFFF is written as two.
dumps = functools.partial(json.dumps, ensure_ascii=False)


def encoded(text: str) -> bytes:
    return text.encode(errors="replace")


def text_of(fields: Mapping[str, object]) -> str:
    """Arguments, within their brackets."""
    return ",".join(f'"{name}":"0x{value % 2**64:x}"' if name in ADDRESSES and isinstance(value, int) else
                    f'"{name}":{dumps(value)}' for name, value in fields.items())


class JsonEvents:
    """Writes a timeline as JSON. Each thread of the capture has a track of its own, also if two are one thread of the
    system on two devices."""

    form, is_android = "json", False
    event_begin, recording = b"", 0

    def __init__(self, out: Out, axis: Axis, tracks: Tracks):
        self.out, self.axis, self.tracks = out, axis, tracks
        self.clock = f"CLOCK_{'BOOTTIME' if axis.boottime.is_known else 'MONOTONIC'} of the recorded system, in" \
            " microseconds"
        self.numbers = self.numbers_of()
        self.heads = {row.utid: f'"pid":{self.numbers[row.upid]},"tid":{row.thread},"ts":' for row in tracks.threads}
        self.instants: list[str] = []

    def begin(self) -> None:
        for event in self.metadata():
            self.out.line(encoded(event))

    def numbers_of(self) -> dict[int, int]:
        """The number of each process in the trace: its own, or another one if a process of another device has that."""
        taken = {row.process for row in self.tracks.processes}
        numbers: dict[int, int] = {}
        used: set[int] = set()
        following = OTHER_NUMBERS
        for row in self.tracks.processes:
            number = row.process
            if number in used:
                while following in taken:
                    following += 1
                number, following = following, following + 1
            used.add(number)
            numbers[row.upid] = number
        return numbers

    def metadata(self) -> Iterator[str]:
        """The events that name the tracks."""
        shown = [row for row in self.tracks.processes if row.upid in self.tracks.first_of]
        for order, row in enumerate(shown):
            head = self.heads[self.tracks.first_of[row.upid]].removesuffix(',"ts":')
            title = row.name or "process"
            if self.tracks.several:
                title += f" on {row.device_name}"
            if self.numbers[row.upid] != row.process:
                title += f" ({row.process})"
            label = row.device_name + (f", pid {row.pid}" if row.pid not in (None, row.process) else "")
            for kind, fields in (("process_name", {"name": title}), ("process_labels", {"labels": label}),
                                 ("process_sort_index", {"sort_index": order})):
                yield f'{{"ph":"M",{head},"name":"{kind}","args":{dumps(fields)}}}'
        for thread in self.tracks.threads:
            if thread.name is not None and thread.utid in self.tracks.shown:
                head = self.heads[thread.utid].removesuffix(',"ts":')
                yield f'{{"ph":"M",{head},"name":"thread_name","args":{dumps({"name": thread.name})}}}'

    # -- what the walk asks for

    def lane_of(self, utid: int) -> int:
        return utid

    def head_of_thread(self, utid: int) -> bytes:
        return self.heads[utid].encode()

    def argument_head(self, name: str) -> bytes:
        return f'"{name}":'.encode()

    def argument(self, name: str, value: object) -> bytes:
        return encoded(text_of({name: value}))

    def called(self, called: Called) -> list[bytes]:
        label = dumps(called.label)[1:-1]
        middles = [f'"cat":"{CATEGORIES[sort]}","name":"{VERBS[sort]} {label}","args":{{' for sort in SORTS]
        return [encoded(made) for made in (*middles, text_of(called.fields()))]

    def aidl(self, sort: int, called: Called) -> bytes:
        """Only the names of Android have such slices."""
        raise NotImplementedError

    def name_of_queue(self, called: Called) -> bytes:
        return encoded(f'"name":"queue {dumps(called.label)[1:-1]}"')

    def queue_track(self, upid: int, lane: int) -> bytes:
        """A queue has no track of its own."""
        raise NotImplementedError

    def counters(self, upid: int) -> list[bytes]:
        return [f'{{"ph":"C","pid":{self.numbers[upid]},"name":"{name}","args":{{"{of}":'.encode()
                for name, of in COUNTERS]

    def stack(self, stack: int) -> bytes:
        """Stacks are not shown."""
        raise NotImplementedError

    def why(self, use: int, why: str) -> bytes:
        if use == BEGIN_OF_SLICE:
            return f',"begin":"{why}"'.encode()
        return (f',"args":{{"end":"{why}"}}' if use == END_OF_SLICE else f'"end":"{why}"').encode()

    def has_new(self) -> bool:
        return False

    def tell_new(self) -> None:
        """Nothing is told once only."""

    # -- what the walk hands over

    def instant(self, where: Where, at: str, category: str, name: str, fields: Mapping[str, object]) -> None:
        utid = where.utid if where.utid is not None else \
            min(self.tracks.shown) if where.upid is None else self.tracks.first_of[where.upid]
        scope = "t" if where.utid is not None else "g" if where.upid is None else "p"
        self.instants.append(f'{{"ph":"i","s":"{scope}",{self.heads[utid]}{at},"cat":"{category}",'
                             f'"name":{dumps(name)},"args":{{{text_of(fields)}}}}}')

    def finding(self, utid: int, _: int, at: str, finding: Finding) -> None:
        self.instant(Where(utid), at, f"finding,{finding.verdict}", f"{finding.verdict}: {finding.title}",
                     finding.fields)

    def end_frame(self) -> None:
        """Instants come after all else of their frame: a flow goes to the topmost slice of its time, for which Perfetto
        also takes an instant."""
        for instant in self.instants:
            self.out.line(encoded(instant))
        self.instants.clear()

    def finish(self, told: dict[str, object]) -> None:
        self.end_frame()
        self.out.flush()
        other = [{"pid": self.numbers[row.upid], "device": row.device, "process": row.process}
                 for row in self.tracks.processes
                 if row.upid in self.tracks.first_of and self.numbers[row.upid] != row.process]
        begin = "" if self.out.has_written else FILE_BEGIN
        self.out.write(encoded(f'{begin}\n],"otherData":{dumps({**told, "other_numbers": other})}}}\n'))
