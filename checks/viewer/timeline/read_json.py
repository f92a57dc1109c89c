"""Reads a timeline in the trace event format."""

import gzip
import json
import pathlib
import sqlite3

from checks.kit.checking import Fail
from checks.viewer.timeline.read import Instant, Queue, Read


def nanoseconds(ts: float | int) -> int:
    return round(ts * 1000)


class ReadJson(Read):
    """A timeline of JSON. A track is a process number and a thread number, as the timeline has them."""

    def __init__(self, path: pathlib.Path, database: sqlite3.Connection, fail: Fail, whole: bool = True):
        super().__init__(database, fail, whole)
        told = json.loads(gzip.decompress(path.read_bytes()))
        self.events, self.told = told["traceEvents"], told["otherData"]
        if "boottime" in self.told:
            self.shift = self.told["boottime"] - self.told["begin_ts"]
        self.names: dict[tuple[str, int, int], object] = {}
        self.async_: dict[int, Queue] = {}
        other = {(one["device"], one["process"]): one["pid"] for one in self.told["other_numbers"]}
        self.pid_of = {upid: other.get((device, process), process) for upid, device, process in
                       database.execute("SELECT upid, device, process FROM process")}
        self.upid_of = {pid: upid for upid, pid in self.pid_of.items()}
        # What is topmost on a track for a flow: of one time, an instant is.
        self.latest: dict[tuple[int, int], tuple[int, Instant | None]] = {}
        for event in self.events:
            getattr(self, f"take_{event['ph']}")(event)
        self.end_of_file()

    def thread_of(self, upid: int, thread: int, tid: int | None) -> tuple[int, int]:
        return self.pid_of[upid], thread

    def take_M(self, event: dict) -> None:
        self.names[event["name"], event["pid"], event["tid"]] = next(iter(event["args"].values()))

    def take_B(self, event: dict) -> None:
        track = event["pid"], event["tid"]
        self.begin(track, nanoseconds(event["ts"]), event["cat"], event["name"], event["args"])
        self.latest.pop(track, None)

    def take_E(self, event: dict) -> None:
        self.finish((event["pid"], event["tid"]), nanoseconds(event["ts"]), event.get("args", {}))

    def take_s(self, event: dict) -> None:
        """The end of a flow. It is of the slice around it, and at the time of its beginning, in no instant."""
        track = event["pid"], event["tid"]
        stack, ns = self.stacks[track], nanoseconds(event["ts"])
        if event["id"] not in self.flows and event["ph"] != "s" or stack and stack[-1].begin != ns:
            self.fail(f"a flow without its begin, or off its slice: {event}")
        at, instant = self.latest.get(track, (-1, None))
        self.flows[event["id"]].append(instant if at == ns else stack[-1] if stack else None)

    take_f = take_s

    def take_b(self, event: dict) -> None:
        if event["id"] != event["args"]["place"]:
            self.fail(f"a queue of another place: {event}")
        self.async_[event["id"]] = self.queue((event["pid"], event["tid"]), nanoseconds(event["ts"]), event["args"])

    def take_e(self, event: dict) -> None:
        self.async_.pop(event["id"]).end = nanoseconds(event["ts"])

    def take_i(self, event: dict) -> None:
        track = event["pid"], event["tid"]
        made = Instant(track, event["cat"], event["name"], event["args"])
        self.instants.append(made)
        self.latest[track] = nanoseconds(event["ts"]), made

    def take_C(self, event: dict) -> None:
        value, = event["args"].values()
        self.count(self.upid_of[event["pid"]], event["name"], value)
