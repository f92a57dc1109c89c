"""When things were, on the page: since the first frame, and by the wall clock."""

import datetime
import os
import pathlib
import re

from checks.kit.checking import Fail, compare
from checks.kit.runs import answer
from checks.viewer.page.common import stored, texts_of, texts_stored, view

SECOND = 10**9

# The zone of the page: nine hours ahead of UTC, by a name that takes no list of zones.
ZONE = {"TZ": "XST-9"}

# By how much the wall clock is set within the recording, right after this frame.
SET, SET_AFTER = 3600 * SECOND, 133


def clock_of(ns: int) -> str:
    """The time of day of the zone, after so many nanoseconds since 1970."""
    told = datetime.datetime.fromtimestamp(ns // SECOND, datetime.timezone(datetime.timedelta(hours=9)))
    return f"{told:%H:%M:%S}.{ns // 10**6 % 1000:03}"


class Side:
    """A side list, as far as this check needs one: the times of frames, and how far the wall clock is ahead."""

    def __init__(self, text: str):
        self.frames = {int(seq): int(ts) for ts, seq in re.findall(r"^(\d+) frame (\d+)$", text, re.MULTILINE)}
        begin = re.search(r"^(\d+) begin realtime=(\d+)", text, re.MULTILINE)
        assert begin
        self.ahead = int(begin[2]) - int(begin[1])

    def moment(self, seq: int) -> str:
        """A frame's time, as the page has it."""
        ts = self.frames[seq]
        set_by = SET if seq > SET_AFTER else 0
        return f"{(ts - self.frames[1]) // 10**6 / 1000:.3f} s {clock_of(ts + self.ahead + set_by)}"


def with_set_clock(text: str) -> str:
    """The side list, in which the wall clock is set within the recording and stays so."""
    side = Side(text)
    at = side.frames[SET_AFTER] + 1
    text = re.sub(r"^\d+ clocks .*\n", "", text, flags=re.MULTILINE)
    return re.sub(rf"^(\d+ frame {SET_AFTER}\n)",
                  rf"\g<1>{at} clocks realtime={at + side.ahead + SET} boottime={at}\n", text, flags=re.MULTILINE)


def check_moments(folder: pathlib.Path, room: pathlib.Path, fail: Fail) -> None:
    """Groups, calls, what a thread did and the axis of growth have times, and the head has those of the recording; a
    call that hangs has its age. Without a side list nothing has a time."""
    capture, text = texts_stored("hello-stuck")
    (room / "set.cap").write_bytes(capture)
    (room / "set.side").write_text(with_set_clock(text), "utf-8")
    side = Side(text)
    answer([folder / "view", "set.cap", "--side", "set.side", "-o", "set.html"], cwd=room,
           env={**os.environ, **ZONE})
    shown = texts_of(room / "set.html")
    first, stuck, waits = side.moment(1), side.moment(177), side.moment(198)
    for what, due in (("a group", f"16,172 {stuck}"), ("another group", f"18,140 {waits}"),
                      ("a call", f"16172 {stuck} client 451"),
                      ("a call that hangs", "IHello code 6 open ≥ 3.18 s"),
                      ("what a thread did", f"16172 177 {stuck} ┌ BC_TRANSACTION"),
                      ("the axis of growth", f"buffers {first} "),
                      ("the zone", "seq at XST "),
                      ("the head", f"Recorded on 2026-11-28 from {clock_of(1795829816129412140)} to ")):
        compare(f"{what} has its time, {due}", due in shown, True, fail)
    view(folder, room, "set.cap", "--no-side", "-o", "none.html")
    compare("times without a side list", re.findall(r"\d\d:\d\d:\d\d|\d\.\d{3} s", texts_of(room / "none.html")), [],
            fail)
    untimed = "place caller served by", "place size thread row of the report"
    compare("columns without times", [one for one in untimed if one not in texts_of(room / "none.html")], [], fail)
    view(folder, room, *stored("oneway"), "-o", "oneway.html")
    compare("a oneway send in what a thread did", "BC_TRANSACTION oneway handle=" in texts_of(room / "oneway.html"),
            True, fail)
