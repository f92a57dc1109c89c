"""What is said of a set that a flight recorder has kept: why, on the page and by --groups; and which group is about it.
"""

import html
import pathlib
import re
from typing import NamedTuple

from checks.kit.checking import Fail, compare
from checks.kit.frames import HEADER, frames_of
from checks.viewer.page.common import texts_stored, view
from viewer.terminal import field_of, shown


class Case(NamedTuple):
    """A line `kept`: its word, the place of its record, its process and more fields; the sentence that comes of it, and
    the kind of the group that is about it."""
    why: str
    place: int | None
    pid: int | None
    more: str
    text: str
    kind: str | None = None


# In hello-stuck a call to 444 hangs, and another one waits for it.
BUSY = "calls that keep a pool busy"
CASES = (
    Case("hang", 16172, 451, "since=445000000000 limit=2 name=", "IHello code 6 has been open for 3.0 s", BUSY),
    Case("hang", 18140, 454, "since=446949999999 limit=2 name=", "IHello code 1 has been open for 1.1 s", BUSY),
    Case("hang", None, 454, "since=445000000000 limit=2 name=", "a call of client 454 has been open for 3.0 s"),
    Case("hang", None, 7, "since=445000000000 limit=2 name=", "a call of process 7 has been open for 3.0 s"),
    Case("pool", 18140, 444, "since=447000000000 limit=2 name=",
         "all threads of hello 444 have served for 1.0 s, and calls wait", BUSY),
    Case("refused", 18140, 454, "since=447000000000 limit=1200 name=",
         "1,200 sends of client 454 were refused within a second", BUSY),
    Case("death", None, 444, "name=hello", "hello ended"),
    Case("death", None, 9, "name=other", "other ended"),
    Case("asked", None, None, "name=", "somebody asked for it"),
    Case("file", None, None, "name=/tmp/<b>now", "/tmp/<b>now was there"),
    Case("logcat", None, None, "name=ANR in a.b\\x1b[2J \\x5c", "the log said: ANR in a.b\x1b[2J \\"),
    Case("later", None, None, "name=word", "of later word"))

STUCK = "hello-stuck"


def line_of(one: Case, capture: bytes) -> str:
    """The line of the side list."""
    fields = [f"448000000000 kept {one.why} after=198"]
    if one.place is not None:
        frame = next(it for it in frames_of(capture) if it.place <= one.place < it.end)
        fields.append(f"frame={frame.sequence} at={one.place - frame.place - HEADER.size}")
    fields += [] if one.pid is None else [f"pid={one.pid}"]
    return " ".join([*fields, one.more]) + "\n"


def check_why_kept(folder: pathlib.Path, room: pathlib.Path, fail: Fail) -> None:
    """The first line, the first words in columns, and the head of the page, which leads to the group. A whole recording
    has none of these."""
    capture, side = texts_stored(STUCK)
    (room / "set.cap").write_bytes(capture)
    before, end = re.fullmatch(r"(.*\n)(\d+ end recording .*\n)", side, re.DOTALL).groups()  # type: ignore[union-attr]
    for number, one in enumerate((None, *CASES)):
        what, sentence = (one.text, f"kept because {one.text}") if one else ("a whole recording", "")
        (room / "set.side").write_text(before + (line_of(one, capture) if one else "") + end, "utf-8")
        words = "set.cap", "--side", "set.side"
        lines = view(folder, room, *words, "--groups")[1].splitlines()
        first = lines[0].split("\t")
        if not one:
            compare("groups of a whole recording", first[0], "real", fail)
            whole = lines
        else:
            group = next((line.split("\t") for line in whole if line.split("\t")[1] == one.kind), [None] * 11)
            compare(f"{what}: the first line", (*first[:2], first[6], first[8], first[10]),
                    ("kept", one.why, group[6] or "-", field_of(sentence), group[10] or "-"), fail)
            compare(f"{what}: the groups", lines[1:], whole, fail)
        columns = view(folder, room, *words, "--groups", "--columns")[1]
        begins = columns.startswith(f"{shown(sentence)}\n" if one else "verdict ")
        compare(f"{what}: in columns", begins, True, fail)
        view(folder, room, *words, "-o", f"set-{number}.html")
        head = re.search(r'<p class="kept">(.*?)</p>', (room / f"set-{number}.html").read_text("utf-8"), re.DOTALL)
        said = head and html.unescape(re.sub(r"<span class=\"sign\">U\+001B</span>", "\x1b", head[1]))
        compare(f"{what}: the head", (bool(said), sentence in (said or ""), 'href="#group-' in (said or "")),
                (bool(one), True, bool(one and one.kind)), fail)
