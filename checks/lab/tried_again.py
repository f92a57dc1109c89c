"""What leaves a result that lasts, and what leaves none, so that the next run tries again: by a viewer that is made up,
and by files that are no captures."""

import os
import pathlib
from typing import Iterator

from checks.kit.checking import Fail, compare
from checks.kit.programs import DRIVER, preloadable
from checks.kit.runs import answer
from checks.lab.names import made_up, write_script
from checks.lab.played import played
from lab import result
from viewer.files import Stopped

# How the viewer ends; the status of `one`, and what its line says. With status 0 there is a result.
ENDS = {
    "kill -9 $$": (1, "killed by signal 9"),
    "exit 1": (1, "status 1"),
    "echo 'KeyError: 0' >&2; exit 1": (1, "KeyError: 0"),
    "echo 'fault Write' >&2; echo 'view: ./listing ended with status 4' >&2; exit 4":
        (4, "fault Write; view: ./listing ended with status 4"),
    "echo 'view: memory was refused' >&2; exit 3": (3, "view: memory was refused"),
    "for file; do :; done; echo >>\"$file\"; exit 0": (4, "changed while it was read"),
    "echo 'view: the side list belongs to another capture: why' >&2; exit 1":
        (0, "the side list belongs to another capture: why"),
    "sleep 60": (0, "it took longer than 0.5 s")}

ONE = ["--build", "b", "--device", "d", "-o", "made.json"]


def check_line(what: str, came: tuple[int, str, str], status: int, says: str, room: pathlib.Path, fail: Fail) -> None:
    """The status, a line that says why, and a result only with status 0."""
    compare(f"{what}: status, lines, result", (came[0], came[2].count("\n"), (room / "made.json").exists()),
            (status, 1, status == 0), fail)
    compare(f"{what}: it says {says!r}, not {came[2]!r}", says in came[2], True, fail)
    (room / "made.json").unlink(missing_ok=True)


def check_ends(room: pathlib.Path, fail: Fail) -> None:
    """A viewer that ends in each way."""
    folder = made_up(room / "made-up", "")
    for ends, (status, says) in ENDS.items():
        write_script(folder / "view", f"#!/bin/sh\n{ends}\n")
        (room / "s.cap").write_bytes(b"BNDRCAP2")
        came = played(folder / "fleet", "one", "s.cap", *ONE, "--seconds", "0.5", cwd=room)
        check_line(ends, came, status, says, room, fail)
    # What does not depend on the viewer: a clock that is wrong by millennia.
    late = {**os.environ, "LD_PRELOAD": str(preloadable(room, "lab/late_clock.c"))}
    came = answer([folder / "fleet", "one", "s.cap", *ONE, "--seconds", "0"], cwd=room, env=late, encoding="utf-8")
    check_line("a clock of the year 10000", came, 0, "it took longer than 0 s", room, fail)


# ---- files that are no captures


def others(room: pathlib.Path) -> Iterator[tuple[str, list[object], int, str]]:
    """A word for `one`, options, the status and what the line says."""
    capture = (DRIVER / "leaks/capture-1.cap").read_bytes()
    for name, data in (("empty", b""), ("text", b"a text that is no capture\n"), ("cut", capture[:3001])):
        (room / name).write_bytes(data)
    os.mkfifo(room / "pipe")
    (room / "folder").mkdir()
    yield "empty", [], 0, "malformed HeaderShort at 0: empty is no capture"
    yield "text", [], 0, "malformed HeaderMagic at 0: text is no capture"
    yield "cut", [], 0, "malformed FrameLength at "
    yield "pipe", [], 4, "pipe is a pipe or a device"
    yield "folder", [], 4, "folder is a folder"
    yield "/dev/stdin", [], 4, "/dev/stdin is a pipe or a device"
    yield "none", [], 4, "none: No such file or directory"
    yield str(DRIVER / "leaks/capture-1.cap"), ["--side", "pipe"], 4, "pipe is a pipe or a device"
    yield from ((str(DRIVER / "leaks/capture-1.cap"), ["--side", name], 0, says) for name, says in wrong_lists(room))
    yield str(DRIVER / "leaks/capture-1.cap"), ["--methods", "text"], 4, "text"


def wrong_lists(room: pathlib.Path) -> Iterator[tuple[str, str]]:
    """Side lists that are none, or not to the end, as a recorder leaves them whose disk was full: what is wrong with
    each lasts."""
    side = (DRIVER / "leaks/capture.side").read_bytes()
    for name, data, says in (
            ("empty", b"", "empty is empty, and no side list"),
            ("text", b"a text that is no capture\n", "text is not a side list"),
            ("zeros.side", side[:5000] + bytes(3000) + b"\n", "zeros.side has a line without a time"),
            ("word.side", side + b"5 process 1\n", "word.side: the line 'process' at 5 is not valid"),
            ("long.side", side + b"7" * (2**22 + 1) + b"\n", "long.side has a line of more than ")):
        (room / name).write_bytes(data)
        yield name, says


def check_others(folder: pathlib.Path, room: pathlib.Path, fail: Fail) -> None:
    for name, options, status, says in others(room):
        came = played(folder / "fleet", "one", name, *options, *ONE, cwd=room)
        check_line(f"{name} {' '.join(map(str, options))}", came, status, says, room, fail)
    came = played(folder / "fleet", "one", "/dev/stdin", *ONE, cwd=room, stdin=DRIVER / "leaks/capture-1.cap")
    compare("a file on standard input", (came[0], came[2], (room / "made.json").exists()), (0, "", True), fail)
    (room / "made.json").unlink(missing_ok=True)


def check_no_room(room: pathlib.Path, fail: Fail) -> None:
    """A result that can't be written is named, and leaves no part of it."""
    def refuse(_: int) -> None:
        raise OSError(28, "No space left on device")

    said, fsync = "", os.fsync
    os.fsync = refuse
    try:
        result.write(result.failed("why"), room / "made.json")
    except (Stopped, OSError) as stopped:
        said = str(stopped)
    finally:
        os.fsync = fsync
    compare("no room for a result", (said, list(room.glob("*made.json*"))),
            (f"{room}/made.json: No space left on device", []), fail)


def check_tried_again(folder: pathlib.Path, room: pathlib.Path, fail: Fail) -> None:
    room.mkdir()
    check_ends(room, fail)
    check_others(folder, room, fail)
    check_no_room(room, fail)
