"""Captures that were cut, and captures with lost frames."""

import bisect
import pathlib
import re
import shutil
import sqlite3
import struct
from collections import Counter
from typing import Callable, NamedTuple

from checks.kit.checking import Fail, compare
from checks.kit.frames import Frame, frames_of
from checks.viewer.page.common import groups_due, groups_of, loaded, texts_stored, without_numbers

# The scenarios that are cut. `gaps` has no fault either; but cut before its gap, it has replies that are freed later.
FAULTLESS = ("clean", "nested", "threads", "signals", "secctx", "reuse", "fork", "slow", "lookups")
CUTS = 15


def met_later(side: str, first: int) -> str:
    """The side list of a recorder that began at this sequence: it met in mid-life what was opened before."""
    lines, so_far = [], 0
    for line in side.splitlines(keepends=True):
        words = line.split(" ")
        if words[1:2] == ["frame"]:
            so_far = int(words[2])
        if words[1:2] == ["process"] and so_far + 1 < first:
            line = line.replace(" met=from-start ", " met=in-mid-life ")
        lines.append(line)
    return "".join(lines)


def check_cuts(folder: pathlib.Path, room: pathlib.Path, name: str, cut: int, fail: Fail) -> None:
    """Checks one capture without a fault, cut at one place in four ways."""
    capture, side = texts_stored(name)
    frames = frames_of(capture)
    place, sequence, *_ = frames[max(1, min(len(frames) - 1, len(frames) * (2 * cut + 1) // (2 * CUTS)))]
    for way, data, list_ in (("end", capture[:place], None), ("end with the side list", capture[:place], side),
                             ("front", capture[:16] + capture[place:], None),
                             ("front, met in mid-life", capture[:16] + capture[place:], met_later(side, sequence))):
        here = room / f"{name}-{cut}-{way.replace(' ', '-')}"
        here.mkdir()
        (here / "cut.cap").write_bytes(data)
        (here / "cut.side").write_text(list_ or "", "utf-8", errors="surrogateescape")
        database = loaded(folder, here / "cut.db", [here / "cut.cap"], here / "cut.side" if list_ else None)
        real = database.execute("SELECT title, path, rules FROM finding_group WHERE verdict = 'real'").fetchall()
        compare(f"{name}, cut {cut} from the {way}: real", real, [], fail)
        database.close()
        shutil.rmtree(here)


class Loss(NamedTuple):
    """Which frames a recorder loses, by their index in the capture, whether the side list says whose they were, and
    whether they had numbers."""
    name: str
    is_lost: Callable[[int, int, Frame], bool]
    told: bool
    numbered: bool = True


def busiest(frames: list[Frame]) -> tuple[int, int]:
    """The process with the most frames."""
    return Counter((frame.device, frame.process) for frame in frames).most_common(1)[0][0]


def losses(frames: list[Frame]) -> list[Loss]:
    who = busiest(frames)
    return [
        Loss("a stretch, named", lambda at, count, _: count // 3 <= at < count // 2, True),
        Loss("a stretch, by number", lambda at, count, _: count // 2 <= at < 2 * count // 3, False),
        Loss("each seventh, named", lambda at, _, __: at % 7 == 5, True),
        Loss("each fifth, by number", lambda at, _, __: at % 5 == 3, False),
        Loss("writes of one process", lambda at, count, frame: count // 4 <= at < 3 * count // 4
             and frame.direction == 1 and (frame.device, frame.process) == who, True),
        Loss("reads of one process", lambda at, count, frame: count // 4 <= at < 3 * count // 4
             and frame.direction == 2 and (frame.device, frame.process) == who, True),
        Loss("each sixth, without a number", lambda at, _, __: at % 6 == 4, False, numbered=False)]


def without_numbers_of(lost: set[int], capture: bytes, side: str) -> tuple[bytes, str]:
    """A capture and its side list that lack frames. All later numbers fall, as if the lost ones had never been taken,
    and a line tells of each loss."""
    def fallen(number: int) -> int:
        return number - bisect.bisect_right(sorted_lost, number)
    sorted_lost, made = sorted(lost), bytearray(capture)
    for frame in frames_of(capture):
        struct.pack_into("<Q", made, frame.place, fallen(frame.sequence))
    lines = []
    for line in side.splitlines(keepends=True):
        time, word, *rest = line.split()
        if word == "lost" and int(rest[0]) in lost:
            at = fallen(int(rest[0]))
            lines.append(f"{time} missed 1 what=events from={at} after={at}\n")
            continue
        lines.append(re.sub(r"( after=|^\d+ (?:frame|late|lost|unattached|call) )(\d+)",
                            lambda found: found[1] + str(fallen(int(found[2]))), line))
    return bytes(made), "".join(lines)


def without(capture: bytes, side: str, loss: Loss) -> tuple[bytes, str]:
    """A capture and its side list without the lost frames. The first and the last frame stay."""
    frames = frames_of(capture)
    lost = {frame.sequence: frame for at, frame in enumerate(frames)
            if 0 < at < len(frames) - 1 and loss.is_lost(at, len(frames), frame)}
    kept = b"".join(capture[frame.place:frame.end] for frame in frames if frame.sequence not in lost)
    lines = []
    for line in side.splitlines(keepends=True):
        time, word, *rest = line.split()
        frame = lost.get(int(rest[0])) if word in ("frame", "late", "unattached", "call") else None
        if frame is None:
            lines.append(line)
        elif word == "frame":
            whose = f" device={frame.device} process={frame.process} thread={frame.thread}" if loss.told else ""
            lines.append(f"{time} lost {rest[0]}{whose} why=ring-full\n")
    if not loss.numbered:
        return without_numbers_of(set(lost), capture[:16] + kept, "".join(lines))
    return capture[:16] + kept, "".join(lines)


def real_of(groups: list[tuple[str, ...]]) -> set[tuple[str, str]]:
    """What is real, by kind and path."""
    return {(title, path) for verdict, title, _, _, path, _ in groups if verdict == "real"}


def bad_data_of(database: sqlite3.Connection) -> set[tuple[str, str]]:
    """What is real by the data of one record, whatever else is missing."""
    return {(title, without_numbers(path)) for title, path in database.execute(
        "SELECT title, path FROM finding_group WHERE grp IN (SELECT grp FROM finding_head JOIN finding USING (id)"
        " WHERE rule = 'O1')")}


def check_gaps(folder: pathlib.Path, room: pathlib.Path, name: str, fail: Fail) -> None:
    """Checks a capture with lost frames: only what is real in the whole capture is real. Where the frame is lost that
    gives a handle, its path does not name the node. A small one may have no frames of a kind to lose."""
    capture, side = texts_stored(name)
    due, missed_before = real_of(groups_due(name)), len(re.findall(r"^\d+ missed ", side, re.MULTILINE))
    due |= {(title, path.partition(", ")[0]) for title, path in due if path.startswith("handle ")}
    for number, loss in enumerate(losses(frames_of(capture))):
        here = room / f"{name}-lost-{number}"
        data, list_ = without(capture, side, loss)
        if data == capture:
            continue
        here.mkdir()
        (here / "lost.cap").write_bytes(data)
        (here / "lost.side").write_text(list_, "utf-8", errors="surrogateescape")
        database = loaded(folder, here / "lost.db", [here / "lost.cap"], here / "lost.side")
        missing, doubt, missed = database.execute(
            "SELECT c.missing, (SELECT value FROM capture WHERE key = 'side_doubt'), (SELECT count(*) FROM side_missed)"
            " FROM raw_capture c").fetchone()
        compare(f"{name}, {loss.name}: frames are missing, and the list tells of them",
                (missing > 0 or not loss.numbered, missed > missed_before, doubt), (True, not loss.numbered, None),
                fail)
        compare(f"{name}, {loss.name}: real", real_of(groups_of(database)) - due - bad_data_of(database), set(), fail)
        database.close()
        shutil.rmtree(here)
