"""A recording of a part of a system, made of one of all of it: what `./record --pid` or `--device` would have written
of the same session. Its frames and lines are those of some openings, with numbers of their own; the copies of the
driver's books are whole, as there."""

import re
from bisect import bisect_right
from collections.abc import Collection
from typing import NamedTuple

from checks.kit.frames import FILE_HEADER, HEADER, frames_of
from checks.kit.side_lists import unpacked

# A process of a capture: its device and its number.
Opening = tuple[int, int]

# Words of lines about an opening: where its device and its process are in the line.
OF_OPENING = {"process": 2, "command": 2, "thread": 2, "calls": 2, "handle": 2, "end thread": 3, "end opening": 3}
# Words of lines about a frame, whose number is the third word of the line.
OF_FRAME = ("frame", "lost", "late", "unattached", "call")


class Part(NamedTuple):
    """The capture and the side list, and of each frame where it begins, in the part and in the whole."""
    capture: bytes
    side: str
    begins: list[tuple[int, int]]

    def place_in_whole(self, place: int) -> int:
        """Where a record is in the whole capture."""
        begin, there = self.begins[bisect_right(self.begins, place, key=lambda one: one[0]) - 1]
        return there + place - begin


def openings_of(side: str) -> dict[Opening, int]:
    """The openings of a side list, with their processes."""
    return {(int(device), int(process)): int(pid) for device, process, pid in
            re.findall(r"^\d+ process (\d+) (\d+) pid=(\d+)", side, re.MULTILINE)}


def is_of_others(words: list[str], openings: Collection[Opening], pids: Collection[int]) -> bool:
    """Whether a line of the side list is about what is not recorded."""
    word = words[1]
    kind = f"end {words[2]}" if word == "end" else word
    if kind in OF_OPENING:
        at = OF_OPENING[kind]
        return (int(words[at]), int(words[at + 1])) not in openings
    if kind == "end pid":
        return int(words[3]) not in pids
    if word == "device":
        return int(words[2]) not in {device for device, _ in openings}
    if word == "lost" and words[3].startswith("device="):
        return (number_of(words[3]), number_of(words[4])) not in openings
    return word in ("name", "met") and number_of(next(it for it in words if it.startswith("pid="))) not in pids


def number_of(field: str) -> int:
    return int(field.partition("=")[2])


def narrowed_side(side: str, openings: Collection[Opening], option: str, frames: Collection[int]
                  ) -> tuple[str, dict[int, int]]:
    """The side list, and the new number of each frame that is left. `frames`: the numbers of those of the capture."""
    pids = {pid for opening, pid in openings_of(side).items() if opening in openings}
    lines = [line.split(" ") for line in unpacked(side).splitlines()]
    taken = sorted({*frames, *(int(words[2]) for words in lines if words[1] == "lost"
                               and not is_of_others(words, openings, pids))})
    numbers = {number: at for at, number in enumerate(taken, 1)}
    made = []
    for words in lines:
        line = " ".join(words)
        if words[0].isdigit():
            if is_of_others(words, openings, pids) or words[1] in OF_FRAME and int(words[2]) not in numbers:
                continue
            if words[1] in OF_FRAME:
                line = " ".join([*words[:2], str(numbers[int(words[2])]), *words[3:]])
            line = re.sub(r" (after|from)=(\d+)", lambda it: f" {it[1]}={bisect_right(taken, int(it[2]))}", line)
            if words[1] == "begin":
                line = re.sub("(?= drivers=)|$", f" narrowed={option}", line, count=1)
            line = re.sub(r"frames=\d+ lost=\d+$", f"frames={len(frames)} lost={len(taken) - len(frames)}", line)
        made.append(f"{line}\n")
    return "".join(made), numbers


def part_of(capture: bytes, side: str, openings: Collection[Opening], option: str) -> Part:
    """What is recorded if these openings alone are; `option` is what the side list says of it, as `pid:412`."""
    kept = [one for one in frames_of(capture) if (one.device, one.process) in openings]
    made_side, numbers = narrowed_side(side, openings, option, [one.sequence for one in kept])
    made, begins = bytearray(capture[:FILE_HEADER]), []
    for one in kept:
        begins.append((len(made), one.place))
        whole = capture[one.place:one.end]
        _, *others = HEADER.unpack_from(whole)
        made += HEADER.pack(numbers[one.sequence], *others) + whole[HEADER.size:]
    return Part(bytes(made), made_side, begins)
