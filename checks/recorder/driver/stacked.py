"""What the side list of a recording with stacks must have."""

import re
import struct
from typing import NamedTuple

from checks.kit.captures import BC_TRANSACTION
from checks.kit.frames import records_of
from checks.recorder.driver.recording import numbers
from viewer.database import symbols

# The commands that make the recorder take the stack of their call, by number.
WITH_STACK = {0, 1, 3, 4, 5, 14, 15, 17, 18}


class Map(NamedTuple):
    start: int
    end: int
    address: int | None
    build_id: str
    path: str


class Stacks:
    """The stacks of a recording, with the functions of the program of the scenario."""

    def __init__(self, recording, program):
        self.calls = dict(map(numbers, recording.told(r"^\d+ call (\d+) stack=(\d+)$")))
        self.lines = recording.told(r"^\d+ stack (\d+) memory=(\d+) pid=\d+ pcs=(\S+)$")
        self.stacks = {int(stack): (int(memory), [int(pc, 16) for pc in pcs.split(",")])
                       for stack, memory, pcs in self.lines}
        self.unstacked = sum(map(int, recording.told(r"^\d+ unstacked (\d+) ")))
        self.unmapped = len(recording.told(r"^\d+ unmapped "))
        self.maps = {}
        for memory, start, end, address, build_id, path in recording.told(
                r"^\d+ map (\d+) pid=\d+ start=0x(\w+) end=0x(\w+) offset=0x\w+ address=(\S+) build-id=(\S+)"
                r" name=(.*)$"):
            known = None if address == "-" else int(address, 16)
            self.maps.setdefault(int(memory), []).append(Map(int(start, 16), int(end, 16), known, build_id, path))
        self.names = self.named(program) if program else {}

    def named(self, program):
        """The functions of each place in the program that a stack has, by the address of its symbols."""
        build_id = symbols.build_id_of(str(program))
        places = {(memory, pc): self.map_of(memory, pc) for memory, pcs in self.stacks.values() for pc in pcs}
        places = {place: one.address + place[1] - one.start for place, one in places.items()
                  if one and one.build_id == build_id}
        functions = symbols.functions_at([(str(program), address - 1) for address in places.values()]) if places else []
        return {place: [one.name for one in found] for place, found in zip(places, functions)}

    def map_of(self, memory, pc):
        return next((one for one in self.maps.get(memory, ()) if one.start < pc <= one.end), None)

    def frames(self, number):
        """The path and the functions of each frame of the stack of a call, the innermost one first."""
        memory, pcs = self.stacks.get(self.calls.get(number), (0, []))
        maps = [self.map_of(memory, pc) for pc in pcs]
        return [(one.path if one else None, self.names.get((memory, pc), [])) for one, pc in zip(maps, pcs)]


def needs_stack(frame):
    return frame.direction == 1 and any(word & 0xff in WITH_STACK for word, _ in records_of(frame.commands))


def stack_differences(recording, is_frameless, program):
    """Each call that needs one has a stack, which is told once and before it, and whose addresses are mapped."""
    stacks = Stacks(recording, program)
    due = {frame.sequence for frame in recording.frames if needs_stack(frame)}
    if len(due - stacks.calls.keys()) > stacks.unstacked:
        yield "stacks", "all", "missing", len(due - stacks.calls.keys()), stacks.unstacked
    yield "stacks", "all", "untold", len(set(stacks.calls.values()) - stacks.stacks.keys()), 0
    yield "stacks", "all", "twice", len(stacks.lines), len(stacks.stacks)
    first = {int(stack): at for at, stack in ((found.start(), found[1]) for found in re.finditer(
        r"^\d+ stack (\d+) ", recording.side, re.M))}
    early = [found[1] for found in re.finditer(r"^\d+ call \d+ stack=(\d+)$", recording.side, re.M)
             if first.get(int(found[1]), 0) > found.start()]
    yield "stacks", "all", "early", len(early), 0
    innermost = {(memory, pcs[0]) for memory, pcs in stacks.stacks.values()}
    unknown = [pc for memory, pc in innermost if stacks.map_of(memory, pc) is None and memory in stacks.maps]
    yield "stacks", "all", "unknown", len(unknown), 0
    yield "stacks", "all", "unmapped", stacks.unmapped, 0
    if program:
        yield from name_differences(recording, is_frameless, stacks)


# By the code of a send of the scenario forgetful: the functions that its stack must have, the innermost one first. The
# one that makes the system call is not there, as the C library keeps no frame pointers.
DUE = {120: ["send_parcel", "refresh_settings"], 121: ["send_parcel", "read_status", "draw_screen"]}
OF_SCENARIO = {"turn", "send_parcel", "refresh_settings", "read_status", "draw_screen", "start_up"}


def sent_codes(frame):
    return {struct.unpack_from("<I", payload, 16)[0] for word, payload in records_of(frame.commands)
            if frame.direction == 1 and word == BC_TRANSACTION}


def name_differences(recording, is_frameless, stacks):
    """Of a program with frame pointers the functions are there. Of one without them only the C library's function is
    certain that makes the system call."""
    whole = seen = 0
    for frame in recording.frames:
        for code in sent_codes(frame) & DUE.keys():
            frames, due = stacks.frames(frame.sequence), DUE[code]
            if not frames or not (frames[0][0] or "").endswith("/libc.so.6"):
                yield "stacks", "all", "innermost", frames[:1], "libc.so.6"
            called = [name for _, functions in frames for name in functions if name in OF_SCENARIO][:len(due)]
            seen += 1
            whole += called == due
            if not is_frameless:
                yield "stacks", "all", f"code-{code}", called, due
    yield "stacks", "all", "seen", seen > 0, True
    if is_frameless:
        yield "stacks", "all", "all-whole", whole == seen, False
