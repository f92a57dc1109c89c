"""The stacks of calls, and of a group those that the page shows."""

import functools
import itertools
import os
import re
from collections import Counter
from typing import NamedTuple

from viewer.page.capture import Capture

# The most stacks of a group.
STACKS = 4

# The libraries by which a program calls the driver, and the ones that these call.
BINDER = re.compile(r"lib(binder(_ndk)?|hwbinder(_noltopgo)?|hidlbase|hidltransport|gbinder)\.so[.0-9]*")
BENEATH = re.compile(r"(lib(c|utils|utilscallstack|pthread|gutil|glibutil)|linux-vdso)\.so[.0-9]*|\[vdso\]")


class Frame(NamedTuple):
    """A function of a stack. `path` is None where nothing is mapped, and empty where no file is. `address` is that of
    the file's symbols, and `pc` that of the process: where the function goes on."""
    pc: int
    path: str | None
    build_id: str | None
    address: int | None
    function: str | None
    source: str | None
    is_inlined: bool

    @property
    def file(self) -> str:
        return os.path.basename(self.path or "")

    @property
    def short(self) -> str:
        """The name of a function in a file, or else its place there."""
        return self.function or f"{self.file}+0x{self.address or 0:x}"

    @property
    def key(self) -> "Key":
        """What frames of one function have in common or, if it has no name, those of one place in a file."""
        return self.function or self.address, self.build_id or self.path


Key = tuple[str | int | None, str | None]


class Difference(NamedTuple):
    """What tells two sets of stacks apart: a frame, how many of each set have it, and what those of the second have in
    its place that do not have it, the most frequent one first."""
    frame: Frame
    first: int
    second: int
    instead: list[tuple[Frame, int]]


class Stacks:
    """The stacks of a capture."""

    def __init__(self, capture: Capture):
        self.capture = capture
        self.are_there = capture.count("side_call") > 0
        self.frames = functools.cache(self.frames_of)
        self.shape = functools.cache(self.shape_of)
        self.known = functools.cache(self.known_of)

    def frames_of(self, stack: int) -> list[Frame]:
        """The frames of a stack, the innermost one first. A function that was put into another one has a frame."""
        rows = self.capture.ask("SELECT idx, pc, path, build_id, address, function, source FROM stack WHERE stack = ?"
                                " ORDER BY idx, inlined", stack)
        return [Frame(pc % 2**64, path, build_id, None if address is None else address % 2**64, function,
                      None if source is None else os.path.basename(source), rows[at + 1:at + 2] != []
                      and rows[at + 1][0] == idx)
                for at, (idx, pc, path, build_id, address, function, source) in enumerate(rows)]

    def shape_of(self, stack: int) -> tuple[tuple[str, int], ...]:
        """What stacks have in common that are of the same functions: in each process a file is mapped elsewhere."""
        return tuple(("", frame.pc) if frame.address is None or not frame.path
                     else (frame.build_id or frame.path, frame.address) for frame in self.frames(stack))

    def known_of(self, stack: int) -> dict[Key, Frame]:
        """The frames of a stack that are in a file, the innermost one first."""
        return {frame.key: frame for frame in self.frames(stack) if frame.path and frame.address is not None}

    @functools.cached_property
    def freed(self) -> dict[int, Counter[int]]:
        """For each group of buffers that were not freed, the stacks of others of their paths that were."""
        found: dict[int, Counter[int]] = {}
        for group, stack, count in self.capture.asked("freed_stacks"):
            found.setdefault(group, Counter())[stack] = count
        return found

    def difference(self, first: Counter[int], second: Counter[int]) -> Difference | None:
        """The frame of the most frequent stack of the first set by which both sets differ most: a greater part of the
        first set has it. Of several it is the innermost one; None if there is none."""
        def having(stacks: Counter[int], key: Key) -> int:
            return sum(count for stack, count in stacks.items() if key in self.known(stack))
        found, most = None, 0
        usual = self.known(first.most_common(1)[0][0])
        for key, frame in usual.items():
            ours, theirs = having(first, key), having(second, key)
            if ours * second.total() - theirs * first.total() > most:
                found, most = (frame, ours, theirs), ours * second.total() - theirs * first.total()
        if found is None:
            return None
        frames: dict[Key, Frame] = {}
        often: Counter[Key] = Counter()
        for stack, count in second.items():
            here = self.known(stack)
            other = next((key for key, same in zip(here, itertools.chain(usual, itertools.repeat(None)))
                          if key != same), None)
            if found[0].key not in here and other is not None:
                frames[other] = here[other]
                often[other] += count
        return Difference(*found, [(frames[key], count) for key, count in often.most_common()])


class Shown(NamedTuple):
    """A stack that is shown: its frames, of which record it is, and of how many findings it is the first."""
    frames: list[Frame]
    place: int
    whose: str
    upid: int
    thread: int
    same: int

    @property
    def inner(self) -> int:
        """How many of the innermost frames are libbinder's: they are the same in most stacks. None is if no function
        comes after them that is of another file."""
        at = next((at for at, frame in enumerate(self.frames)
                   if not (BINDER.fullmatch(frame.file) or BENEATH.fullmatch(frame.file))), 0)
        is_through = any(BINDER.fullmatch(frame.file) for frame in self.frames[:at])
        return at if is_through and self.frames[at].path else 0


class GroupStacks:
    """The stacks of a group that are shown: those that tell of its first finding, then the first ones of others, as
    long as they have other functions; and how many more there are of these. `apart` is for buffers: how many they are,
    how many others of their path were freed, and what tells the stacks of both apart."""

    def __init__(self, stacks: Stacks, group: int):
        rows = stacks.capture.asked("stacks", group) if stacks.are_there else []
        shapes = [stacks.shape(stack) for _, _, stack, *_ in rows]
        firsts = [at for at, row in enumerate(rows) if at == 0 or rows[at - 1][0] != row[0]]
        how_often = Counter(shapes[at] for at in firsts)
        shown: dict[object, Shown] = {}
        for at in [*(at for at, row in enumerate(rows) if row[0] == rows[0][0]), *firsts]:
            if shapes[at] not in shown and len(shown) < STACKS:
                _, place, stack, whose, upid, thread = rows[at]
                shown[shapes[at]] = Shown(stacks.frames(stack), place, whose, upid, thread,
                                          how_often[shapes[at]])
        self.shown = list(shown.values())
        self.left = len(how_often.keys() - shown.keys())
        kept, freed = Counter(rows[at][2] for at in firsts), stacks.freed.get(group) if rows else None
        self.apart = None if freed is None else (kept.total(), freed.total(), stacks.difference(kept, freed))
