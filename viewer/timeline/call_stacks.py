"""The stacks of calls in a trace of Perfetto: functions at places of files, by build-id, with our names."""

import sqlite3

from viewer.timeline.interned import Interned
from viewer.timeline.wire import number

# Fields of InternedData, and of what is in its lists after the number of each.
FUNCTION_NAMES, FRAMES, CALLSTACKS, BUILD_IDS, MAPPING_PATHS, MAPPINGS = 5, 6, 7, 16, 17, 19
FRAME_IDS = 2
FUNCTION, MAPPING, PLACE = 2, 3, 4
BUILD_ID, PATHS = 2, 7

# The stack of a TrackEvent.
CALLSTACK = 56


class CallStacks:
    """Tells of each stack once."""

    def __init__(self, database: sqlite3.Connection, interned: Interned):
        self.database, self.interned = database, interned
        self.known: dict[int, bytes] = {}

    def of(self, stack: int) -> bytes:
        """A stack as a field of an event."""
        if stack not in self.known:
            frames = b"".join(number(FRAME_IDS, self.frame(*row)) for row in self.database.execute(
                "SELECT pc, path, build_id, address, function FROM stack WHERE stack = ? ORDER BY idx DESC,"
                " inlined DESC", (stack,)))
            self.known[stack] = number(CALLSTACK, self.interned.number_of(CALLSTACKS, frames, False))
        return self.known[stack]

    def frame(self, pc: int, path: str | None, build_id: str | None, address: int | None, function: str | None) -> int:
        """A function, at the place that the symbols of its file count; where nothing is mapped, at its address."""
        number_of = self.interned.number_of
        place = pc if address is None else address
        body = number(MAPPING, self.mapping(path, build_id)) + number(PLACE, place % 2**64)
        if function:
            body += number(FUNCTION, number_of(FUNCTION_NAMES, function.encode(errors="replace")))
        return number_of(FRAMES, body, False)

    def mapping(self, path: str | None, build_id: str | None) -> int:
        number_of = self.interned.number_of
        name = "not mapped" if path is None else path or "no file"
        body = number(BUILD_ID, number_of(BUILD_IDS, bytes.fromhex(build_id))) if build_id else b""
        for part in name.strip("/").split("/"):
            body += number(PATHS, number_of(MAPPING_PATHS, part.encode(errors="replace")))
        return number_of(MAPPINGS, body, False)
