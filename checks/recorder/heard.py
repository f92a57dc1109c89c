"""Counts the instructions that the recorder's loader takes for a call, and compares them with a ceiling.

    checks/run heard [-- --table]

It builds the parts of the recorder that need no kernel, as `recorder/build.sh` compiles them, and gives them the
messages of calls in a ring (heard.c): a call is two writes and two reads of its client and its service, and a write
and a read that free the buffer and wait. valgrind counts the instructions with which the loader takes these. What the
loader takes of the kernel, and what else it does each time it looks into the ring, is not in it; `checks/run cost`
counts that too, in a guest. The same is counted when a trigger has it follow which calls are open, and when it counts
for --live what goes on, but not the lines that it then writes each second.

The data of a call begins with the token of an interface. A ceiling is some 3 percent above what was counted, on x86-64
with the C library of Debian 12. So a call of malloc or of printf for each message is seen, and any copy of 65,536
bytes. With --table a table is printed.
"""

import argparse
import pathlib
import re
import subprocess

from checks.kit.checking import FLAG, Fail, check, row
from checks.kit.programs import CHECKS

# How many instructions a call may take, by the bytes of its data.
CEILINGS = {128: 10_800, 65_536: 11_900}
# The same while it follows which calls are open; and with --live.
FOLLOWED = {128: 13_100}
LIVE = {128: 13_850, 65_536: 15_270}
CALLS = 400


def counted(program: pathlib.Path, size: int, room: pathlib.Path, *words: str) -> int:
    """How many instructions the loader takes for a call."""
    name = f"{size}{''.join(words)}"
    counts = room / f"{name}.counts"
    subprocess.run(["valgrind", "--quiet", "--tool=callgrind", "--toggle-collect=made_ring_take",
                    f"--callgrind-out-file={counts}", program, room / name, str(size), str(CALLS), *words], check=True)
    totals = re.search(r"^totals: (\d+)$", counts.read_text("utf-8"), re.MULTILINE)
    return int(totals[1]) // CALLS if totals else 0


def judge(given: argparse.Namespace, room: pathlib.Path, fail: Fail) -> None:
    subprocess.run([CHECKS / "recorder/build.sh", "heard", room, "-O2"], check=True)
    if given.table:
        row("data, bytes", "instructions for a call", "ceiling")
    for ceilings, words in (CEILINGS, ()), (FOLLOWED, ("followed",)), (LIVE, ("live",)):
        for size, ceiling in ceilings.items():
            each = counted(room / "heard", size, room, *words)
            if given.table:
                row(" ".join((f"{size:,}", *words)), f"{each:,}", f"{ceiling:,}")
            if not 0 < each <= ceiling:
                fail(f"a call with {size} bytes{' ,'.join(('', *words))}: expected {ceiling} instructions of the loader"
                     f" or less, came {each}")


if __name__ == "__main__":
    check(judge, table=FLAG)
