"""Checks what the guests of other checks are made of and followed by, without a guest.

    checks/run guests

- A first file system has what its list names, with folders, links and modes, as `cpio` unpacks it.
- What is kept is taken again, and made anew if a file of it was changed.
- The kernel that an image has packed is booted in its place, if QEMU can begin with it.
- A guest that stands still is told: one that says nothing for long while it has a processor, and one of which nothing
  runs. One that waits for a processor which others have is not ended, and neither is one that says something.
- What a guest says of its plan is told, and so is what was wrong.
"""

import argparse
import lzma
import os
import pathlib
import subprocess
import sys
import time
from typing import Iterator

from checks.kit.checking import Fail, check, compare
from checks.recorder.guest import boot, image, kept, kernels


def check_image(room: pathlib.Path, fail: Fail) -> None:
    (room / "from").mkdir()
    (room / "from/file").write_text("text", "utf-8")
    (room / "from/link").symlink_to("file")
    image.write({"bin/sh": image.Link("busybox"), "a/b/data": b"123", "folder": room / "from", "empty": None},
                room / "image")
    (room / "to").mkdir()
    subprocess.run(["cpio", "-i", "--quiet"], stdin=(room / "image").open("rb"), cwd=room / "to", check=True)
    came = sorted(f"{path.relative_to(room / 'to')} {os.readlink(path) if path.is_symlink() else ''}".strip()
                  for path in (room / "to").rglob("*"))
    compare("what is in an image", came, ["a", "a/b", "a/b/data", "bin", "bin/sh busybox", "empty", "folder",
                                          "folder/file", "folder/link file"], fail)
    compare("its file", (room / "to/a/b/data").read_bytes(), b"123", fail)


def check_kept(room: pathlib.Path, fail: Fail) -> None:
    made = []

    def make(to: pathlib.Path) -> None:
        made.append(to)
        (to / "file").write_text("as made", "utf-8")
    kept.CACHE = room / "cache"
    kept.say = lambda *_: None
    for what, change, due in (("first", None, 1), ("again", None, 1), ("after a change", "other", 2)):
        folder = kept.kept("thing", ["part"], make)
        if change:
            (folder / "file").write_text(change, "utf-8")
            folder = kept.kept("thing", ["part"], make)
        compare(f"how often it was made, {what}", len(made), due, fail)
        compare(f"what is kept, {what}", (folder / "file").read_text("utf-8"), "as made", fail)
    if kept.kept("thing", ["other part"], make) == folder:
        fail("what is made of other parts is in the same folder")


def check_unpacked(room: pathlib.Path, fail: Fail) -> None:
    for note, due in ((0x12, True), (0x13, False)):
        source = f'.section .note.Xen, "a", @note\n.long 4, 8, {note}\n.string "Xen"\n.quad 0x1000\n'
        subprocess.run(["gcc", "-nostdlib", "-static", "-Wl,-e0", "-o", room / "kernel", "-x", "assembler", "-"],
                       input=source.encode(), check=True)
        packed = b"head" + lzma.compress((room / "kernel").read_bytes()) + b"tail"
        came = kernels.unpack(packed, room / "unpacked")
        compare(f"whether a kernel with the note {note:#x} is booted", came, due, fail)
        compare("what an image has packed", (room / "unpacked").read_bytes(), (room / "kernel").read_bytes(), fail)


class Program(boot.Running):
    """A program in place of an emulator."""

    def __init__(self, room: pathlib.Path, script: str, *before: str) -> None:
        self.console, self.began, self.end_of_line, self.last_used = room / "console", time.monotonic(), 0, 0.0
        with self.console.open("wb") as out:
            self.process = subprocess.Popen([*before, sys.executable, "-c", script], stdout=out)


SPIN, SLEEP = "while True: pass", "import time; time.sleep(60)"
SAYS = "import time\nfor _ in range(40): print(\"guest: 1\", flush=True); time.sleep(0.1)"


def check_silence(room: pathlib.Path, fail: Fail) -> None:
    boot.MOST_SILENT, boot.MOST_IDLE = 2, 2
    for what, script, due in (("a guest that works and says nothing", SPIN, "it has said nothing for"),
                              ("one of which nothing runs", SLEEP, "nothing of it has run for"),
                              ("one that says something", SAYS, "None")):
        running = Program(room, script)
        try:
            came = str(boot.follow(running, lambda _: None))
        finally:
            running.end()
        if not came.startswith(due):
            fail(f"{what}: {came}")


def check_starved(room: pathlib.Path, fail: Fail) -> None:
    """Of two on one processor the one that is last in line has hardly any of it, and is not idle."""
    one = min(os.sched_getaffinity(0))
    others = [Program(room, SPIN, "taskset", "-c", str(one)) for _ in range(2)]
    starved = Program(room, SPIN, "taskset", "-c", str(one), "nice", "-n", "19")
    try:
        came = str(boot.follow(starved, lambda _: None, lambda: time.monotonic() - starved.began > 5))
    finally:
        for program in (*others, starved):
            program.end()
    compare("one that waits for a processor", came, "None", fail)


class Ending(Program):
    """One whose threads end: first one of two, then both."""
    left: list[list[str]] = [["7000000000 0 1", "1000000000 0 1"], ["1000000000 0 1"], []]

    def threads(self, file: str) -> Iterator[str]:
        return iter(self.left.pop(0))


def check_ending(room: pathlib.Path, fail: Fail) -> None:
    ending = Ending(room, "pass")
    compare("what one that ends has had of a processor", [ending.used() for _ in range(3)], [8.0, 8.0, 8.0], fail)
    ending.process.wait()


def check_told(room: pathlib.Path, fail: Fail) -> None:
    said: list[str] = []
    boot.say = said.append
    told = boot.Told(Program(room, "pass"), "out", 2)
    for line in ("guest: begins", "guest: ended a status=0 seconds=1.5", "guest: wrong: b takes more than 9 s", "more"):
        told.hear(line)
    compare("what was wrong", told.wrong, ["b takes more than 9 s"], fail)
    compare("whether the plan is done", (told.done, told.is_done), (1, False), fail)
    if not any("1 of 2  a: status 0, 1.5 s of the guest" in line for line in said):
        fail(f"a line of the plan: {said}")


def judge(_: argparse.Namespace, room: pathlib.Path, fail: Fail) -> None:
    for one in (check_image, check_kept, check_unpacked, check_silence, check_starved, check_ending, check_told):
        one(room, fail)


if __name__ == "__main__":
    check(judge)
