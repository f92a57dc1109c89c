"""Boots a guest, and follows it to its end.

The guest says on its console what it begins and ends, and each ten seconds of its own time that it is there
(init.sh). Its limits are of its own time, and init.sh sees to them. Here is told how far it is; and a guest that stands
still is ended, which one that only waits for a processor of a busy host does not: what counts is the processor time
that it has had since it said something, and the time in which it neither had a processor nor waited for one.
"""

import contextlib
import os
import pathlib
import re
import subprocess
import tempfile
import time
from typing import Callable, Iterator, NamedTuple, Sequence

from checks.recorder.guest import image
from checks.recorder.guest.kept import say
from checks.recorder.guest.kernels import Kernel, content_of
from checks.recorder.guest.machines import Machine, Processors

# A guest stands still that says nothing for so many seconds of a processor, or of which nothing ran for so many.
MOST_SILENT, MOST_IDLE = 400, 120
HERE = pathlib.Path(__file__).resolve().parent


class Guest(NamedTuple):
    """A guest: its kernel, what its first file system has beside its modules, its processors and memory, more words for
    the kernel and for QEMU, and the bytes of its disk, on which it leaves results."""
    machine: Machine
    kernel: Kernel
    files: image.Files
    processors: Processors
    memory: str = "2G"
    words: str = ""
    more: Sequence[str] = ()
    disk: int = 3 << 30


def with_modules(guest: Guest) -> image.Files:
    files: image.Files = {f"modules/{path.name.removesuffix('.xz')}": content_of(path)
                          for path in guest.kernel.modules}
    order = [name.removeprefix("modules/") for name in files if "binder_linux" not in name]
    return {**guest.files, **files, "modules/order": "".join(f"{name}\n" for name in order),
            "guest.sh": HERE / "init.sh"}


class Running:
    """A guest that runs. `console` has what it says."""

    def __init__(self, guest: Guest, room: pathlib.Path, console: pathlib.Path) -> None:
        self.console, self.began, self.end_of_line, self.last_used = console, time.monotonic(), 0, 0.0
        self.disk = room / "disk"
        with self.disk.open("wb") as disk:
            disk.truncate(guest.disk)
        image.write(with_modules(guest), room / "initramfs")
        words = ["nice", "-n", str(max(0, 10 - os.nice(0))), *guest.machine.emulator, *guest.processors.words,
                 "-smp", str(guest.processors.number), "-m", guest.memory, "-nographic", "-no-reboot", "-nodefaults",
                 "-serial", "stdio", "-kernel", str(guest.kernel.image), "-initrd", str(room / "initramfs"),
                 "-drive", f"file={self.disk},format=raw,if=virtio", *guest.more,
                 "-append", f"{guest.machine.words} panic=-1 quiet rdinit=/init {guest.words}"]
        with console.open("wb") as out:
            self.process = subprocess.Popen(words, stdin=subprocess.DEVNULL, stdout=out, stderr=subprocess.STDOUT)

    def lines(self) -> Iterator[str]:
        """What it said since it was asked last."""
        with self.console.open("rb") as said:
            said.seek(self.end_of_line)
            for line in said:
                if not line.endswith(b"\n"):
                    return
                self.end_of_line += len(line)
                yield line.decode(errors="replace").rstrip()

    def used(self) -> float:
        """The seconds for which it had a processor. While it ends, its threads go one after another."""
        self.last_used = max(self.last_used, sum(int(text.split()[0]) for text in self.threads("schedstat")) / 1e9)
        return self.last_used

    def is_runnable(self) -> bool:
        """Whether it has a processor or waits for one."""
        return any(text.rpartition(") ")[2].startswith("R") for text in self.threads("stat"))

    def threads(self, file: str) -> Iterator[str]:
        """What this file of /proc has of each of its threads."""
        for path in pathlib.Path(f"/proc/{self.process.pid}/task").glob(f"*/{file}"):
            with contextlib.suppress(OSError):  # a thread that has ended
                yield path.read_text("utf-8")

    def end(self) -> None:
        self.process.kill()
        self.process.wait()


class Silence:
    """For how long a guest has said nothing."""

    def __init__(self, running: Running) -> None:
        self.running = running
        self.heard()

    def heard(self) -> None:
        self.heard_at = self.ran = self.running.used()
        self.ran_at = time.monotonic()

    def why(self) -> str | None:
        """Why a guest stands still; None if it does not."""
        ran = self.running.used()
        if ran > self.ran or self.running.is_runnable():
            self.ran, self.ran_at = ran, time.monotonic()
        idle = time.monotonic() - self.ran_at
        if ran - self.heard_at > MOST_SILENT:
            return f"it has said nothing for {ran - self.heard_at:.0f} s of the processor"
        if idle > MOST_IDLE:
            return f"nothing of it has run for {idle:.0f} s"
        return None


def follow(running: Running, hear: Callable[[str], None], is_over: Callable[[], bool] = lambda: False) -> str | None:
    """Hears what a guest says until it has ended, or until something is over. Returns why a guest was ended that stood
    still."""
    silence = Silence(running)
    while running.process.poll() is None and not is_over():
        for line in running.lines():
            silence.heard()
            hear(line)
        if why := silence.why():
            running.end()
            return why
        time.sleep(0.5)
    for line in running.lines():
        hear(line)
    return None


class Told:
    """Tells how far a guest is with the lines of its plan: for each its status, and the seconds that it took in the
    guest and of the processor. Each line begins with what the guest is called: others may run beside it."""

    def __init__(self, running: Running, what: str, count: int) -> None:
        self.running, self.what, self.count, self.done, self.is_done = running, what, count, 0, False
        self.used = 0.0
        self.wrong: list[str] = []

    def hear(self, line: str) -> None:
        used = self.running.used()
        if found := re.fullmatch(r"guest: ended (\S+) status=(.*) seconds=(\S+)", line):
            self.done += 1
            say(f"{self.what}: {self.done} of {self.count}  {found[1]}: status {found[2]}, {float(found[3]):.1f} s of"
                f" the guest, {used - self.used:.1f} s of the processor")
            self.used = used
        elif line == "guest: begins":
            say(f"{self.what}: begun after {used:.1f} s of the processor")
            self.used = used
        elif line == "guest: done":
            self.is_done = True
        elif line.startswith("guest: wrong: "):
            self.wrong.append(line.removeprefix("guest: wrong: "))
            say(f"{self.what}: {self.wrong[-1]}")


def boot(guest: Guest, what: str, count: int, to: pathlib.Path) -> str | None:
    """Boots a guest that plays a plan of so many lines, and unpacks into a folder what it leaves. Returns what was
    wrong with it."""
    to.mkdir(parents=True, exist_ok=True)
    with tempfile.TemporaryDirectory(prefix="checks-guest.") as room:
        own = ", in its own time" if "-icount" in guest.processors.words else ""
        say(f"boot {what}: {guest.kernel.version} for {guest.machine.name}, processors: {guest.processors.number}{own};"
            f" {count} to play")
        running = Running(guest, pathlib.Path(room), to / "console")
        told = Told(running, what, count)
        try:
            why = follow(running, told.hear)
        finally:
            running.end()
        subprocess.run(["tar", "xif", running.disk, "-C", to], stderr=subprocess.DEVNULL)  # archives with zeros between
    if why is None and not told.is_done:
        why = "it ended before its plan did"
    say(f"guest {what}: {told.done} of {count} played, {time.monotonic() - running.began:.0f} s by the clock")
    return f"the guest {what}: {why}: see {to / 'console'}" if why else "; ".join(told.wrong) or None
