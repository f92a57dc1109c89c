"""Records the sessions of a blind test set, for `checks/run driver -- --blind`. Of each kernel it leaves the folder
SET-SERIES in the room, with a folder for each session: the captures, their side list, the driver's books, and `dmesg`.
Nothing is judged, and nothing of it is stored.

A set has C sources, which with raw.c, send.c and processes.c of ../scenarios make a program that plays a session, by
the words SESSION FOLDER SEED, and a plan.txt with a line for each session: NAME HOW SESSION SEED. HOW is `blind`,
`blind-live` or `blind-before`: see the head of ../scenarios/init.sh. With `blind-live` main.c calls was_recorded()
before end_all(), so that its processes are alive when the driver's books are copied. A folder `clients` beside them is
put into the guest, for sessions of programs that are not compiled here.

Its only complaints are of a recording that is none: a status other than 0, frames that were lost, events that were
missed. What the kernel had to say of a session is in its `dmesg`, and is part of some sessions."""

import argparse
import pathlib
import re
from typing import TYPE_CHECKING, Iterator

from checks.recorder.guest.boot import Guest, boot
from checks.recorder.guest.kernels import kernel_of
from checks.recorder.guest.kept import say
from checks.recorder.guest.machines import OWN_TIME, X86_64
from checks.recorder.guest.packages import Missing
from checks.recorder.guest.plans import (
    CONFIG_OF_GBINDER, RAW, SCENARIOS, accelerated, compiled, plan_of, plan_text)

if TYPE_CHECKING:
    from checks.recorder.driver.play import Play


def faults_of(folder: pathlib.Path) -> Iterator[str]:
    """What is wrong with a recording of a session."""
    status = (folder / "status").read_text("utf-8") if (folder / "status").exists() else "none"
    if status.split()[0] != "0":
        yield f"status {status.strip()}"
    side = (folder / "capture.side").read_text("utf-8", "surrogateescape") if (folder / "capture.side").exists() else ""
    if not re.search(r" end recording .* lost=0\n\Z", side) or re.search(r"^\d+ missed ", side, re.M):
        yield "frames were lost, or events missed"


def told(folder: pathlib.Path) -> str:
    """How a recording ended, by the recorder's last line."""
    output = (folder / "output").read_text("utf-8", "replace") if (folder / "output").exists() else ""
    return (re.findall(r"^record: .*", output, re.M) or ["it said nothing"])[-1]


def play(given: argparse.Namespace, of: "Play") -> list[str]:
    sessions, wrong, played = given.blind.resolve(), list[str](), 0
    if not (sessions / "plan.txt").exists():
        return [f"{sessions} has no plan.txt, and is no blind test set"]
    # So a source of a set finds ../scenarios/raw.h, wherever the set is.
    program = compiled(X86_64, given.room / "blind", "-static", f"-I{SCENARIOS}", *sorted(sessions.glob("*.c")), *RAW,
                       "-lpthread")
    lines = [words for words in plan_of([sessions / "plan.txt"]) if not given.only or words[0] in given.only]
    if not lines:
        return ["the plan has no such session"]
    files = {**of.files, "blind": program, "plan": plan_text(lines)}
    if (sessions / "clients").exists():
        files |= {"clients": sessions / "clients", "etc/gbinder.conf": CONFIG_OF_GBINDER}
    # Two kernels are enough, unless one is asked for.
    for series in given.kernel or (["rust"] if given.rust else ["6.1", "newest"]):
        try:
            kernel = kernel_of(series, X86_64)
        except Missing as error:
            say(f"checks/driver: {error}")
            continue
        played += 1
        to = given.room / f"{sessions.name}-{series}"
        guest = Guest(X86_64, kernel, files, accelerated(given, OWN_TIME), "4G", "security=selinux selinux=1")
        wrong += filter(None, [boot(guest, to.name, len(lines), to)])
        for name, *_ in lines:
            say(f"{name}: {told(to / name)}")
            wrong += (f"{to.name}/{name}: {fault}" for fault in faults_of(to / name))
    return wrong if played else ["no kernel was found"]
