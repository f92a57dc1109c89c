"""Records the sessions of a blind test set on libbinder of Android 14, for `checks/run aosp -- --blind`. What it leaves
is as checks/recorder/driver/blind.py leaves it.

A set has interfaces in the folder `aidl`, C++ sources that make one program, and a plan.txt with a line for each
session: NAME SECONDS STEP.. The program is called by the name of a role, with the words that a step has for it, and
without a role it lists all roles. A step is one of these:

    ROLE[:WORD]..   begins a process of a role
    @SECONDS        waits
    !ROLE           kills the processes of a role

SECONDS after the last step the recording ends, while all processes are alive."""

import argparse
import pathlib

from checks.recorder.driver.blind import faults_of, told
from checks.recorder.guest.boot import Guest, boot
from checks.recorder.guest.image import Files
from checks.recorder.guest.kernels import kernel_of
from checks.recorder.guest.kept import say
from checks.recorder.guest.machines import OWN_TIME, X86_64
from checks.recorder.guest.plans import accelerated, plan_of, plan_text


def sources_in(folder: pathlib.Path) -> list[pathlib.Path]:
    return sorted(path for path in folder.rglob("*") if path.suffix in (".aidl", ".cpp", ".h"))


def lines_of(given: argparse.Namespace) -> list[list[str]]:
    return [[name, "session", "14", "recorded", *rest] for name, *rest in plan_of([given.blind / "plan.txt"])
            if not given.only or name in given.only]


def play(given: argparse.Namespace, files: Files) -> list[str]:
    """Plays the plan in guests that have these files, which are those of the set's program too."""
    wrong, lines = [], lines_of(given)
    for series in [*given.kernel, *["rust"] * given.rust] or ["6.1"]:
        to = given.room / f"{given.blind.name}-{series}"
        guest = Guest(X86_64, kernel_of(series, X86_64), {**files, "plan": plan_text(lines)},
                      accelerated(given, OWN_TIME), "3G", "security=selinux selinux=1")
        wrong += filter(None, [boot(guest, to.name, len(lines), to)])
        for name, *_ in lines:
            say(f"{name}: {told(to / name)}")
            wrong += (f"{to.name}/{name}: {fault}" for fault in faults_of(to / name))
    return wrong
