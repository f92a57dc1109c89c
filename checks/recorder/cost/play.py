"""Measures what recording costs, on a kernel of Debian in QEMU, and prints a table; it is run by hand.

    checks/run cost [-- OPTION..]    fetches, builds, boots, prints: some minutes a guest

A client makes calls to a service (cost/calls.c), bare, recorded, recorded with stacks, without data
(--no-attachments), and while another device alone is recorded; and files of no driver are opened, bare and looked at by
the recorder (cost/opens.c; not on 5.10, for whose programs it is not written):

  counted  QEMU counts the instructions of the kernel between the first call and the last (cost/count.c), while the
           recorder's loader is stopped, on one processor and on four. On one, the guest's clock counts instructions
           too, so the processor time of the loader is a number of instructions. Other work on this machine changes
           nothing.
  timed    the same by the clock, on the guest with KVM, which needs processors that nothing else wants

The status is 1 if a guest did not come to its end, or lost frames.
"""

import argparse
import pathlib
import sys

from checks.kit.programs import CHECKS, ROOT
from checks.recorder.cost import table
from checks.recorder.guest.boot import Guest, boot
from checks.recorder.guest.image import Files
from checks.recorder.guest.kernels import check_tools, kernel_of
from checks.recorder.guest.machines import MACHINES, Machine, Processors, with_kvm
from checks.recorder.guest.plans import FLAGS, NAMES, RAW, SCENARIOS, command, compiler_for, first_files, recorder_for
from checks.recorder.guest.kept import run

COST = CHECKS / "recorder/cost"
GUESTS = ("aarch64-1", "aarch64-4", "x86_64-1", "x86_64-4", "x86_64-kvm")


def programs_for(machine: Machine, room: pathlib.Path, series: str, recorder: pathlib.Path) -> Files:
    """The programs that make calls, which keep frame pointers for the stacks, and that open files."""
    compiler, made = compiler_for(machine, room), room / machine.name
    made.mkdir(exist_ok=True)
    run(compiler, *FLAGS, "-fno-omit-frame-pointer", "-static", f"-I{SCENARIOS}", "-o", made / "calls",
        COST / "calls.c", COST / "mark.c", *RAW, SCENARIOS / "service.c")
    if series != "5.10":
        run(compiler, *FLAGS, "-std=gnu11", "-static", f"-I{ROOT / 'recorder'}", "-isystem", recorder.parent, "-o",
            made / "opens", COST / "opens.c", COST / "mark.c", ROOT / "recorder/common.c", "-lbpf", "-lelf", "-lz")
    return {path.name: path for path in made.iterdir()}


def processors_of(guest: str, room: pathlib.Path) -> Processors:
    """How QEMU runs a guest, and counts. A processor of x86-64 gets no instructions that copy byte by byte, as QEMU
    counts each step of such a one."""
    name, number = guest.rsplit("-", 1)
    if number == "kvm":
        return with_kvm(Processors(2, ()))
    return Processors(int(number), (*(("-cpu", "max,-erms,-fsrm") if name == "x86_64" else ()), "-accel",
                                    "tcg,thread=single", "-icount", "shift=0,sleep=off", "-plugin",
                                    f"{room / 'count.so'},to={room / guest}.counts"))


def play(given: argparse.Namespace, guest: str) -> str | None:
    machine = MACHINES[guest.rsplit("-", 1)[0]]
    check_tools(machine)
    recorder = recorder_for(machine, given.room)
    files: Files = {**first_files(machine, COST / "init.sh", given.limit), "record": recorder,
                    **programs_for(machine, given.room, given.kernel, recorder)}
    if not guest.endswith("-4"):  # on several processors that take turns no clock says what the loader takes
        files["rates"] = ""
    return boot(Guest(machine, kernel_of(given.kernel, machine), files, processors_of(guest, given.room)), guest, 0,
                given.room / guest)


def judge(given: argparse.Namespace) -> list[str]:
    guests = given.guest or ["aarch64-1", "aarch64-4"]
    run("gcc", *FLAGS, "-shared", "-fPIC", "-fvisibility=hidden", "-o", given.room / "count.so", COST / "count.c")
    wrong = [why for why in (play(given, guest) for guest in guests) if why]
    if not wrong:
        table.main(given.room, *guests)
    return wrong


if __name__ == "__main__":
    command("cost", sys.modules["__main__"].__doc__, judge, 1800,
            guest={**NAMES, "choices": GUESTS, "help": "only this guest, with so many processors; may be given several"
                                                       " times; by default aarch64-1 and aarch64-4"},
            kernel={"default": "6.1", "metavar": "SERIES", "help": "6.1, newest, which is Debian sid's, or 5.10, whose"
                                                                   " kernel gets the programs for older ones"})
