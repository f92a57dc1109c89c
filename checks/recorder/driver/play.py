"""Tests the recorder and the report on the real Binder driver. It boots Debian's kernels in QEMU and plays scenarios in
raw Binder, under the recorder and a second witness. It compares the two recordings with each other, and the report on
each capture with the driver's own books. It is run by hand; `.ci/run` runs only `checks/run stored`.

    checks/run driver [-- OPTION..]  fetches, builds, boots, compares: some minutes a kernel

Each scenario is played in the guest's own time, on one processor, but for those of plans whose names end in `-four`:
load and races have four processors, and the time of this system. If a comparison fails, it says which one and ends with
status 1.
"""

import argparse
import os
import pathlib
import re
import shutil
import subprocess
import sys
from typing import Iterator, Sequence

from checks.kit.checking import FLAG
from checks.kit.programs import AUDITOR, ROOT
from checks.recorder.driver import blind, compare, store
from checks.recorder.guest.boot import Guest, boot
from checks.recorder.guest.image import Files
from checks.recorder.guest.kept import kept, needs, run, say, stop
from checks.recorder.guest.kernels import Kernel, check_tools, kernel_of
from checks.recorder.guest.machines import AARCH64, FOUR, OWN_TIME, X86_64, Machine
from checks.recorder.guest.packages import Missing, linked_libraries, release
from checks.recorder.guest.plans import (
    ACCEL, CONFIG_OF_GBINDER, NAMES, SCENARIOS, accelerated, command, compiled, dynamic_files, first_files, plan_of,
    plan_text, recorder_for)

SERIES = ("6.1", "6.12", "newest", "5.10")
# What is stored of a recording with the driver in Rust.
OF_RUST = ("clean", "leaks", "objects", "deaths", "oneway", "before", "cut", "fork", "outsider", "two-drivers",
           "denied", "errors", "freeze", "pending", "too-large", "copies", "lock", "refusals")
PROVED = ("binder_audit", "binder_tables")
# Scenarios that a series can't play, and why.
LACKING = {"5.10": (("freeze", "pending"), "BINDER_FREEZE is of 5.12"),
           "rust": (("reuse",), "ns_last_pid, by which it gives numbers again, takes CONFIG_CHECKPOINT_RESTORE, which"
                                " rust_kernel.config leaves out")}
# The sources of the program that plays scenarios.
SOURCES = [path for path in sorted(SCENARIOS.glob("*.c")) if path.stem not in ("gbinder", "witness")]


# ---- programs


# The programs that play scenarios: dynamic, with frame pointers, static, and of 32 bits. Compilers for arm64 keep frame
# pointers, unless they are told to omit them.
PROGRAMS = {"scenarios": ("-fomit-frame-pointer",), "scenarios.framed": ("-fno-omit-frame-pointer", "-Wl,--build-id"),
            "scenarios.static": ("-static",),
            "scenarios.32": ("-Wno-pointer-to-int-cast", "-Wno-int-to-pointer-cast", "-static")}


def programs_for(machine: Machine) -> Files:
    """These programs, and the witness."""
    def build(to: pathlib.Path) -> None:
        compiled(machine, to / "witness.so", "-shared", "-fPIC", SCENARIOS / "witness.c", "-lpthread")
        for name, words in PROGRAMS.items():
            compiled(machine, to / name, *words, *SOURCES, "-lpthread",
                     compiler=machine.compiler_of_32 if name.endswith("32") else ())
    folder = kept(f"scenarios-{machine.architecture}",
                  [*sorted(SCENARIOS.glob("*.[ch]")), str(PROGRAMS), run(machine.compiler, "--version")], build,
                  f"build the scenarios for {machine.name}")
    return {name: folder / name for name in ("witness.so", *PROGRAMS)}


def clients_for(machine: Machine, room: pathlib.Path) -> Files:
    """libgbinder of Debian sid, what it needs, and a service and a client on it: a library that was not written for
    the checks."""
    folder = release("sid", machine.architecture).packages(
        "clients", *(f"lib{name}{end}" for name in ("gbinder", "glibutil") for end in ("1", "-dev")), "libglib2.0-0t64",
        "libglib2.0-dev", "libgio-2.0-dev", "libc6", "libatomic1", "libffi8", "libpcre2-8-0")
    library, include = folder / machine.libraries, folder / "usr/include"
    program = compiled(machine, room / f"gbinder-{machine.architecture}", "-isystem", include / "gbinder", "-isystem",
                       include / "gutil", "-isystem", include / "glib-2.0", "-isystem", library / "glib-2.0/include",
                       f"-L{library}", "-Wl,--allow-shlib-undefined", SCENARIOS / "gbinder.c", "-lgbinder",
                       "-lglibutil", "-lglib-2.0")
    names = [machine.loader.name, "libc.so.6", "libm.so.6", "libatomic.so.1", "libgbinder.so.1", "libglibutil.so.1",
             "libglib-2.0.so.0", "libgobject-2.0.so.0", "libffi.so.8", "libpcre2-8.so.0"]
    return {"clients/gbinder": program, "etc/gbinder.conf": CONFIG_OF_GBINDER,
            **{f"clients/{name}": library / name for name in names}}


def perfetto_for(machine: Machine) -> Files:
    """Perfetto's service and its client, of Debian sid, and what they need."""
    folder = release("sid", machine.architecture).packages("perfetto", "perfetto", "libc6", "libgcc-s1", "libstdc++6",
                                                           "zlib1g")
    library = folder / machine.libraries
    names = [machine.loader.name, "libc.so.6", "libm.so.6", "libgcc_s.so.1", "libstdc++.so.6", "libz.so.1"]
    programs = ["lib/perfetto/libperfetto.so", "bin/perfetto", "sbin/traced", "sbin/traced_probes"]
    return {"perfetto/config": SCENARIOS / "perfetto.txt", **{f"perfetto/{name}": library / name for name in names},
            **{f"perfetto/{pathlib.Path(name).name}": folder / "usr" / name for name in programs}}


def recorder_of(given: argparse.Namespace, machine: Machine) -> Files:
    if given.sanitize and machine is X86_64:
        folder = given.room / "recorder-sanitized"
        run(ROOT / "recorder/build.sh", "--sanitize", folder)
        return {"record": folder / "record",
                **{f"lib/{path.name}": path for path in linked_libraries(folder / "record")}}
    return {"record": given.recorder if given.recorder and machine is X86_64 else recorder_for(machine, given.room)}


# ---- what is refused before a kernel is needed


def refusals(room: pathlib.Path, recorder: pathlib.Path) -> Iterator[str]:
    """A side list that is in the way, be it a FIFO that nobody writes to, and a build by root in a folder of another
    user."""
    here = room / "refused"
    shutil.rmtree(here, ignore_errors=True)
    (here / "foreign").mkdir(parents=True)
    os.mkfifo(here / "fifo.side")
    came = said_by([recorder, "-o", here / "fifo"])
    if came != f"record: {here}/fifo.side exists already, and is not overwritten":
        yield f"a FIFO in the place of the side list: {came}"
    if os.geteuid() == 0:
        for name in ("record", "recorder"):
            run("cp", "-R", ROOT / name, here / "foreign")
        shutil.rmtree(here / "foreign/recorder/out", ignore_errors=True)
        run("chown", "-R", "nobody", here / "foreign")
        came = said_by([here / "foreign/record", "--check"])
        if not re.fullmatch(r"record: root builds nothing in a folder of the user nobody, .*", came):
            yield f"a build by root in a folder of another user: {came}"


def said_by(words: Sequence[object]) -> str:
    """What a command says that must fail."""
    ended = subprocess.run(list(map(str, words)), stdin=subprocess.DEVNULL, stdout=subprocess.PIPE,
                           stderr=subprocess.STDOUT, encoding="utf-8", timeout=60)
    return ended.stdout.strip() if ended.returncode else "it was not refused"


# ---- guests


def renamed(kernel: Kernel, machine: Machine, room: pathlib.Path, end: str) -> Kernel:
    """The kernel with other names of two functions of the driver."""
    made = room / "binder_linux.ko"
    pairs = [f"--redefine-sym={name}={name}{end}" for name in ("binder_open", "binder_release")]
    run(f"{machine.compiler.removesuffix('gcc')}objcopy", *pairs, kernel.modules[-1], made)
    return kernel._replace(modules=[*kernel.modules[:-1], made])


class Play:
    """Kernels that are played, each by a guest for the plans in its own time and one for those on four processors."""

    def __init__(self, given: argparse.Namespace, machine: Machine) -> None:
        self.given, self.machine, self.wrong, self.played = given, machine, list[str](), 0
        words = "--redact" if given.redact else "--stacks" if given.stacks else ""
        self.files: Files = {**first_files(machine, SCENARIOS / "init.sh", given.limit), **dynamic_files(machine),
                             **recorder_of(given, machine), "words": f"{words}\n"}

    def lines(self, series: str, names: list[str]) -> list[list[str]]:
        """The lines of plans that --only leaves, and that the kernel can play."""
        lacking, why = LACKING.get(series, ((), ""))
        found = [words for words in plan_of([SCENARIOS / f"{name}.txt" for name in names])
                 if not self.given.only or words[0] in self.given.only]
        for words in found:
            if words[0] in lacking:
                say(f"{words[0]} is left out on {series}: {why}")
        return [[*words[:3], str(self.given.flight)] if words[1] == "flight" else words for words in found
                if words[0] not in lacking]

    def play(self, kernel: Kernel, series: str, plans: list[str], out: str, words: str = "") -> pathlib.Path | None:
        """Plays plans, each line on the processors that it needs. Returns the folder with what came of them."""
        to = self.given.room / out
        shutil.rmtree(to, ignore_errors=True)
        for processors, ending in ((OWN_TIME, ""), (FOUR, "-four")):
            lines = self.lines(series, [name for name in plans if name.endswith("-four") == bool(ending)])
            if lines:
                guest = Guest(self.machine, kernel, {**self.files, "plan": plan_text(lines)},
                              accelerated(self.given, processors), "4G", f"security=selinux selinux=1 {words}")
                self.wrong += filter(None, [boot(guest, out + ending, len(lines), to)])
                self.played += len(lines)
        return to if to.exists() else None

    def try_plans(self, kernel: Kernel, series: str, plans: list[str], out: str, words: str = "", whole: bool = False
                  ) -> None:
        if to := self.play(kernel, series, plans, out, words):
            (to / "words").write_text(f"{words}\n", "utf-8")
            if not compare.compared(AUDITOR, to, whole):
                self.wrong.append(f"{out}: see above")


def play_series(play: Play, series: str, first: bool) -> None:
    given = play.given
    kernel = kernel_of(series, play.machine)
    if given.rename:
        kernel = renamed(kernel, play.machine, given.room, given.rename)
    if given.traced:
        play.try_plans(kernel, series, ["plan-traced-four"], f"out-{series}")
        return
    more = first or series == "newest"
    plans = ["plan", "plan-four", *["plan-clients"] * more, *["plan-rust"] * (series == "rust")]
    play.try_plans(kernel, series, plans, f"out-{series}", whole=not given.only)
    if more and series != "5.10":  # preempt=full is of 5.12
        play.try_plans(kernel, series, ["plan-preempt-four"], f"preempt-{series}", "preempt=full")
    if given.store and series in ("newest", "rust"):
        names = ("-rust", *OF_RUST) if series == "rust" else ()
        store.main(AUDITOR, given.room / f"out-{series}", ROOT / "samples/driver", *names)


def play_all_series(given: argparse.Namespace) -> list[str]:
    play, found = Play(given, X86_64), 0
    play.files |= programs_for(X86_64) | clients_for(X86_64, given.room)
    if given.traced:
        play.files |= perfetto_for(X86_64)
    play.wrong += refusals(given.room, play.files["record"])
    for series in given.series:
        try:
            play_series(play, series, found == 0)
            found += 1
        except Missing as error:
            say(f"checks/driver: {error}")
    if not found:
        return ["no kernel was found"]
    return play.wrong if play.played else [*play.wrong, "nothing was played: no kernel's plan has such a line"]


def play_arm64(given: argparse.Namespace) -> list[str]:
    play, series = Play(given, AARCH64), given.series[0]
    play.files |= programs_for(AARCH64)
    plans = ["plan-arm64-four"]
    if given.arm64_whole:
        play.files |= clients_for(AARCH64, given.room)
        plans = ["plan", "plan-four", "plan-clients"]
    play.try_plans(kernel_of(series, AARCH64), series, plans, f"arm64-{series}", whole=given.arm64_whole)
    return play.wrong


def check_compiler_of_32() -> None:
    made = subprocess.run([*X86_64.compiler_of_32, "-static", "-x", "c", "-o", "/dev/null", "-"],
                          input=b"int main(void) { return 0; }", stderr=subprocess.DEVNULL)
    if made.returncode:
        stop("gcc makes no 32-bit programs: apt-get install gcc-multilib, or beside a compiler for arm64"
             " --no-install-recommends gcc-12-multilib")


def judge(given: argparse.Namespace) -> list[str]:
    check_tools(X86_64)
    check_compiler_of_32()
    given.series = ["rust"] if given.rust else given.kernel or list(SERIES)
    if given.blind:
        return blind.play(given, Play(given, X86_64))
    if subprocess.run([ROOT / "crates/run", "checks/driver", *PROVED]).returncode:
        stop("./audit and ./listing were not built")
    wrong = [] if given.arm64_alone or given.arm64_whole else play_all_series(given)
    if given.arm64 or given.arm64_alone or given.arm64_whole:
        check_tools(AARCH64)
        needs({"arm-linux-gnueabihf-gcc": "gcc-arm-linux-gnueabihf libc6-dev-armhf-cross"})
        wrong += play_arm64(given)
    return wrong


OPTIONS: dict[str, dict] = {
    "recorder": {"type": pathlib.Path, "metavar": "FILE", "help": "a recorder that is already built"},
    "kernel": {**NAMES, "metavar": "SERIES",
               "help": "only 5.10, 6.1, 6.12 or newest, which is Debian sid's; may be given several times"},
    "rust": {**FLAG, "help": "only a kernel with the driver in Rust; it is built if there is none: rust_kernel.sh"},
    "traced": {**FLAG, "help": "only some scenarios, beside Perfetto's service; its trace of the system is kept in"
                               " FOLDER: out-SERIES/NAME/system.pftrace"},
    "only": {**NAMES, "help": "only this scenario; may be given several times"},
    "flight": {"type": int, "default": 20, "metavar": "SECONDS", "help": "how long the flight recorder runs"},
    "redact": {**FLAG, "help": "records all scenarios with --redact, but for those of stacks"},
    "stacks": {**FLAG, "help": "records all scenarios with --stacks, but for those with --redact"},
    "rename": {"metavar": "WORD", "help": "adds it to the names of the functions binder_open and binder_release of the"
                                          " driver in C, as compilers do that optimize the whole kernel: the recorder"
                                          " finds them with .llvm.1234, and else looks at all files that are opened"},
    "accel": ACCEL,
    "arm64": {**FLAG, "help": "also plays a few scenarios on Debian's kernel for arm64, with a recorder built for it"},
    "arm64_alone": {**FLAG, "help": "plays nothing else"},
    "arm64_whole": {**FLAG, "help": "plays nothing else, and there all scenarios"},
    "sanitize": {**FLAG, "help": "runs the recorder under the address and undefined-behaviour sanitizers"},
    "store": {**FLAG, "help": "also renews samples/driver from the results of the newest kernel; with --rust some of"
                              " them, as NAME-rust"},
    "blind": {"type": pathlib.Path, "metavar": "FOLDER",
              "help": "records the sessions of a blind test set, which this folder has, instead, and judges nothing"},
}

if __name__ == "__main__":
    command("driver", sys.modules["__main__"].__doc__, judge, 900, **OPTIONS)
