"""What the checks with guests share: their command lines, plans, and what they build for a machine."""

import argparse
import os
import pathlib
import subprocess
import sys
import tempfile
from typing import Callable, Iterator

from checks.kit.programs import CHECKS, ROOT
from checks.recorder.guest.image import Files, Link
from checks.recorder.guest.kept import run
from checks.recorder.guest.machines import AARCH64, Machine, Processors, with_kvm
from checks.recorder.guest.packages import Missing, release

SCENARIOS = CHECKS / "recorder/scenarios"
RAW = [SCENARIOS / f"{name}.c" for name in ("raw", "send", "processes")]
# What programs on libgbinder read in a guest.
CONFIG_OF_GBINDER = "[Protocol]\n/dev/binder = aidl2\n[ServiceManager]\n/dev/binder = aidl2\n"
FLAGS = ("-O2", "-Wall", "-Wextra", "-Werror")


# ---- command lines


def command(name: str, doc: str | None, play: Callable[[argparse.Namespace], list[str]], limit: int,
            **options: dict) -> None:
    """Runs a check with guests, from its command line to its status. `play` returns what is wrong. Of `given`, `room`
    is a folder that is there, and is removed if the command line does not name it."""
    os.environ["CHECK"] = name
    line = argparse.ArgumentParser(f"checks/run {name} --", description=doc, allow_abbrev=False,
                                   formatter_class=argparse.RawDescriptionHelpFormatter)
    line.add_argument("--room", type=pathlib.Path, metavar="FOLDER", help="where results are kept")
    line.add_argument("--limit", type=int, default=limit, metavar="SECONDS",
                      help=f"how long a line of the plan may take, in the guest's own time; by default {limit}")
    for option, how in options.items():
        line.add_argument(f"--{option.replace('_', '-')}", **how)
    given = line.parse_args()
    with tempfile.TemporaryDirectory(prefix=f"checks-{name}.") as made:
        room = given.room or pathlib.Path(made)
        room.mkdir(parents=True, exist_ok=True)
        given.room = room.resolve()
        try:
            wrong = play(given)
        except (Missing, ValueError) as error:
            wrong = [str(error)]
        except subprocess.CalledProcessError as error:
            wrong = [f"{error.cmd} ended with status {error.returncode}: {error.output.strip()}"]
    for what in wrong:
        print(f"checks/{name}: {what}", file=sys.stderr)
    sys.exit(1 if wrong else 0)


NAMES = {"action": "append", "default": [], "metavar": "NAME"}
ACCEL = {"choices": ("tcg", "kvm"), "default": "tcg",
         "help": "kvm takes the processors of this machine where it lends them; a guest has no time of its own then"}


def accelerated(given: argparse.Namespace, processors: Processors) -> Processors:
    return with_kvm(processors) if given.accel == "kvm" else processors


# ---- plans


def plan_of(files: list[pathlib.Path]) -> Iterator[list[str]]:
    """The lines of plans, as words."""
    for file in files:
        for line in file.read_text("utf-8").splitlines():
            if words := line.partition("#")[0].split():
                yield words


def plan_text(lines: list[list[str]]) -> str:
    return "".join(" ".join(words) + "\n" for words in lines)


# ---- programs


def compiled(machine: Machine, to: pathlib.Path, *words: object, compiler: tuple[str, ...] = ()) -> pathlib.Path:
    run(*(compiler or (machine.compiler,)), *FLAGS, "-o", to, *words)
    return to


def libraries_for_arm64() -> pathlib.Path:
    return release("bookworm", "arm64").packages("libraries", "busybox-static", "libbpf-dev", "libelf-dev",
                                                 "zlib1g-dev", "libb2-dev")


def compiler_for(machine: Machine, room: pathlib.Path) -> str:
    """A compiler that finds the libraries that the recorder takes; for arm64 Debian's."""
    if machine is not AARCH64:
        return machine.compiler
    usr, made = libraries_for_arm64() / "usr", room / "compiler-arm64"
    made.write_text(f"#!/bin/sh\nexec {machine.compiler} -isystem {usr}/include -isystem"
                    f' {usr}/include/aarch64-linux-gnu -L{usr}/lib/aarch64-linux-gnu "$@"\n', "utf-8")
    made.chmod(0o755)
    return str(made)


def recorder_for(machine: Machine, room: pathlib.Path) -> pathlib.Path:
    """The recorder for a machine, which is built if it is not there."""
    environment = {**os.environ, "CC_FOR_ARM64": compiler_for(machine, room)}
    return pathlib.Path(run(ROOT / "recorder/program.sh", machine.name, env=environment).strip())


def first_files(machine: Machine, init: pathlib.Path | str, limit: int) -> Files:
    """What each guest begins with: its first process, a shell, and how long a line of its plan may take."""
    busybox = libraries_for_arm64() / "bin/busybox" if machine is AARCH64 else pathlib.Path("/bin/busybox")
    first = init if isinstance(init, str) else init.read_text("utf-8")
    return {"init": first, "limit": f"{limit}\n", "bin/busybox": busybox, "bin/sh": Link("busybox"),
            "bin/env": Link("busybox")}


def dynamic_files(machine: Machine) -> Files:
    """What programs take that are not linked statically."""
    return {f"{machine.loader_in_guest}/{machine.loader.name}": machine.loader, "lib/libc.so.6": machine.libc}
