"""Tries on stored systems what the recorder looks at before it loads anything.

    checks/run systems                             all stored systems: a second
    checks/run systems -- --store SERIES           boots Debian's kernel of this series in QEMU, 5.10, 6.1, 6.12 or
                                                   newest, or `rust`, and stores what it has
    checks/run systems -- --types                  stores anew which types the programs read, of kernels that --store
                                                   has kept in --room

Each folder in systems/ has these files of a system with the kernel of its name: `format` files of tracepoints, some
lines of kallsyms and of the functions that can be probed, and of BTF the types that the recorder's programs read, which
`checks/run compiled` tries. What another system has too is stored once: a line of the file `same` has the path, and
where it is in systems/. On each of them nothing may be lacking.
Then one tracepoint or field after the other is renamed, moved, of another size or away: each of these systems must be
refused in a line that names the file. So must one whose kernel is too old. And where a compiler has renamed the
driver's functions, those are found.
"""

import argparse
import os
import pathlib
import re
import shutil
import subprocess
import sys
from typing import Iterator

from checks.kit.checking import FLAG
from checks.kit.programs import CHECKS, ROOT
from checks.recorder.guest.boot import Guest, boot
from checks.recorder.guest.kept import run
from checks.recorder.guest.kernels import check_tools, kernel_of
from checks.recorder.guest.machines import MACHINES, OWN_TIME, Machine
from checks.recorder.guest.plans import command, compiler_for, first_files

SYSTEMS = CHECKS / "recorder/systems"
BTF, SAME = "sys/kernel/btf/vmlinux", "same"
# What the recorder looks by.
SOURCES = ("needs", "drivers", "devices", "tracefs", "tracepoints", "lack", "common")
# Of a tracepoint the fields that the recorder reads.
FIELDS = {"binder_ioctl": ("cmd", "arg"), "binder_command": ("cmd",), "binder_write_done": ("ret",),
          "binder_ioctl_done": ("ret",), "sched_process_exec": ("old_pid",)}
# A field that is renamed, moved, or of another size.
EDITS = ((r" {0};", " other_{0};"), (r"( {0};\toffset:)", r"\g<1>1"), (r"( {0};\toffset:\d+;\tsize:)", r"\g<1>1"))
# The symbols of a kernel whose compiler renames functions, and which of them are the functions.
RENAMED = "".join(f"0 t {name}\n" for name in (
    "binder_open.cfi_jt", "binder_open.llvm.1234.cfi_jt", "binder_open.cold", "binder_open",
    "binder_open_wrong.llvm.1234", "binder_open.llvm.1234", "binder_release", "binder_release.cfi"))
PROBED = "driver in {}: {} are probed"


# ---- storing


def store_types(whole: pathlib.Path, machine: Machine, to: pathlib.Path, room: pathlib.Path) -> None:
    """Of the kernel's BTF only the types that the recorder's programs read are stored."""
    programs = room / f"built-{machine.name}"
    if not (programs / "record").exists():
        run(ROOT / "recorder/build.sh", "--machine", machine.name, programs,
            env={**os.environ, "CC": compiler_for(machine, room)})
    run("bpftool", "gen", "min_core_btf", whole, to, *programs.glob("*.bpf.o"),
        env={**os.environ, "PATH": f"{os.environ['PATH']}:/usr/sbin"})


def copy_of(system: pathlib.Path, to: pathlib.Path) -> None:
    """Copies a stored system, with what it has from others."""
    shutil.rmtree(to, ignore_errors=True)
    shutil.copytree(system, to, ignore=shutil.ignore_patterns(SAME))
    for line in (system / SAME).read_text("utf-8").splitlines() if (system / SAME).exists() else ():
        path, other = line.split()
        (to / path).parent.mkdir(parents=True, exist_ok=True)
        run("cp", "-R", SYSTEMS / other, to / path)


def files_below(path: pathlib.Path) -> dict[str, bytes]:
    return {str(file.relative_to(path)): file.read_bytes() for file in [path, *path.rglob("*")] if file.is_file()}


def leave_out_same(system: pathlib.Path) -> None:
    """Removes from a stored system what a system before it has, but for the BTF, which others read there."""
    same = []
    for path in sorted(system.rglob("*")):
        name = str(path.relative_to(system))
        for other in sorted(SYSTEMS.glob(f"*/{name.replace('rust_binder', 'binder')}")):
            if (path.exists() and other < system and not BTF.startswith(name)
                    and files_below(other) == files_below(path)):
                same.append(f"{name} {other.relative_to(SYSTEMS)}\n")
                run("rm", "-r", path)
    if same:
        (system / SAME).write_text("".join(same), "utf-8")


def store_system(made: pathlib.Path, name: str, room: pathlib.Path) -> None:
    """Stores a system. The others are stored anew, since they may have been without what this one had before."""
    for system in SYSTEMS.glob("*/"):
        copy_of(system, room / "systems" / system.name)
    shutil.rmtree(room / "systems" / name, ignore_errors=True)
    shutil.copytree(made, room / "systems" / name)
    for system in sorted((room / "systems").iterdir()):
        shutil.rmtree(SYSTEMS / system.name, ignore_errors=True)
        shutil.copytree(system, SYSTEMS / system.name)
    for system in sorted(SYSTEMS.glob("*/")):
        leave_out_same(system)


def store(given: argparse.Namespace) -> list[str]:
    """Boots a kernel, and stores what its guest leaves. A kernel is called by its version, and the one with the driver
    in Rust also by that."""
    machine, kept = MACHINES[given.machine], given.room / "kept"
    check_tools(machine)
    shutil.rmtree(kept, ignore_errors=True)
    guest = Guest(machine, kernel_of(given.store, machine), first_files(machine, SYSTEMS / "init.sh", given.limit),
                  OWN_TIME, "1G", disk=64 << 20)
    if why := boot(guest, given.store, 0, kept):
        return [why]
    (kept / "console").unlink()
    version = re.match(r"\d+\.\d+", (kept / "release").read_text("utf-8"))
    name = f"{'rust-' * (given.store == 'rust')}{version[0] if version else 'none'}-{machine.name}"
    whole = given.room / f"{name}.btf"
    shutil.copy(kept / BTF, whole)
    store_types(whole, machine, kept / BTF, given.room)
    store_system(kept, name, given.room)
    return []


def store_all_types(given: argparse.Namespace) -> list[str]:
    for system in sorted(SYSTEMS.glob("*/")):
        machine = MACHINES[system.name.rpartition("-")[2]]
        store_types(given.room / f"{system.name}.btf", machine, system / BTF, given.room)
    return []


# ---- trying


class Tried:
    """A copy of a stored system, of which files are changed."""

    def __init__(self, system: pathlib.Path, program: pathlib.Path, room: pathlib.Path) -> None:
        self.name, self.program, self.copy = system.name, program, room / "changed"
        copy_of(system, self.copy)
        self.language = "Rust" if self.name.startswith("rust-") else "C"

    def said(self) -> tuple[int, str]:
        ended = subprocess.run([self.program, self.copy], stdout=subprocess.PIPE, stderr=subprocess.STDOUT,
                               encoding="utf-8")
        return ended.returncode, ended.stdout.strip()

    def probes(self, what: str, functions: str) -> Iterator[str]:
        due, (_, came) = PROBED.format(self.language, functions), self.said()
        if came != due:
            yield f"{self.name}{what}: {came}"

    def refuses(self, file: pathlib.Path, text: str | None, line: str, what: str) -> Iterator[str]:
        """With another text in a file, or without the file, it must be refused by a line that has these words."""
        before = file.read_text("utf-8")
        file.unlink()
        if text is not None:
            file.write_text(text, "utf-8")
        status, came = self.said()
        if status == 0:
            yield f"{self.name}: with {what}, nothing is lacking"
        elif line not in came:
            yield f"{self.name}: with {what}, it says: {came}"
        file.write_text(before, "utf-8")

    def faults(self) -> Iterator[str]:
        functions = "binder_open and binder_release" if self.language == "C" else "functions of the kernel"
        yield from self.probes("", functions)
        if self.language == "C":
            symbols = self.copy / "proc/kallsyms"
            before = symbols.read_text("utf-8")
            symbols.write_text(before + RENAMED, "utf-8")
            yield from self.probes(", with functions that are renamed", "binder_open.llvm.1234 and binder_release.cfi")
            symbols.write_text(before, "utf-8")
        yield from self.refuses(self.copy / "release", "5.9.16-amd64\n",
                                "the kernel is 5.9.16-amd64, and 5.10 or a later one is needed", "kernel 5.9")
        formats = sorted(self.copy.glob("sys/kernel/tracing/events/*/*/format"))
        if len(formats) != 6:
            yield f"{self.name}: it has {len(formats)} formats"
        for path in formats:
            yield from self.faults_of_format(path)

    def faults_of_format(self, path: pathlib.Path) -> Iterator[str]:
        line, text = str(path).partition("/tracing/")[2], path.read_text("utf-8")
        for field in FIELDS.get(path.parent.name, ()):
            for pattern, other in EDITS:
                changed = re.sub(pattern.format(field), other.format(field), text)
                if changed == text:
                    yield f"{self.name}: {line} has no {field}"
                yield from self.refuses(path, changed, line, f"{pattern.format(field)} of {line}")
        yield from self.refuses(path, None, line, f"no {path.parent.name}")


def judge(given: argparse.Namespace) -> list[str]:
    if given.store or given.types:
        return store(given) if given.store else store_all_types(given)
    sources = [ROOT / "recorder" / f"{name}.c" for name in SOURCES]
    run("cc", "-O1", "-std=gnu11", "-Wall", "-Wextra", "-Werror", "-ffunction-sections", f"-I{ROOT / 'recorder'}",
        "-Wl,--gc-sections,--wrap=access,--wrap=fopen", CHECKS / "recorder/systems.c", *sources, "-o",
        given.room / "systems")
    return [what for system in sorted(SYSTEMS.glob("*/"))
            for what in Tried(system, given.room / "systems", given.room).faults()]


if __name__ == "__main__":
    command("systems", sys.modules["__main__"].__doc__, judge, 600, store={"metavar": "SERIES"}, types=FLAG,
            machine={"choices": tuple(MACHINES), "default": "x86_64"})
