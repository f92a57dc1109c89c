"""Tests `record --adb` with the real adb: it boots Debian's kernels in QEMU, with a small system like Android and adbd
of Debian sid, which adb reaches by a port of this machine. On each guest it records, fetches and views, with the adb of
Debian 12 and that of sid, and plays what can fail, as phone/play.py says. It is run by hand.

    checks/run phone [-- OPTION..]   fetches, builds, boots, plays: some ten minutes a guest

The guests have the time of this system, as adb has. For each scene it prints what `record` said. If something is not as
it must be, it says so and ends with status 1.
"""

import argparse
import os
import pathlib
import socket
import sys
import tempfile
from typing import NamedTuple

from checks.kit.programs import CHECKS, ROOT
from checks.recorder.guest.boot import Guest, Running, follow
from checks.recorder.guest.image import Files, Link
from checks.recorder.guest.kept import needs, run, say
from checks.recorder.guest.kernels import check_tools, kernel_of
from checks.recorder.guest.machines import MACHINES, ONE, X86_64, Machine
from checks.recorder.guest.packages import release
from checks.recorder.guest.plans import NAMES, RAW, SCENARIOS, command, compiled, compiler_for, recorder_for
from checks.recorder.phone import play

PHONE = CHECKS / "recorder/phone"
POLICY = PHONE / "one_domain.cil"
WITH_NAMES = [*RAW, SCENARIOS / "service.c", SCENARIOS / "names.c"]


class Kind(NamedTuple):
    """A guest: its machine, its kernel, its commands, whether it enforces the policy of SELinux, and the scenes that
    are played by default, if they are not all."""
    machine: str
    series: str
    commands: str
    is_enforcing: bool = False
    scenes: tuple[str, ...] = ()


GUESTS = {
    "x86_64-newest": Kind("x86_64", "newest", "toybox"),
    "aarch64-6.1": Kind("aarch64", "6.1", "busybox"),
    "aarch64-newest": Kind("aarch64", "newest", "busybox"),
    "x86_64-enforcing": Kind("x86_64", "newest", "toybox", True, ("no_bpf", "session")),
    "x86_64-5.10": Kind("x86_64", "5.10", "toybox", True, ("no_bpf", "session")),
}
# What a guest does not need takes it time to unpack.
LEFT_OUT = ("bin/", "usr/share/", "usr/lib/diet/", "usr/lib/klibc/", "usr/bin/busybox")


# ---- what it is made of


def adb_of(name: str, room: pathlib.Path) -> pathlib.Path:
    """A folder with the adb of a release, which runs on its own libraries."""
    folder, made = release(name, "amd64").with_all("adb", "adb"), room / f"bin-{name}"
    libraries = {str(path.parent) for path in folder.rglob("*.so.*")}
    loader = next(folder.rglob("ld-linux-x86-64.so.2"))
    made.mkdir(exist_ok=True)
    (made / "adb").write_text(f"#!/bin/sh\nexec {loader} --library-path {':'.join(sorted(libraries))}"
                              f' {folder}/usr/lib/android-sdk/platform-tools/adb "$@"\n', "utf-8")
    (made / "adb").chmod(0o755)
    return made


def is_left_out(name: str) -> bool:
    parts = pathlib.PurePosixPath(name).parts
    return name.startswith(LEFT_OUT) or parts[:2] == ("usr", "lib") and (
        parts[2].endswith("-musl") or parts[3:4] in (("bin",), ("gconv",)))


def system_files(machine: Machine) -> Files:
    """A small system with adbd, and the commands of Android and of busybox."""
    folder = release("sid", machine.architecture).with_all("adbd", "adbd", "busybox-static", "toybox", "mksh")
    files: Files = {"busybox": folder / "usr/bin/busybox"}
    for path in sorted(folder.rglob("*")):
        name = str(path.relative_to(folder))
        if path.is_symlink() and not is_left_out(name):
            files[name] = Link(os.readlink(path))
        elif path.is_file() and not is_left_out(name):
            files[name] = path
    for name in ("lib", "lib64"):
        if not (folder / name).exists() and (folder / "usr" / name).exists():
            files[name] = Link(f"usr/{name}")
    return files


def programs_for(machine: Machine, room: pathlib.Path) -> Files:
    made = room / f"phone-{machine.architecture}"
    made.mkdir(exist_ok=True)
    for name, more in (("system", WITH_NAMES), ("service", WITH_NAMES), ("su", [])):
        compiled(machine, made / name, "-static", f"-I{SCENARIOS}", PHONE / f"{name}.c", *more)
    return {"system-programs/system": made / "system", "system-programs/service": made / "service",
            "su/su": made / "su"}


def settings_of(kind: Kind, room: pathlib.Path) -> Files:
    files: Files = {
        "init": (PHONE / "init.sh").read_text("utf-8"), "shell": f"{kind.commands}\n", "root": None,
        "other/uname": '#!/bin/sh\nif [ "$1" = -m ]; then echo armv7l; else /bin/uname "$@"; fi\n',
        "etc/passwd": "root:x:0:0::/root:/bin/sh\nshell:x:2000:2000::/:/bin/sh\n",
        "etc/group": "root:x:0:\nshell:x:2000:\n"}
    if kind.is_enforcing:
        needs({"secilc": "secilc"})
        run("secilc", "-o", room / "policy", "-f", "/dev/null", POLICY)
        files["policy"] = room / "policy"
    return files


# ---- a guest


def free_ports(count: int) -> list[int]:
    """Ports of this machine that nobody listens on, for those of the guest."""
    made = [socket.create_server(("127.0.0.1", 0)) for _ in range(count)]
    ports = [one.getsockname()[1] for one in made]
    for one in made:
        one.close()
    return ports


def play_guest(given: argparse.Namespace, name: str) -> list[str]:
    kind, console = GUESTS[name], given.room / f"console-{name}"
    machine = MACHINES[kind.machine]
    check_tools(machine)
    files = {**system_files(machine), **programs_for(machine, given.room), **settings_of(kind, given.room)}
    os.environ["CC_FOR_ARM64"] = compiler_for(machine, given.room)
    if given.record == str(ROOT / "record"):  # else a package has its own
        recorder_for(machine, given.room)
    *ports, server = free_ports(6)
    forward = "".join(f",hostfwd=tcp:127.0.0.1:{port}-:{5555 + at}" for at, port in enumerate(ports))
    guest = Guest(machine, kernel_of(kind.series, machine), files, ONE, "1G",
                  "mitigations=off" + " security=selinux" * kind.is_enforcing,
                  ("-netdev", f"user,id=net{forward}", "-device", "virtio-net-pci,netdev=net,romfile="))
    out = given.room / f"out-{name}"
    run("rm", "-rf", out)
    out.mkdir()
    with tempfile.TemporaryDirectory(prefix="checks-guest.") as room:
        running, ready = Running(guest, pathlib.Path(room), console), list[str]()
        try:
            why = follow(running, lambda line: ready.extend([line] * line.startswith("guest: ready")),
                         lambda: bool(ready))
            if not ready:
                return [f"the guest {name} did not begin: {why}: see {console}"]
            say(f"{name}: {guest.kernel.version}")
            scenes = given.only or list(kind.scenes)
            return play.play(play.Setting(given.record, ports, server, given.room / "bin-sid",
                                          given.room / "bin-bookworm", out, kind.commands, given.limit, scenes))
        finally:
            running.end()


def judge(given: argparse.Namespace) -> list[str]:
    check_tools(X86_64)
    os.environ["HOME"] = str(given.room)
    for name in ("sid", "bookworm"):
        adb_of(name, given.room)
    return [what for name in given.guest or GUESTS for what in play_guest(given, name)]


if __name__ == "__main__":
    command("phone", sys.modules["__main__"].__doc__, judge, 1200,
            guest={**NAMES, "choices": GUESTS,
                   "help": "only this guest: on x86-64 with mksh and toybox as commands, and on arm64 with busybox;"
                           " `enforcing` and 5.10 have SELinux with a policy of one domain"},
            record={"default": str(ROOT / "record"), "metavar": "FILE",
                    "help": "the command; by default ./record, else for example /usr/bin/binder-record of a package"},
            only={**NAMES, "help": "only this scene of phone/play.py; may be given several times"})
