"""Kernels that guests boot: those of Debian, by their series, and one with the driver in Rust."""

import lzma
import os
import pathlib
import re
import subprocess
import tempfile
from typing import Iterator, NamedTuple

from checks.kit.programs import CHECKS
from checks.recorder.guest.kept import CACHE, kept, needs, run, say, stop
from checks.recorder.guest.machines import Machine
from checks.recorder.guest.packages import Missing, Release, release

# The release of Debian that has a series; any other series is in bookworm.
RELEASES = {"newest": "sid", "5.10": "bullseye"}
# What a kernel needs to reach a disk and the network, each after those that it needs, but for what it has itself.
MODULES = ("virtio_ring", "virtio", "virtio_pci_legacy_dev", "virtio_pci_modern_dev", "virtio_pci", "virtio_blk",
           "failover", "net_failover", "virtio_net")
DRIVER = "binder_linux"


class Kernel(NamedTuple):
    """A kernel: its version, the file by which QEMU boots it, and the files of its modules, the driver's last."""
    version: str
    image: pathlib.Path
    modules: list[pathlib.Path]


def kernel_in(folder: pathlib.Path) -> Kernel:
    image = next(folder.glob("boot/vmlinuz*"))
    files = [next(folder.rglob(f"{name}.ko*"), None) for name in (*MODULES, DRIVER)]
    return Kernel(image.name.removeprefix("vmlinuz-"), image, [file for file in files if file])


def content_of(module: pathlib.Path) -> bytes:
    return lzma.decompress(module.read_bytes()) if module.suffix == ".xz" else module.read_bytes()


# ---- of Debian


def by_version(name: str) -> list[tuple[int, str]]:
    """A key that sorts names as versions."""
    return [(int(part), "") if part.isdigit() else (-1, part) for part in re.split(r"(\d+)", name)]


def candidates(of: Release, series: str) -> Iterator[list[str]]:
    """The packages of each kernel of a series, the newest first. Newer kernels leave their modules to others."""
    begin = "" if series == "newest" else re.escape(f"{series}.")
    found = of.apt("apt-cache", "search", "--names-only", f"^linux-image-{begin}[0-9.+deb-]*-{of.architecture}$")
    for name in sorted((line.split()[0] for line in found.splitlines()), key=by_version, reverse=True):
        yield [name, *re.findall(r"^\s*Depends: (linux-(?:binary|modules)-\S+)$", of.apt("apt-cache", "depends", name),
                                 re.M)]


def debian_kernel(series: str, machine: Machine) -> Kernel:
    """The newest kernel of a series, or the newest of all, that the registry hands out: it may list one that it has not
    got."""
    of = release(RELEASES.get(series, "bookworm"), machine.architecture)
    for packages in candidates(of, series):
        try:
            return kernel_in(booting(machine, of, packages))
        except Missing:
            continue
    raise Missing(f"the registry has no kernel {series} for {machine.architecture}")


def booting(machine: Machine, of: Release, packages: list[str]) -> pathlib.Path:
    """A folder with what a guest boots of a kernel of Debian: its image and some modules."""
    def pick(to: pathlib.Path) -> None:
        of.apt("apt-get", "download", *packages, cwd=to)
        for file in sorted(to.glob("*.deb")):
            run("dpkg-deb", "-x", file, to / "whole")
            file.unlink()
        whole = kernel_in(to / "whole") if (to / "whole/boot").exists() else kernel_below(to / "whole")
        for folder in ("boot", "modules"):
            (to / folder).mkdir()
        packed, image = whole.image.read_bytes(), to / "boot" / whole.image.name
        if machine.name != "x86_64" or not unpack(packed, image):
            image.write_bytes(packed)
        for module in whole.modules:
            (to / "modules" / module.name.removesuffix(".xz")).write_bytes(content_of(module))
        run("rm", "-rf", to / "whole")
    return kept(f"kernel-{machine.architecture}", [*of.sums("download", *packages), "unpacked"], pick,
                f"fetch {packages[0]}")


def kernel_below(folder: pathlib.Path) -> Kernel:
    """The same where the image is below usr/."""
    (folder / "boot").mkdir()
    image = next(folder.glob("usr/**/vmlinuz*"))
    version = image.name if "-" in image.name else f"vmlinuz-{image.parent.name}"
    image.rename(folder / "boot" / version)
    return kernel_in(folder)


def unpack(image: bytes, to: pathlib.Path) -> bool:
    """Writes the kernel that an image has packed, and returns whether QEMU can begin with that (by the note
    PHYS32_ENTRY): a translated processor unpacks an image longer than it does all the rest."""
    for magic, command in ((b"\xfd7zXZ\0", ["xz", "-dc", "--single-stream"]), (b"\x28\xb5\x2f\xfd", ["zstd", "-dc"])):
        at = image.find(magic)
        if at >= 0:
            with to.open("wb") as out:
                subprocess.run(command, input=image[at:], stdout=out, stderr=subprocess.DEVNULL)
            notes = subprocess.run(["readelf", "-n", to], stdout=subprocess.PIPE, stderr=subprocess.DEVNULL).stdout
            if b"(0x00000012)" in notes:
                return True
    return False


# ---- with the driver in Rust

RECORDER = CHECKS / "recorder"


def rust_kernel() -> Kernel:
    """The kernel with the driver in Rust, which is built if it is not there: another configuration, or another way to
    build it, makes another kernel."""
    def build(to: pathlib.Path) -> None:
        needs({"debootstrap": "debootstrap"})
        if os.geteuid():
            stop("the kernel with the driver in Rust is built in a chroot, by root")
        say("build a kernel with the driver in Rust, which takes 40 minutes of the processor")
        with tempfile.TemporaryDirectory(prefix="sid-") as sid:
            run(RECORDER / "rust_kernel.sh", f"{sid}/sid", to, log=CACHE / "rust-kernel.log")
    return kernel_in(kept("rust-kernel", [RECORDER / "rust_kernel.config", RECORDER / "rust_kernel.sh"], build))


def kernel_of(series: str, machine: Machine) -> Kernel:
    if series == "rust":
        return rust_kernel()
    made = debian_kernel(series, machine)
    say(f"kernel {series}: {made.version}")
    return made


def check_tools(machine: Machine) -> None:
    """What it takes to boot a guest of a machine, and to build for it."""
    needs({"cpio": "cpio", "xz": "xz-utils", "zstd": "zstd", "readelf": "binutils", "gcc": "gcc"})
    if machine.name == "x86_64":
        needs({"qemu-system-x86_64": "qemu-system-x86", "busybox": "busybox-static"})
    else:
        needs({"qemu-system-aarch64": "qemu-system-arm",
               "aarch64-linux-gnu-gcc": "gcc-aarch64-linux-gnu libc6-dev-arm64-cross"})
