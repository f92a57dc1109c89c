"""The machines that guests are: how they are emulated, and by what their programs are built."""

import os
import pathlib
from typing import NamedTuple


class Machine(NamedTuple):
    """A machine by its name in the kernel: Debian's name for it, what compiles for it, also for 32 bits, where the
    loader of its programs is, here and in the guest, its C library, the words for its kernel, and its emulator."""
    name: str
    architecture: str
    compiler: str
    compiler_of_32: tuple[str, ...]
    loader: pathlib.Path
    loader_in_guest: str
    libc: pathlib.Path
    words: str
    emulator: tuple[str, ...]

    @property
    def libraries(self) -> str:
        return f"usr/lib/{self.name}-linux-gnu"


# For x86-64 the kernel's headers are named, as gcc-multilib, which links them, can't be installed beside a compiler for
# arm64. A guest that gets little time fails the timer check.
X86_64 = Machine("x86_64", "amd64", "gcc", ("gcc", "-m32", "-isystem", "/usr/include/x86_64-linux-gnu"),
                 pathlib.Path("/lib64/ld-linux-x86-64.so.2"), "lib64", pathlib.Path("/lib/x86_64-linux-gnu/libc.so.6"),
                 "console=ttyS0 no_timer_check", ("qemu-system-x86_64", "-cpu", "max"))
AARCH64 = Machine("aarch64", "arm64", "aarch64-linux-gnu-gcc", ("arm-linux-gnueabihf-gcc",),
                  pathlib.Path("/usr/aarch64-linux-gnu/lib/ld-linux-aarch64.so.1"), "lib",
                  pathlib.Path("/usr/aarch64-linux-gnu/lib/libc.so.6"),
                  "console=ttyAMA0", ("qemu-system-aarch64", "-machine", "virt", "-cpu", "cortex-a72"))
MACHINES = {machine.name: machine for machine in (X86_64, AARCH64)}


class Processors(NamedTuple):
    """The processors of a guest: how many, and how QEMU runs them."""
    number: int
    words: tuple[str, ...]


# One processor whose clock counts its instructions: the guest has its own time, and a busy host changes nothing that
# happens in it. The kernel does not start a second processor so.
OWN_TIME = Processors(1, ("-accel", "tcg,thread=single", "-icount", "shift=2,sleep=off", "-rtc", "clock=vm"))
# One thread for all processors: with a thread for each, the kernel 6.12 died of a breakpoint that it had removed.
FOUR = Processors(4, ("-accel", "tcg,thread=single"))
ONE = Processors(1, ("-accel", "tcg,thread=single"))


def with_kvm(processors: Processors) -> Processors:
    """As many processors of this machine itself, if it lends them."""
    if not os.access("/dev/kvm", os.W_OK):
        raise ValueError("/dev/kvm can't be used")
    return Processors(processors.number, ("-accel", "kvm", "-cpu", "host"))
