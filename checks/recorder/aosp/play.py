"""Records AOSP's own code: libbinder of Android 10 and of 14, servicemanager and tests of each, and a small system on
libbinder with and without faults. It fetches AOSP's sources from Debian's registry, builds them, boots Debian's kernels
in QEMU, and plays aosp/plan.txt there, in the guest's own time. It is run by hand.

    checks/run aosp [-- OPTION..]    fetches, builds, boots, compares

Each test is played unrecorded, recorded, with --redact and with --stacks; each scene with --redact and with --stacks. A
line for each says what came of it, by aosp/judge.py. If something is not as it must be, it says so and ends with status
1.
"""

import argparse
import os
import pathlib
import shutil
import subprocess
import sys
from concurrent.futures import ThreadPoolExecutor

from checks.kit.checking import FLAG
from checks.kit.programs import CHECKS, ROOT
from checks.recorder.aosp import blind, judge, store
from checks.recorder.guest.boot import Guest, boot
from checks.recorder.guest.image import Files, Link
from checks.recorder.guest.kept import kept, needs, run, say, stop
from checks.recorder.guest.kernels import Kernel, check_tools, kernel_of
from checks.recorder.guest.machines import OWN_TIME, X86_64
from checks.recorder.guest.packages import linked_libraries, release
from checks.recorder.guest.plans import (
    ACCEL, NAMES, accelerated, command, dynamic_files, first_files, plan_of, plan_text, recorder_for)

AOSP = CHECKS / "recorder/aosp"
RELEASES = ("10", "14")
HOWS = ("unrecorded", "recorded", "--redact", "--stacks")
OF_RUST = ("lib-10", "driver-14", "visitors-10", "dead-listeners-14", "full-pool-10", "two-locks-14",
           "leak-that-rests-14")
LIBRARY = ("libbinder.so", "servicemanager")
# The programs that are called by the name of a role.
OF_ROLES = ("system", "set")
# Libraries of Debian that Android 10 takes, and one that they take.
OF_10 = [*(f"usr/lib/x86_64-linux-gnu/android/lib{name}.so.0"
           for name in ("utils", "cutils", "log", "base", "backtrace")),
         "usr/lib/p7zip/7z.so"]


# ---- the plan


def lines_of(given: argparse.Namespace) -> list[list[str]]:
    """The lines for the guest: each line of the plan that the options leave, of each release, in each way."""
    return [[f"{name}-{android}{ending(what, how)}", what, android, how, *rest]
            for what, name, of, *rest in plan_of([AOSP / "plan.txt"]) if not given.only or name in given.only
            for android in RELEASES if android in of.split(",") and android in (given.android or RELEASES)
            for how in HOWS if (what == "test" or how.startswith("--")) and how in (given.how or HOWS)]


def ending(what: str, how: str) -> str:
    """What a recording is called, after the name of its line."""
    return {"test--redact": "-redacted", "testrecorded": "", "scene--redact": ""}.get(
        what + how, f"-{how.removeprefix('--')}")


def programs_of(lines: list[list[str]], android: str) -> list[str]:
    """The programs that the lines of a release run."""
    return sorted({words[0] if what == "test" else "system" for _, what, of, _, *words in lines if of == android})


# ---- AOSP's code


def sources_of(android: str) -> dict[str, pathlib.Path]:
    """What a release is made of, by the words of its Makefile."""
    if android == "10":
        names = [f"android-lib{name}{end}" for name in ("utils", "cutils", "log", "base") for end in ("", "-dev")]
        return {"SOURCE": release("bookworm", "amd64").source("android-10", "android-platform-frameworks-native"),
                "PACKAGES": release("bookworm", "amd64").packages("for-android-10", *names, "android-libbacktrace",
                                                                  "p7zip-full", "aidl", "libgtest-dev")}
    googletest = release("bookworm", "amd64").packages("googletest", "googletest")
    return {"SOURCE": release("sid", "amd64").source("android-14", "android-platform-tools"),
            "AIDL": release("sid", "amd64").packages("aidl", "aidl", *(f"android-lib{name}" for name in (
                "base", "cutils", "log")), "libatomic1", "libc6", "libgcc-s1", "libstdc++6"),
            "GOOGLETEST": googletest / "usr/src/googletest"}


def built(android: str, programs: list[str], log: pathlib.Path, of: pathlib.Path | None = None,
          room: str | None = None) -> pathlib.Path:
    """A folder with libbinder and servicemanager of a release, and these programs: of the small system, of a blind test
    set, or of a room that has its own Makefiles."""
    sources = sources_of(android)
    parts: list[str | pathlib.Path] = [*map(str, sources.values()), run("clang++", "--version"),
                                       AOSP / f"Makefile.{android}", *files_in(AOSP / "stubs")]

    def make(to: pathlib.Path, targets: list[str], makefile: str = f"Makefile.{android}") -> None:
        words = [f"{name}={path}" for name, path in sources.items()]
        try:
            run("make", "-s", "-j", len(os.sched_getaffinity(0)), "-f", AOSP / makefile, *words, f"SET={of}",
                f"OUT={to}", *(to / target for target in targets), log=log)
        except subprocess.CalledProcessError:
            stop(f"the build failed: see {log}")

    library = kept(f"libbinder-{android}", parts, lambda to: make(to, list(LIBRARY)),
                   f"build libbinder of Android {android}")

    def make_programs(to: pathlib.Path) -> None:
        run("cp", "-a", f"{library}/.", to)
        make(to, programs, f"{room}/Makefile.{android}" if room else f"Makefile.{'set' if of else android}")
        for name in ("objects", "made"):
            shutil.rmtree(to / name, ignore_errors=True)
    made_of = [AOSP / "Makefile.set", *blind.sources_in(of)] if of else files_in(AOSP / (room or "system"))
    return kept(f"android-{android}", [*parts, *made_of, *programs], make_programs,
                f"build {' '.join(programs)} of Android {android}")


def files_in(folder: pathlib.Path) -> list[pathlib.Path]:
    return sorted(path for path in folder.rglob("*") if path.is_file())


# ---- the guest


def files_of(android: str, folder: pathlib.Path, room: pathlib.Path) -> Files:
    """A release in the guest: its programs, and the libraries that are not those of this machine. They are stripped of
    what names functions: with that, `./view --symbols` names them by what was built."""
    to = room / f"android-{android}"
    shutil.rmtree(to, ignore_errors=True)
    to.mkdir()
    for path in folder.iterdir():
        if path.is_file() and os.access(path, os.X_OK):
            run("strip", "-g", "-o", to / path.name, path)
    if android == "10":
        for name in OF_10:
            shutil.copy(sources_of("10")["PACKAGES"] / name, to)
    files: Files = {f"lib/{path.name}": path for program in to.iterdir() for path in linked_libraries(program, [to])}
    files[to.name] = to
    for name in (name for name in OF_ROLES if (to / name).exists()):
        said = subprocess.run([to / name], env={"LD_LIBRARY_PATH": str(to)}, stdout=subprocess.PIPE,
                              stderr=subprocess.DEVNULL, encoding="utf-8").stdout
        files |= {f"{to.name}/{line.split()[0]}": Link(name) for line in said.splitlines() if line}
    return files


def folder_of(given: argparse.Namespace, series: str) -> pathlib.Path:
    """Where a guest leaves its recordings."""
    return given.room / f"out-{series}"


def play(given: argparse.Namespace, series: str, kernel: Kernel, files: Files, count: int) -> list[str]:
    """Records all lines on a kernel. Returns what is wrong with its guest."""
    out = folder_of(given, series)
    shutil.rmtree(out, ignore_errors=True)
    # servicemanager asks for the security contexts of those that call it.
    guest = Guest(X86_64, kernel, files, accelerated(given, OWN_TIME), "3G", "security=selinux selinux=1")
    return [why for why in [boot(guest, out.name, count, out)] if why]


def play_all(given: argparse.Namespace, all_series: list[str], files: Files, count: int) -> list[str]:
    """The same on several kernels side by side: each guest has one processor."""
    kernels = [kernel_of(series, X86_64) for series in all_series]
    with ThreadPoolExecutor(len(all_series)) as pool:
        found = pool.map(lambda series, kernel: play(given, series, kernel, files, count), all_series, kernels)
        return [what for wrong in found for what in wrong]


def judge_all(given: argparse.Namespace, series: str, lines: list[list[str]],
              symbols: dict[str, pathlib.Path]) -> list[str]:
    """What is wrong with the recordings on a kernel, which are stored if that is asked for."""
    out = folder_of(given, series)
    say(f"{out.name}: what came of {len(lines)} lines")
    wrong = list(judge.judged_all(out, [words[0] for words in lines], symbols))
    if given.store and series == "newest":
        store.store(out, ROOT / "samples/aosp")
    elif given.store and series == "rust":
        store.store(out, ROOT / "samples/aosp", "-rust", OF_RUST)
    return wrong


def files_for(given: argparse.Namespace) -> Files:
    """What each guest has, without a plan and what it plays."""
    return {**first_files(X86_64, AOSP / "init.sh", given.limit), **dynamic_files(X86_64),
            "with-manager": (AOSP / "with-manager.sh").read_text("utf-8"),
            "record": given.recorder or recorder_for(X86_64, given.room)}


def check(given: argparse.Namespace) -> list[str]:
    check_tools(X86_64)
    needs({"clang++": "clang libstdc++-12-dev", "make": "make"})
    test = subprocess.run(["clang++", "-stdlib=libc++", "-fsyntax-only", "-x", "c++", "-"], input=b"#include <vector>",
                          stderr=subprocess.DEVNULL)
    if test.returncode:
        stop("clang has no libc++: apt-get install libc++-14-dev libc++abi-14-dev")
    if given.blind:
        given.blind = given.blind.resolve()
        return blind.play(given, {**files_for(given), **files_of("14", built(
            "14", ["set"], given.room / "build-14.log", given.blind), given.room)})
    if not (lines := lines_of(given)):
        return ["the plan has no such line"]
    symbols = {android: built(android, programs, given.room / f"build-{android}.log") for android in RELEASES
               if (programs := programs_of(lines, android))}
    files = {**files_for(given), "plan": plan_text(lines)}
    for android, folder in symbols.items():
        files |= files_of(android, folder, given.room)
    all_series = [*given.kernel, *["rust"] * given.rust] or ["6.1", "newest"]
    say(f"play {len(lines)} lines on {', '.join(all_series)}")
    wrong = play_all(given, all_series, files, len(lines))
    return [*wrong, *(what for series in all_series for what in judge_all(given, series, lines, symbols))]


if __name__ == "__main__":
    command("aosp", sys.modules["__main__"].__doc__, check, 400,
            recorder={"type": pathlib.Path, "metavar": "FILE", "help": "a recorder that is already built"},
            kernel={**NAMES, "metavar": "SERIES",
                    "help": "5.10, 6.1, 6.12 or newest, which is Debian sid's; by default 6.1 and newest"},
            android={**NAMES, "choices": RELEASES, "help": "only what is of this release"},
            rust={**FLAG, "help": "a kernel with the driver in Rust, alone or beside those of --kernel; it is built if"
                                  " there is none: rust_kernel.sh"},
            only={**NAMES, "help": "only this line of the plan; only what it runs is built"},
            how={**NAMES, "choices": HOWS, "help": "only recordings made so"}, accel=ACCEL,
            blind={"type": pathlib.Path, "metavar": "FOLDER",
                   "help": "records the sessions of a blind test set on Android 14, which this folder has, instead, and"
                           " judges nothing: aosp/blind.py"},
            store={**FLAG, "help": "also renews samples/aosp from what the newest kernel gave, and with --rust those"
                                   " of it that are stored, as NAME-RELEASE-rust"})
