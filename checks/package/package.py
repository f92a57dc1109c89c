"""Checks the package that `./package` makes.

    checks/run package [-- [--guest] [--kept ROOM]]

What must hold:

- Two packages of one commit have the same bytes. The second is made from a copy of the repository in another folder.
- apt installs the package in a new Debian, made by debootstrap, that has neither this repository nor its toolchain.
- There the programs give the same answers as here, on all captures in samples/: reports, first faults, listings,
  groups, databases and timelines to the byte, and pages but for the names of the two commands in them. Those of the
  archive do so from another folder.
- The commands in the pages of the manual print there what the pages say.
- With --guest: on Debian's kernel in QEMU, `binder-record` records a scenario of checks/recorder/scenarios, and the
  other programs say there of the capture what they say here.
- When the package is removed, no file or folder is left.
- lintian has nothing to say, nor mandoc about the pages of the manual.
- All six commands have completions for bash, zsh and fish. `checks/run options` says what must hold of these.

By hand, since it needs root, the network, and debootstrap, lintian, mandoc and zsh; for the guest also QEMU and cpio.
It takes some 5 minutes, and 2 to 12 more for the guest, without KVM. It proves what is not proved yet. What was
changed since the commit is packed too, under another version. ROOM is where the new Debian is kept for the next time.
"""

import argparse
import filecmp
import os
import pathlib
import re
import shlex
import shutil
import subprocess
from typing import Iterator

from checks.kit.checking import FLAG, Fail, check, compare
from checks.kit.programs import PACKAGED, ROOT, linked
from checks.kit.runs import output_of
from checks.pages.pages import commands_in
from checks.recorder.driver.play import SOURCES
from checks.recorder.guest.boot import Guest, boot
from checks.recorder.guest.kernels import kernel_of
from checks.recorder.guest.machines import OWN_TIME, X86_64
from checks.recorder.guest.plans import compiled, first_files
from packager import manual

SUITE, MIRROR = "bookworm", "http://deb.debian.org/debian"
NEEDED = ("debootstrap", "lintian", "mandoc", "zsh", "unshare")
# What apt and dpkg write themselves.
OWN = ("proc", "var/cache", "var/lib/apt", "var/lib/dpkg", "var/log", "root", "tmp")

# Asks all programs about all captures, in a folder with samples/, and leaves the answers there.
ASK = """
set -u
mkdir answers
ask() { # NAME COMMAND..
  name=answers/$(printf %s "$1" | tr / -)
  shift
  "$@" >"$name.out" 2>"$name.err"
  echo $? >"$name.status"
}
for program in audit listing record view fleet methods; do ask "$program-help" "binder-$program" --help; done
for words in '' report first-fault 'report none.cap' '--workers 2'; do ask "words-$words" binder-audit $words; done
ask parts binder-audit report samples/rotated-1.cap samples/rotated-2.cap
ask methods binder-methods samples/interfaces
for capture in samples/*.cap samples/driver/*/capture-1.cap; do
  side=${capture%-1.cap}.side
  [ -e "$side" ] || side=
  ask "$capture-report" binder-audit report "$capture"
  ask "$capture-fault" binder-audit first-fault "$capture"
  ask "$capture-listing" binder-listing "$capture" --objects ${side:+--side "$side"}
  name=answers/$(printf %s "$capture" | tr / -)
  ask "$capture-view" binder-view "$capture" ${side:+--side "$side"} -o "$name.html" --database "$name.db" \\
    --trace "$name.json.gz"
  ask "$capture-groups" binder-view "$capture" ${side:+--side "$side"} --groups
done
"""


# ---- two builds


def built(folder: pathlib.Path, out: pathlib.Path) -> list[pathlib.Path]:
    output_of([folder / "package", out])
    return sorted(out.iterdir())


def check_builds(room: pathlib.Path, fail: Fail) -> list[pathlib.Path]:
    """Makes the package twice. Returns the files of the first."""
    first = built(ROOT, room / "first")
    output_of(["cp", "-a", ROOT, room / "elsewhere"])
    second = built(room / "elsewhere", room / "second")
    compare("names of the second build", [it.name for it in second], [it.name for it in first], fail)
    for one, other in zip(first, second):
        if not filecmp.cmp(one, other, shallow=False):
            fail(f"{one.name}: the second build has other bytes")
    shutil.rmtree(room / "elsewhere")
    return first


# ---- a new Debian


def new_system(kept: pathlib.Path, system: pathlib.Path) -> None:
    """A copy of a new Debian, which is made first if it is not kept."""
    if not (kept / "made").exists():
        shutil.rmtree(kept, ignore_errors=True)
        output_of(["debootstrap", "--variant=minbase", SUITE, kept, MIRROR])
        (kept / "made").touch()
    output_of(["cp", "-a", kept, system])


def inside(system: pathlib.Path, script: str) -> str:
    """Runs a script as root in the new system, whose /proc ends with it."""
    begin = 'mount -t proc proc "$0/proc" && exec chroot "$0" /bin/bash -c "$1"'
    environment = {"PATH": "/usr/sbin:/usr/bin:/sbin:/bin", "DEBIAN_FRONTEND": "noninteractive", "LC_ALL": "C.UTF-8"}
    return output_of(["unshare", "--mount", "sh", "-c", begin, system, script], env=environment)


def files_of(system: pathlib.Path) -> set[str]:
    """All files and folders of a system, but for what apt and dpkg write themselves."""
    found = set()
    for folder, folders, names in os.walk(system):
        here = os.path.relpath(folder, system)
        folders[:] = [name for name in folders if os.path.normpath(f"{here}/{name}") not in OWN]
        found.update(os.path.normpath(f"{here}/{name}") for name in (*folders, *names))
    return found


def needs_of(package: pathlib.Path) -> str:
    return output_of(["dpkg-deb", "-f", package, "Depends"]).strip()


# ---- answers


def asked_here(room: pathlib.Path) -> pathlib.Path:
    """The answers of the programs of the repository, which are called by the same names."""
    programs, folder = linked(room / "bin", PACKAGED), linked(room / "here", {"samples": ROOT / "samples"})
    output_of(["bash", "-c", ASK], cwd=folder, env={**os.environ, "PATH": f"{programs}:{os.environ['PATH']}",
                                                    "LC_ALL": "C.UTF-8"})
    return folder / "answers"


def asked_inside(system: pathlib.Path, name: str, path: str) -> pathlib.Path:
    """The answers of the programs that are on this path in the new system."""
    go = f"mkdir /root/{name} && cd /root/{name} && ln -s /usr/share/doc/binder-audit/samples && PATH={path}\n"
    inside(system, go + ASK)
    return system / "root" / name / "answers"


def as_here(file: pathlib.Path) -> bytes:
    """An answer with the names of the repository: the page and `--help` have the names of programs. The longer names
    break the lines of `--help` at other words."""
    data = file.read_bytes()
    if file.suffix == ".html" or file.name.endswith(("-help.out", "-view.err", "-groups.err")):
        data = re.sub(rb"(?<!\w)binder-(audit|listing|record|view|fleet)\b", rb"./\1", data)
        data = data.replace(b"binder-methods", b"viewer/methods/table.py")
    return re.sub(rb"\s+", b" ", data) if file.name.endswith("-help.out") else data


def check_answers(what: str, came: pathlib.Path, due: pathlib.Path, fail: Fail) -> None:
    names = sorted(it.name for it in due.iterdir())
    compare(f"{what}: answers", sorted(it.name for it in came.iterdir()), names, fail)
    for name in names:
        if (came / name).exists() and as_here(came / name) != as_here(due / name):
            fail(f"{what}: {name} is not as here")
    if len([name for name in names if name.endswith(".db")]) < 40:
        fail(f"{what}: there are too few databases")


# ---- the guest

INIT = """#!/bin/busybox sh
. /guest.sh
add_driver
export PATH=/usr/sbin:/usr/bin:/sbin:/bin
play() {
  cd $here
  binder-record -- /scenarios leaks . 2>record.err
  echo $? >record.status
  binder-audit report capture-1.cap >report.txt
  binder-view capture-1.cap --side capture.side --groups >groups.txt 2>view.err
}
play_plan play
"""
# Most of what a system has, and not needed.
LEFT_OUT = ("tmp", "var/cache", "var/lib/apt", "usr/share/locale")


def recorded(system: pathlib.Path, room: pathlib.Path) -> pathlib.Path:
    """What a guest with the installed package recorded, and said of it."""
    for name in LEFT_OUT:
        shutil.rmtree(system / name)
    scenarios = compiled(X86_64, room / "scenarios", "-static", *SOURCES, "-lpthread")
    files = {**{path.name: path for path in system.iterdir()}, **first_files(X86_64, INIT, 600), "scenarios": scenarios,
             "plan": "leaks leaks\n"}
    said = boot(Guest(X86_64, kernel_of("6.1", X86_64), files, OWN_TIME), "of the package", 1, room / "recorded")
    return room / "recorded/leaks" if said is None else room


def check_guest(system: pathlib.Path, room: pathlib.Path, fail: Fail) -> None:
    folder = recorded(system, room)
    if not (folder / "report.txt").exists():
        fail("the guest: nothing came")
        return
    told = (folder / "record.err").read_text("utf-8")
    if not re.fullmatch(r"record: \d+ frames, 0 lost; 1 file, \d+ bytes; next: /usr/bin/binder-audit report capture-1"
                        r".cap\n", told):
        fail(f"the guest: binder-record: {told}")
    compare("the guest: status of binder-record", (folder / "record.status").read_text("utf-8"), "0\n", fail)
    report = output_of([ROOT / "audit", "report", "capture-1.cap"], cwd=folder)
    compare("the guest: report", (folder / "report.txt").read_text("utf-8"), report, fail)
    groups = output_of([ROOT / "view", "capture-1.cap", "--side", "capture.side", "--groups"], cwd=folder)
    compare("the guest: groups", (folder / "groups.txt").read_text("utf-8"), groups, fail)


# ---- the manual


def commands_of(page: manual.Page) -> Iterator[tuple[str, list[str]]]:
    """The commands that a page of the manual shows, each with the lines that it prints."""
    for document, headings in page.documents.items():
        for section in manual.sections_under(document, headings):
            for block in manual.joined(manual.blocks_of(section.text)):
                if block[0].startswith("    "):
                    for _, command, due in commands_in([line.removeprefix("    ") for line in block]):
                        yield manual.as_installed(command), due


def check_commands(system: pathlib.Path, fail: Fail) -> None:
    for page in manual.PAGES:
        inside(system, f"mkdir /root/{page.name} && ln -s /usr/share/doc/binder-audit/samples /root/{page.name}/")
        for command, due in commands_of(page):
            came = inside(system, f"cd /root/{page.name}\n{{ {command}\n}} 2>&1 || :")
            compare(f"{page.name}({page.section}): {command}", came.splitlines(), due, fail)


def check_pages(system: pathlib.Path, fail: Fail) -> None:
    for page in manual.PAGES:
        path = system / f"usr/share/man/man{page.section}/{page.name}.{page.section}.gz"
        said = subprocess.run(f"zcat {shlex.quote(str(path))} | mandoc -T lint", shell=True, capture_output=True,
                              encoding="utf-8")
        compare(f"mandoc about {page.name}", said.stdout + said.stderr, "", fail)


def check_lint(package: pathlib.Path, fail: Fail) -> None:
    said = subprocess.run(["lintian", "--allow-root", "--display-level", ">=warning", package], capture_output=True,
                          encoding="utf-8")
    compare("lintian", said.stdout + said.stderr, "", fail)


# ---- completions


def check_completions(system: pathlib.Path, fail: Fail) -> None:
    share = system / "usr/share"
    compare("completions for bash", sorted(it.name for it in (share / "bash-completion/completions").glob("binder-*")),
            sorted(PACKAGED), fail)
    compare("completions for fish", sorted(it.stem for it in (share / "fish/vendor_completions.d").glob("binder-*")),
            sorted(PACKAGED), fail)
    output_of(["zsh", "-n", share / "zsh/vendor-completions/_binder-audit"])


# ---- all of it


def check_system(room: pathlib.Path, kept: pathlib.Path, files: list[pathlib.Path], guest: bool, fail: Fail) -> None:
    package = next(it for it in files if it.suffix == ".deb")
    archive = next(it for it in files if it.suffix == ".xz")
    system = room / "system"
    new_system(kept, system)
    due = asked_here(room)
    needs = shlex.quote(f"{needs_of(package)}, make")  # which a page of the manual calls
    inside(system, f"apt-get update && apt-get satisfy -y --no-install-recommends {needs}")
    before = files_of(system)
    shutil.copy(package, system / "tmp")
    inside(system, f"apt-get install -y /tmp/{package.name}")
    compare("--version", inside(system, "binder-audit --version").split()[1], package.name.split("_")[1], fail)
    check_answers("the package", asked_inside(system, "installed", "/usr/bin:/bin"), due, fail)
    check_commands(system, fail)
    check_pages(system, fail)
    check_completions(system, fail)
    if guest:
        output_of(["cp", "-a", system, room / "guest"])
        check_guest(room / "guest", room, fail)
    output_of(["tar", "-C", system / "tmp", "-xf", archive])
    folder = archive.name.replace("_amd64.tar.xz", "").replace("_", "-")
    check_answers("the archive", asked_inside(system, "unpacked", f"/tmp/{folder}/bin:/usr/bin:/bin"), due, fail)
    inside(system, "apt-get purge -y binder-audit")
    compare("left after the removal", files_of(system) - before, set(), fail)
    compare("missing after the removal", before - files_of(system), set(), fail)


def judge(given: argparse.Namespace, room: pathlib.Path, fail: Fail) -> None:
    if missing := [name for name in NEEDED if shutil.which(name) is None]:
        fail(f"missing: {' '.join(missing)}")
        return
    room.chmod(0o755)
    files = check_builds(room, fail)
    check_system(room, given.kept.resolve() if given.kept else room / "kept", files, given.guest, fail)
    check_lint(next(it for it in files if it.suffix == ".deb"), fail)


if __name__ == "__main__":
    check(judge, guest=FLAG, kept={"metavar": "ROOM", "type": pathlib.Path})
