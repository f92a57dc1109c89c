#!/usr/bin/env python3
"""Lists the sessions of a lab, a line each: BUILD/DEVICE/SESSION.

    sessions.py LAB [--left | --refused]

The captures of a session are LAB/BUILD/DEVICE/SESSION.cap, or its parts SESSION-1.cap, SESSION-2.cap and so on, with
SESSION.side beside them, or a side list for each part. With --left only sessions are listed whose result is missing,
older than its captures or its side lists, or made by other programs, rules or tables of methods.

Names of builds, devices, sessions and tables of methods become words of make and of a shell. So a name is refused that
has other signs than A-Z, a-z, 0-9, `.`, `_`, `+` and `-`, or that begins with `.` or `-`: it is not listed, and neither
is what lies below it. With --refused no session is listed, but a line on standard error names each path that is left
out.

Status 0: listed. 1: with --refused, something is left out. 4: LAB can't be read, or the list not written.
"""

import argparse
import contextlib
import os
import pathlib
import re
import stat
import sys
from typing import Iterator

HERE = pathlib.Path(__file__).resolve().parent
sys.path.insert(0, str(HERE.parent))
sys.dont_write_bytecode |= not (HERE.parent / "crates/build").exists()
from viewer.whole_python import need_whole_python  # noqa: E402
need_whole_python("fleet")
from lab.basis import basis_of, said_in, tables_of  # noqa: E402
from viewer.files import Stopped  # noqa: E402
from viewer.terminal import tell, write  # noqa: E402

NAME = re.compile(r"[A-Za-z0-9_+][A-Za-z0-9._+-]*")

# A capture or a side list: the session that it is of, and its part.
FILE = re.compile(r"(.*?)(-[0-9]+)?\.(cap|side)", re.DOTALL)

# The folder of the lab that is no build.
RESULTS = "results"

# Why something is left out.
WRONG_NAME = "rename it: a name has only A-Z, a-z, 0-9, '.', '_', '+' and '-', and does not begin with '.' or '-'"
WRONG_TABLE = f"{WRONG_NAME}; and without this table nothing of the build can be done"
NO_FILE = "it is no file"


class Lab:
    """What lies in the folder of a lab. `refused` has what is left out, by its path, and why. `changed` has of each
    session the time of its newest file."""

    def __init__(self, folder: str):
        self.folder = folder
        self.refused: dict[str, str] = {}
        self.captured: set[str] = set()
        # The tables of methods of each build.
        self.tables: dict[str, list[str]] = {}
        self.changed: dict[str, int] = {}
        for build in self.named(self.entries()):
            if build.name != RESULTS and build.is_dir():
                self.take_build(build.name)

    def entries(self, *below: str) -> list[os.DirEntry]:
        path = os.path.join(self.folder, *below)
        try:
            with os.scandir(path) as found:
                return sorted(found, key=lambda it: it.name)
        except OSError as error:
            if not below:
                raise Stopped(4, f"{path}: {error.strerror}") from error
            self.refused["/".join(below)] = str(error.strerror)
            return []

    def named(self, entries: list[os.DirEntry], *below: str) -> Iterator[os.DirEntry]:
        """Those whose names are right. The others are refused if captures are below them."""
        for entry in entries:
            if NAME.fullmatch(entry.name):
                yield entry
            elif self.has_captures(entry, *below):
                self.refused["/".join((*below, entry.name))] = WRONG_NAME

    def has_captures(self, entry: os.DirEntry, *below: str) -> bool:
        """Whether a build or a device has captures, or a device of a build."""
        if len(below) == 2:
            return entry.name.endswith(".cap")
        path = *below, entry.name
        return entry.is_dir() and any(self.has_captures(it, *path) for it in self.entries(*path))

    def take_build(self, build: str) -> None:
        entries = self.entries(build)
        tables = [it.name for it in entries if it.name.endswith(".methods") and not NAME.fullmatch(it.name)]
        self.refused.update({f"{build}/{table}": WRONG_TABLE for table in tables})
        self.tables[build] = [it.path for it in entries if it.name.endswith(".methods") and it.is_file()]
        for device in self.named(entries, build):
            if device.is_dir() and not tables:
                self.take_device(build, device.name)

    def take_device(self, build: str, device: str) -> None:
        for entry in self.entries(build, device):
            if of := FILE.fullmatch(entry.name):
                why = self.take_file(f"{build}/{device}/{of[1]}", entry, of[3] == "cap")
                if why and of[3] == "cap":
                    self.refused[f"{build}/{device}/{entry.name}"] = why

    def take_file(self, session: str, entry: os.DirEntry, is_capture: bool) -> str | None:
        """Returns why the file is left out, if it is."""
        if not NAME.fullmatch(session.rpartition("/")[2]):
            return WRONG_NAME
        try:
            state = entry.stat()
        except OSError as error:
            return error.strerror
        if not stat.S_ISREG(state.st_mode):
            return NO_FILE
        if is_capture:
            self.captured.add(session)
        self.changed[session] = max(self.changed.get(session, 0), state.st_mtime_ns)
        return None

    def left(self, basis: str) -> list[str]:
        """The sessions without a result, with one that is older than their files, or one that rests on something else:
        on another basis, or on other tables of methods."""
        due = {}
        for build, tables in self.tables.items():
            with contextlib.suppress(OSError):
                due[build] = {"basis": basis, "tables": tables_of(tables)}
        return [session for session in sorted(self.captured) if self.is_left(session, due)]

    def is_left(self, session: str, due: dict[str, dict[str, str]]) -> bool:
        path = os.path.join(self.folder, RESULTS, f"{session}.json")
        try:
            made = os.stat(path).st_mtime_ns
            return made < self.changed[session] or said_in(path) != due.get(session.partition("/")[0])
        except OSError:
            return True


def main() -> int:
    line = argparse.ArgumentParser(description=__doc__, formatter_class=argparse.RawDescriptionHelpFormatter)
    line.add_argument("lab")
    line.add_argument("--left", action="store_true")
    line.add_argument("--refused", action="store_true")
    asked = line.parse_args()
    try:
        lab = Lab(asked.lab)
        if asked.refused:
            for path, why in lab.refused.items():
                tell("fleet", f"{os.path.join(asked.lab, path)} is left out: {why}")
            return 1 if lab.refused else 0
        write(f"{it}\n" for it in (lab.left(basis_of(HERE.parent)) if asked.left else sorted(lab.captured)))
        return 0
    except Stopped as stopped:
        tell("fleet", str(stopped))
        return stopped.status
    except OSError as error:
        tell("fleet", f"standard output: {error.strerror}")
        return 4


if __name__ == "__main__":
    sys.exit(main())
