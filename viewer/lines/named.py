"""The names of methods for the printer of lines, as `./view` has them: in a file that lines/names.c reads."""

import os
import pathlib
import struct
import subprocess
import tempfile
from typing import Iterable, Iterator

from viewer.files import Stopped
from viewer.lines.run import kept_open
from viewer.methods.every import ADDED
from viewer.methods.known import BINDER, MANAGER, OF_MANAGER_BEFORE_15, Methods, built_in

# What stands as the interface for each one that is not of HIDL, and for none.
EACH, NONE = "*", "-"


def is_before_15(lines: Iterable[str]) -> bool:
    """Whether the lines of the manager's records, with their objects, tell that it is of a release before Android 15:
    only there code 3 hands over an object."""
    is_third = False
    for line in lines:
        if not line.startswith("  "):
            is_third = " code=3 " in line
        elif is_third and line.split()[5] in ("BINDER", "HANDLE"):
            return True
    return False


def can_be_read_again(files: list[str]) -> bool:
    return all(os.path.isfile(file) and os.access(file, os.R_OK) for file in files)


def tells_before_15(root: pathlib.Path, files: list[str]) -> bool:
    """Whether the capture tells that. It is read once more, up to where it does; a pipe can't be."""
    if not can_be_read_again(files):
        return False
    words = [os.fspath(root / "listing"), "--interface", MANAGER, "--objects", "--", *files]
    with subprocess.Popen(words, stdout=subprocess.PIPE) as asked:
        assert asked.stdout
        found = is_before_15(line.decode("utf-8", "replace") for line in asked.stdout)
        asked.stdout.close()
    if asked.returncode not in (0, 2):  # the program has said why
        os._exit(asked.returncode)
    return found


def interfaces_in(root: pathlib.Path, files: list[str]) -> Iterator[str]:
    """The interfaces that the capture names, by the rows of their table."""
    words = [os.fspath(root / "listing"), "--table", "interface", "--", *files]
    asked = subprocess.run(words, capture_output=True)
    if asked.returncode not in (0, 2):
        raise Stopped(asked.returncode, asked.stderr.decode("utf-8", "replace").strip().removeprefix("listing: "))
    at, row = 0, struct.Struct("<3Q")  # which columns there are, the number, and the length of the name
    while at < len(asked.stdout):
        *_, length = row.unpack_from(asked.stdout, at)
        at += row.size + length
        yield asked.stdout[at - length:at].decode("utf-8")


def methods_of(root: pathlib.Path, files: list[str], sources: list[str]) -> Methods:
    """What .aidl sources call the methods of the capture's interfaces; from a pipe, those of all that they have."""
    if not sources:
        return {}
    from viewer.arguments.sources import Declarations
    declared = Declarations(sources)
    return declared.names(interfaces_in(root, files) if can_be_read_again(files) else list(declared.unread))


def lines_of(is_before: bool, given: Methods) -> Iterator[str]:
    """The lines of the file. Of an interface and a code the last line holds."""
    yield from (f"{EACH}\t{code}\t{name}\n" for name, code in ADDED.items())
    if is_before:
        yield from (f"{MANAGER}\t{code}\t{name}\n" for code, name in enumerate(OF_MANAGER_BEFORE_15, 1))
    for (interface, code), method in built_in().items():
        yield from (f"{name}\t{code}\t{method.name}\n" for name in (interface, *[NONE] * (interface == BINDER)))
    yield from (f"{interface}\t{code}\t{method.name}\n" for (interface, code), method in given.items())


def method_words(root: pathlib.Path, files: list[str], sources: list[str]) -> list[str]:
    """The words with which the printer takes the file, which is open in what is run from here, and has no name."""
    with tempfile.TemporaryFile("w", encoding="utf-8") as file:
        file.writelines(lines_of(tells_before_15(root, files), methods_of(root, files, sources)))
        file.flush()
        return ["--methods", f"/dev/fd/{kept_open(os.dup(file.fileno()))}"]
