"""Fetches the files of a recording from a device: each whole, and compared before the device removes any."""

import contextlib
import errno
import hashlib
import os
import re
import subprocess
from typing import Iterator, NamedTuple

from bar import Bar
from connection import Stopped
from folder import Folder
from viewer import zeros

PIECE = 1 << 20
BEGIN = "capture"  # of the names on the device
# What the recorder adds to the begin of its files' names, and on_device.sh for the packages.
ENDING = re.compile(r"(-[0-9]{1,10}\.(cap|side)|\.side|\.(begin|end)\.(state|transactions|stats)|\.packages)")
# The same of a folder with a set of files that is kept while the recording goes on, and of one that is not whole.
SET = re.compile(r"\.kept-[0-9]{8}T[0-9]{6}Z(-[0-9]{1,2})?|\.keeping")
# Lines of `stat` and of `sha256sum`.
SIZE, SUM = re.compile(r"([0-9]{1,18}) (.*)", re.DOTALL), re.compile(r"([0-9a-f]{64}) [ *](.*)", re.DOTALL)


class File(NamedTuple):
    name: str
    size: int


class Listed(NamedTuple):
    """The files of the recording on the device, and the names of others, which no recording makes: they would be made
    anywhere on this system."""

    files: list[File]
    others: list[str]


def is_made(name: str) -> bool:
    """Whether the recorder gives this name to a file."""
    return name.startswith(BEGIN) and ENDING.fullmatch(name, len(BEGIN)) is not None


def is_set(name: str) -> bool:
    """Whether the recorder gives this name to the folder of a set."""
    return name.startswith(BEGIN) and SET.fullmatch(name, len(BEGIN)) is not None


def unreadable(folder: Folder, said: str) -> Stopped:
    return Stopped(f"the files in {folder.path} of {folder.serial} can't be read: {said}")


def listed(folder: Folder) -> Listed:
    answer = folder.ask(f"stat -c '%s %n' {BEGIN}*")
    sizes = {found[2]: int(found[1]) for line in answer.text.split("\n") if (found := SIZE.fullmatch(line))}
    names = sorted(filter(is_made, sizes))
    if not names:
        raise unreadable(folder, answer.said)
    others = sorted(name for name in sizes.keys() - set(names) if not is_set(name))
    return Listed([File(name, sizes[name]) for name in names], others)


def digests(folder: Folder, files: list[File]) -> dict[str, str]:
    """The sums of the files' bytes, as the device has them."""
    answer = folder.ask(f"sha256sum {BEGIN}*")
    sums = {found[2]: found[1] for line in answer.text.split("\n") if (found := SUM.fullmatch(line))}
    if not sums.keys() >= {file.name for file in files}:
        raise unreadable(folder, answer.said)
    return sums


def path_of(out: str, name: str) -> str:
    return out + name.removeprefix(BEGIN)


def for_owner(path: str, flags: int) -> int:
    """What a capture holds may be secret."""
    return os.open(path, flags | os.O_CLOEXEC, 0o600)


def copied(folder: Folder, file: File, path: str, bar: Bar) -> tuple[int, str]:
    """Writes the bytes that come, and at most a piece more than there are. Returns how many there were, and their
    digest."""
    count, digest = 0, hashlib.sha256()
    with open(path, "xb", opener=for_owner) as to, subprocess.Popen(
            folder.words(f"cat {file.name}"), stdin=subprocess.DEVNULL, stdout=subprocess.PIPE,
            stderr=subprocess.DEVNULL) as program:
        assert program.stdout
        while count <= file.size and (piece := program.stdout.read(PIECE)):
            to.write(piece)
            digest.update(piece)
            count += len(piece)
            bar.add(len(piece))
        to.flush()
        os.fsync(to.fileno())
    return count, digest.hexdigest()


def fetch_one(folder: Folder, file: File, path: str, digest: str, bar: Bar) -> None:
    try:
        came = copied(folder, file, path, bar)
    except OSError as error:  # a write does not say of which file it is
        why = "the disk of this system is full" if error.errno in (errno.ENOSPC, errno.EDQUOT) else error.strerror
        raise Stopped(f"{path} can't be written here: {why}") from error
    if came != (file.size, digest):
        folder.ask(":")  # if the connection is lost, that is why
        raise Stopped(f"{file.name} of {folder.serial} did not come as it is there")


@contextlib.contextmanager
def removed_at_failure(paths: list[str]) -> Iterator[None]:
    try:
        yield
    except BaseException:
        for path in paths:
            with contextlib.suppress(FileNotFoundError):
                os.unlink(path)
        raise


def refuse(paths: list[str]) -> None:
    for path in paths:
        if os.path.lexists(path):
            raise Stopped(f"{path} exists already, and is not overwritten")


def cut_zeros(path: str) -> str | None:
    """Takes off the zeros with which a capture or a side list may end after a loss of power. Returns a line about them;
    None if there are none. A file without anything else stays as it is."""
    of = {".cap": zeros.ended, ".side": zeros.ended_text}.get(os.path.splitext(path)[1])
    end = of(path) if of else None
    if end and end.length:
        os.truncate(path, end.length)
    return f"{path} {end.meaning}" if end else None


def fetch(folder: Folder, files: list[File], out: str) -> list[str]:
    """Fetches these files, under names that begin with `out`. Returns their paths."""
    paths = [path_of(out, file.name) for file in files]
    parts = [f"{path}.part" for path in paths]
    refuse(paths + parts)
    with Bar(sum(file.size for file in files)) as bar, removed_at_failure(parts):
        sums = digests(folder, files)
        for file, part in zip(files, parts):
            fetch_one(folder, file, part, sums[file.name], bar)
        for path, part in zip(paths, parts):
            os.rename(part, path)
    return paths
