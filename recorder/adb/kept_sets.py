"""The sets of files that a flight recorder on the device keeps while it goes on: each is a folder there, and becomes
one here, under its last name only when all of it is here."""

import os
import shutil
from typing import Iterator

import fetch
from connection import Stopped
from folder import Folder

UNFINISHED = ".keeping"  # what follows the begin of the files' names for a set that is not whole


def names_on(folder: Folder) -> list[str]:
    """The sets that are whole there, the oldest one first."""
    found = folder.ask(f"ls -d {fetch.BEGIN}.kept-*").text.split("\n")
    return sorted(name for name in found if fetch.is_set(name))


def secure(path: str) -> None:
    """Waits until what this folder has is on the disk."""
    opened = os.open(path, os.O_RDONLY | os.O_DIRECTORY)
    try:
        os.fsync(opened)
    finally:
        os.close(opened)


def fetch_set(folder: Folder, name: str, out: str) -> list[str]:
    """Fetches a set, and removes it there. Returns the paths of its files."""
    to, part = out + name.removeprefix(fetch.BEGIN), f"{out}{UNFINISHED}"
    fetch.refuse([to, part])
    if (answer := folder.ask(f"cp owner {name}/owner")).status:
        raise Stopped(f"{name} of {folder.serial} can't be read: {answer.said}")
    there = Folder(folder.connection, f"{folder.path}/{name}", folder.owner)
    files, _ = fetch.listed(there)
    os.mkdir(part, 0o700)
    try:
        paths = fetch.fetch(there, files, os.path.join(part, os.path.basename(out)))
        secure(part)
        os.rename(part, to)
    except BaseException:
        shutil.rmtree(part, ignore_errors=True)
        raise
    secure(os.path.dirname(to) or ".")
    there.remove()
    return [os.path.join(to, os.path.basename(path)) for path in paths]


def fetch_sets(folder: Folder, out: str) -> Iterator[list[str]]:
    """Fetches all sets, one after the other: the paths of the files of each."""
    for name in names_on(folder):
        yield fetch_set(folder, name, out)
