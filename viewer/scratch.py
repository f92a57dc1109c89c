"""Folders for what is needed only while a program runs. One that was killed leaves its folder, and the next program
removes it: a folder has a file that its program keeps locked as long as it lives."""

import contextlib
import fcntl
import os
import pathlib
import signal
from typing import Iterator

# The file in each folder that is locked. A folder without it is none of ours.
OWNER = ".scratch-of-binder-audit"

# Where a folder is made if nothing else is said, as Python's module tempfile has it, which takes longer to load.
SETTINGS, PLACES = ("TMPDIR", "TEMP", "TMP"), ("/tmp", "/var/tmp", "/usr/tmp", ".")


@contextlib.contextmanager
def sigterm_held() -> Iterator[None]:
    """SIGTERM waits until this ends."""
    signal.pthread_sigmask(signal.SIG_BLOCK, {signal.SIGTERM})
    try:
        yield
    finally:
        signal.pthread_sigmask(signal.SIG_UNBLOCK, {signal.SIGTERM})


def lock_of(folder: pathlib.Path) -> int:
    """Locks a new folder. The file has its name only when it is locked, so that nobody else locks it first. The byte in
    it shows that there is room for files."""
    lock = os.open(folder / f"{OWNER}.new", os.O_RDWR | os.O_CREAT | os.O_EXCL, 0o600)
    fcntl.flock(lock, fcntl.LOCK_EX)
    os.write(lock, b"\n")
    os.rename(folder / f"{OWNER}.new", folder / OWNER)
    return lock


def is_left(folder: pathlib.Path) -> bool:
    """Whether the program of a folder has ended. It fails if the folder is none of ours."""
    lock = os.open(folder / OWNER, os.O_RDWR | os.O_NOFOLLOW)
    try:
        fcntl.flock(lock, fcntl.LOCK_EX | fcntl.LOCK_NB)
        return True
    except BlockingIOError:
        return False
    finally:
        os.close(lock)


def remove(folder: pathlib.Path) -> None:
    """Removes a folder, and what it has."""
    with os.scandir(folder) as entries:
        for entry in entries:
            if entry.is_dir(follow_symlinks=False):
                remove(folder / entry.name)
            else:
                os.unlink(entry)
    os.rmdir(folder)


def remove_left(prefix: str, beside: str) -> None:
    """Removes the folders that programs of this user left, which were killed."""
    for folder in pathlib.Path(beside).glob(f"{prefix}-*"):
        with contextlib.suppress(OSError):
            if folder.stat(follow_symlinks=False).st_uid == os.getuid() and is_left(folder):
                remove(folder)


def made_in(beside: str, prefix: str) -> tuple[pathlib.Path, int]:
    """A new folder, and the lock of it."""
    remove_left(prefix, beside)
    folder = pathlib.Path(beside, f"{prefix}-{os.urandom(8).hex()}")
    folder.mkdir(mode=0o700)
    try:
        return folder, lock_of(folder)
    except OSError:
        with contextlib.suppress(OSError):
            remove(folder)
        raise


def made(beside: str | None, prefix: str) -> tuple[pathlib.Path, int]:
    """A new folder, and the lock of it; if no place is named, where the first one can be made."""
    places = [os.environ[name] for name in SETTINGS if os.environ.get(name)] + list(PLACES)
    for place in places if beside is None else (beside,):
        try:
            return made_in(place, prefix)
        except OSError as error:  # it names the folder that could not be made, which nobody knows
            why = OSError(error.errno, error.strerror, beside or places[0])
    raise why


@contextlib.contextmanager
def folder_in(beside: str | None, prefix: str = "view") -> Iterator[pathlib.Path]:
    """A folder that is removed at the end. A SIGTERM waits while it is made or removed, which else would leave it."""
    folder = None
    try:
        with sigterm_held():
            folder, lock = made(beside, prefix)
        yield folder
    finally:
        if folder is not None:
            with sigterm_held():
                remove(folder)
                os.close(lock)
