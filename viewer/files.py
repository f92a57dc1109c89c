"""How a program of the viewer ends early, and the files that it reads and makes."""

import contextlib
import os
import pathlib
import stat
from typing import Callable, Iterator, NamedTuple

from viewer.scratch import folder_in, sigterm_held


class Stopped(Exception):
    """Ends `./view` early, with a status and a line that says why."""

    def __init__(self, status: int, line: str):
        super().__init__(status, line)
        self.status, self.line = status, line

    def __str__(self) -> str:
        return self.line


def shown_name(files: list[str]) -> str:
    """What a capture is called on its page and in its database: the names of its files, without their folders."""
    return os.fsencode(" ".join(map(os.path.basename, files))).decode(errors="replace")


def quoted(word: str) -> str:
    """A word as a shell reads it, also if it is no UTF-8, or has signs that can't be seen."""
    if word.isprintable():
        import shlex
        return shlex.quote(word)
    return "$'" + "".join(chr(one) if 32 <= one < 127 and chr(one) not in "\\'" else f"\\x{one:02x}"
                          for one in os.fsencode(word)) + "'"


def word_of(name: str) -> str:
    """The name of a file as a word of a shell, also if it begins with a dash."""
    return quoted(f"./{name}" if name.startswith("-") else name)


# ---- files that are read


class State(NamedTuple):
    """What changes if a file is written, or another one gets its name."""
    device: int
    inode: int
    size: int
    written: int


def state_of(name: str) -> State:
    """The state of a file. What is read more than once must be a file: a pipe has its bytes only once."""
    try:
        found = os.stat(name)
        if stat.S_ISDIR(found.st_mode):
            raise Stopped(4, f"{name} is a folder, and not a file")
        if not stat.S_ISREG(found.st_mode):
            raise Stopped(4, f"{name} is a pipe or a device, and is read more than once: write it into a file first, by"
                             " cat > FILE")
        open(name, "rb").close()
    except OSError as error:
        raise Stopped(4, f"{name}: {error.strerror}") from error
    return State(found.st_dev, found.st_ino, found.st_size, found.st_mtime_ns)


@contextlib.contextmanager
def unchanged(files: list[str]) -> Iterator[None]:
    """In this block files are read more than once. If one of them changes meanwhile, whatever the block says is not
    so: a line says that it changed."""
    before = {name: state_of(name) for name in files}

    def refuse_changed() -> None:
        for name, state in before.items():
            if state_of(name) != state:
                raise Stopped(4, f"{name} changed while it was read: end what writes it, or make a copy and read that")

    try:
        yield
    except Exception:
        refuse_changed()
        raise
    refuse_changed()


def refuse_named_pipe(name: str) -> None:
    """A file may be read once, and so be a pipe of the shell. But a pipe with a name of its own may have no writer, and
    would be waited for."""
    with contextlib.suppress(OSError):
        if stat.S_ISFIFO(os.lstat(name).st_mode):
            raise Stopped(4, f"{name} is a pipe: write it into a file first, by cat > FILE")


def linked(files: list[str], folder: pathlib.Path) -> list[pathlib.Path]:
    """Links to files, as programs are given them: whatever a file is called, a link is no option of a program, and
    /dev/stdin is another file there than here."""
    links = []
    for number, name in enumerate(files, 1):
        links.append(folder / f"part-{number}.cap")
        links[-1].symlink_to(os.path.realpath(name))
    return links


def refuse_no_folder(folders: list[str]) -> None:
    for name in folders:
        try:
            os.scandir(name).close()
        except OSError as error:
            raise Stopped(4, f"{name}: {error.strerror}") from error


# ---- files that are made


@contextlib.contextmanager
def errors_of(name: object) -> Iterator[None]:
    """In this block something is written, which an error of the system does not name: so it gets this name."""
    try:
        yield
    except OSError as error:
        raise Stopped(4, f"{error.filename or name}: {error.strerror}") from error


def for_owner(path: str, flags: int) -> int:
    """Opens a new file that only its owner can read: what is made of a capture is as secret as the capture."""
    return os.open(path, flags, 0o600)


def never() -> bool:
    return False


def keep(made: pathlib.Path, path: pathlib.Path, may_replace: Callable[[], bool] = never) -> None:
    """Gives a file that is whole its name, for its owner only. There must be no other file of this name, but for one
    that it may replace."""
    made.chmod(0o600)
    try:
        os.link(made, path)
    except OSError as error:
        # A file system may have no links. Then a file of this name that somebody makes at this moment is replaced.
        if os.path.lexists(path) and not may_replace():
            raise Stopped(1, f"{path} exists already") from error
        made.replace(path)


@contextlib.contextmanager
def whole_file(path: pathlib.Path, may_replace: Callable[[], bool] = never) -> Iterator[pathlib.Path]:
    """The place where this block makes a file. It lies in a folder beside `path`, which the file is called only when it
    is whole: whatever ends the program, there is no part of a file of this name."""
    with errors_of(path), folder_in(os.path.dirname(os.path.abspath(path))) as room:
        yield room / "made"
        with sigterm_held():
            keep(room / "made", path, may_replace)
