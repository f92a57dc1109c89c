"""What the guests of the checks are made of is kept under ~/.cache/binder-audit: packages, kernels and builds, each in
a folder that is named by a sum of what it was made from. What was changed since in such a folder is not taken."""

import contextlib
import fcntl
import hashlib
import os
import pathlib
import shutil
import subprocess
import sys
import tempfile
import time
from typing import Callable, Iterable, Iterator, NoReturn

CACHE = pathlib.Path(os.environ.get("XDG_CACHE_HOME") or pathlib.Path.home() / ".cache") / "binder-audit"
SUMS = "checksums"


def stop(what: str) -> NoReturn:
    sys.exit(f"checks/{os.environ.get('CHECK', 'guest')}: {what}")


def needs(packages: dict[str, str]) -> None:
    """Stops where a command is missing; each is named with the package that has it."""
    for command, package in packages.items():
        if shutil.which(command) is None:
            stop(f"{command} is missing: apt-get install {package}")


def say(what: str) -> None:
    """A line is one write: guests may run side by side."""
    print(f"{what}\n", end="", flush=True)


def run(*words: object, log: pathlib.Path | None = None, **options: object) -> str:
    """What a command writes. If it fails, what it said is in the log, or is told."""
    ended = subprocess.run(list(map(str, words)), stdin=subprocess.DEVNULL, stdout=subprocess.PIPE,
                           stderr=subprocess.STDOUT if log else None, encoding="utf-8", errors="replace",
                           **options)  # type: ignore[call-overload]
    if log:
        with log.open("a", encoding="utf-8") as to:
            to.write(f"$ {' '.join(map(str, words))}\n{ended.stdout}")
    if ended.returncode:
        raise subprocess.CalledProcessError(ended.returncode, str(words[0]), ended.stdout)
    return ended.stdout


def sum_of(parts: Iterable[str | bytes | pathlib.Path]) -> str:
    """A sum of texts and of the bytes of files."""
    digest = hashlib.sha256()
    for part in parts:
        data = part.read_bytes() if isinstance(part, pathlib.Path) else part.encode() if isinstance(part, str) else part
        digest.update(hashlib.sha256(data).digest())
    return digest.hexdigest()[:16]


def sums_of(folder: pathlib.Path) -> str:
    """A line for each file, as sha256sum has it."""
    return "".join(f"{hashlib.sha256(path.read_bytes()).hexdigest()}  {path.relative_to(folder)}\n"
                   for path in sorted(folder.rglob("*")) if path.is_file() and not path.is_symlink()
                   and path != folder / SUMS)


@contextlib.contextmanager
def alone(name: str) -> Iterator[None]:
    """Waits until no other process works at what is called so."""
    CACHE.mkdir(parents=True, exist_ok=True)
    with (CACHE / f".{name}.lock").open("w", encoding="utf-8") as lock:
        fcntl.flock(lock, fcntl.LOCK_EX)
        yield


def kept(what: str, made_of: Iterable[str | bytes | pathlib.Path], make: Callable[[pathlib.Path], None],
         told: str = "") -> pathlib.Path:
    """The folder of what is called so and made of these parts. If it is not there, or not as it was made, `make` fills
    it."""
    folder = CACHE / f"{what}-{sum_of(made_of)}"
    with alone(folder.name):
        if not folder.exists() or (folder / SUMS).read_text("utf-8") != sums_of(folder):
            make_anew(folder, what, make, told)
    return folder


def make_anew(folder: pathlib.Path, what: str, make: Callable[[pathlib.Path], None], told: str) -> None:
    began = time.monotonic()
    with tempfile.TemporaryDirectory(dir=CACHE, prefix=f".{what}-") as room:
        made = pathlib.Path(room) / "made"
        made.mkdir()
        make(made)
        (made / SUMS).write_text(sums_of(made), "utf-8")
        shutil.rmtree(folder, ignore_errors=True)
        made.rename(folder)
    say(f"{told or f'make {what}'}: {time.monotonic() - began:.0f} s")
