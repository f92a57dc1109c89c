"""Runs of the built program, under limits and several at once: what they answer, what they take, and what is due."""

import os
import pathlib
import subprocess
import sys
import threading
import time
from concurrent.futures import ThreadPoolExecutor
from typing import Any, Callable, Iterable, NamedTuple, Sequence, TypeVar

from checks.kit.second_reading import reading

# The words of a command, and what it answers: its status, standard output and standard error.
Words = Sequence[str | pathlib.Path]
Answer = tuple[int, bytes, bytes]
Thing = TypeVar("Thing")
Result = TypeVar("Result")

# The program's answer Memory: its status, standard output and standard error.
MEMORY = 3, b"", b"fault Memory\n"

# The longest that a run may take.
SECONDS = 600


# ---- runs


def report_by(workers: int, piece: int | None = None) -> list[str]:
    """The words for a report with this many workers, and pieces of this many frames."""
    return ["report", "--workers", str(workers), *(["--piece", str(piece)] if piece else [])]


def with_library(library: pathlib.Path, **names: object) -> dict[str, str]:
    """The environment, with a library that is preloaded, and these names, which it reads."""
    return os.environ | {"LD_PRELOAD": str(library)} | {name: str(value) for name, value in names.items()}


def under(words: Words, stack: int | None = None, address: int | None = None, processor: int | None = None) -> Words:
    """The command under limits: KiB of stack, bytes of address space, seconds of processor time."""
    limits = {"-s": stack, "-v": address and address // 1024, "-S -t": processor}
    setting = "".join(f"ulimit {letters} {limit} && " for letters, limit in limits.items() if limit)
    return ["sh", "-c", setting + 'exec "$@"', "sh", *words]


def answer(words: Words, timeout: float = SECONDS, **options: Any) -> tuple[int, Any, Any]:
    """The status of a command, its standard output and its standard error; None for a stream that the options
    redirect."""
    streams: dict[str, Any] = {"stdout": subprocess.PIPE, "stderr": subprocess.PIPE, **options}
    ended = subprocess.run(words, timeout=timeout, **streams)
    return ended.returncode, ended.stdout, ended.stderr


def output_of(words: Sequence[object], **options: Any) -> str:
    """What a command writes, to both streams; the check ends with what it says if it fails."""
    ended = subprocess.run(list(map(str, words)), stdin=subprocess.DEVNULL, stdout=subprocess.PIPE,
                           stderr=subprocess.STDOUT, encoding="utf-8", **options)
    if ended.returncode:
        sys.exit(f"{words[0]} ended with status {ended.returncode}: {ended.stdout[-2000:]}")
    return ended.stdout


class Used(NamedTuple):
    """What a run took: processor seconds, seconds by the clock, KiB of memory at its peak."""
    processor: float
    clock: float
    peak: int


def measured_run(words: Words, **streams: Any) -> tuple[int, Used]:
    """The status of a command, and what it took, as the system says."""
    begun = time.monotonic()
    child = subprocess.Popen(words, **streams)
    limit = threading.Timer(SECONDS, child.kill)
    limit.start()
    _, status, used = os.wait4(child.pid, 0)
    limit.cancel()
    child.returncode = os.waitstatus_to_exitcode(status)
    return child.returncode, Used(used.ru_utime + used.ru_stime, time.monotonic() - begun, used.ru_maxrss)


def at_once(count: int, work: Callable[[Thing], Result], things: Iterable[Thing]) -> list[Result]:
    """The results of the work for each thing, with this many under way at once."""
    with ThreadPoolExecutor(count) as pool:
        return list(pool.map(work, things))


# ---- answers


def as_answer(status: int, lines: Iterable[str]) -> Answer:
    """An answer of the second reading, in the form of `answer`."""
    return status, "".join(f"{line}\n" for line in lines).encode(), b""


def due(capture: bytes, first_fault: bool = False) -> Answer:
    """The answer that is due to a capture, by the second reading."""
    return as_answer(*reading(capture, first_fault))


def shown(answered: Answer) -> str:
    """A wrong answer, in short."""
    status, out, err = answered
    return f"status {status}, {len(out)} bytes on standard output, {err[:80]!r} on standard error"
