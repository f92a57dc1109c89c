"""So many results made at once: each place has a worker, which makes one after another. What this leaves, or what ends
it, is made there by a process for this session alone."""

import contextlib
import math
import multiprocessing
import os
import signal
import time
from multiprocessing.connection import Connection, wait
from multiprocessing.process import BaseProcess
from typing import Any, Callable, Generator, Iterable, NamedTuple

# Processes begin as forks of this one, which has read what they need.
FORKS = multiprocessing.get_context("fork")

# After so many seconds a session is made alone: for a small capture this is long.
SOON = 60

# How long a process may take to remove what it has made when it is to end, in seconds.
ENDING = 10


class Said(NamedTuple):
    """What a worker says of a session: the status, None if it leaves it; and whether it can make another one."""
    status: int | None
    goes_on: bool


Take = Callable[[str], Said]


class Work(NamedTuple):
    """What is done: `worker` begins to be a worker and returns what takes a session, in a block, and `alone` makes the
    result of one. Its status."""
    worker: Callable[[], contextlib.AbstractContextManager[Take]]
    alone: Callable[[str], int]


# The pipes to all workers.
PIPES: set[Connection] = set()


def begun(does: Callable[..., object], *given: object) -> BaseProcess:
    """A process that does this. It does not keep the pipes of workers open, which end when they do."""
    def begin() -> None:
        for pipe in PIPES:
            pipe.close()
        does(*given)
    process = FORKS.Process(target=begin)
    process.start()
    return process


def be_worker(work: Work, pipe: Connection) -> None:
    """Takes sessions from a pipe until that ends. What it starts is in its own group, and ends with it."""
    os.setpgrp()
    with work.worker() as take:
        with contextlib.suppress(EOFError, BrokenPipeError):
            goes_on = True
            while goes_on:
                said = take(pipe.recv())
                pipe.send(said)
                goes_on = said.goes_on


def be_alone(work: Work, session: str) -> None:
    raise SystemExit(work.alone(session))


class Worker:
    """A worker, and the pipe to it."""

    def __init__(self, work: Work) -> None:
        self.pipe, other = FORKS.Pipe()
        PIPES.add(self.pipe)
        self.process = begun(be_worker, work, other)
        other.close()

    def said(self) -> Said:
        """What it says now; if it ended without a word, it leaves the session."""
        try:
            return self.pipe.recv()
        except (EOFError, OSError):
            return Said(None, False)

    def end(self) -> None:
        """Lets it end, which it does soon if it is not at work."""
        PIPES.discard(self.pipe)
        self.pipe.close()
        self.process.join(ENDING)
        self.kill()

    def kill(self) -> None:
        """If it is at work, nothing of its group is left then. If not, its number may be that of another group."""
        PIPES.discard(self.pipe)
        self.pipe.close()
        if self.process.is_alive() and self.process.pid:
            with contextlib.suppress(ProcessLookupError):  # it has no group yet
                os.killpg(self.process.pid, signal.SIGKILL)
            self.process.kill()
        self.process.join()


class Place:
    """A place at which one session is made at a time."""

    def __init__(self, work: Work) -> None:
        self.work = work
        self.worker: Worker | None = None
        self.alone: BaseProcess | None = None
        self.session, self.until = "", math.inf

    def begin(self, session: str) -> None:
        self.worker = self.worker or Worker(self.work)
        self.session, self.until = session, time.monotonic() + SOON
        with contextlib.suppress(OSError):  # it has ended, and says nothing
            self.worker.pipe.send(session)

    def awaited(self) -> Any:
        """What is ready when there is something to see."""
        if self.alone:
            return self.alone.sentinel
        assert self.worker
        return self.worker.pipe

    def look(self) -> int | None:
        """The status of the session; None if it is not made."""
        if self.alone:
            status = self.alone.exitcode
            self.alone = self.alone if status is None else None
            return status
        assert self.worker
        if not self.worker.pipe.poll():
            if time.monotonic() > self.until:
                self.worker.kill()
                self.leave(Said(None, False))
            return None
        return self.leave(self.worker.said())

    def leave(self, said: Said) -> int | None:
        """Goes on after what a worker said."""
        if not said.goes_on and self.worker:
            self.worker.end()
            self.worker = None
        if said.status is None:
            self.alone, self.until = begun(be_alone, self.work, self.session), math.inf
        return said.status

    def end(self) -> None:
        if self.worker:
            self.worker.end()

    def stop(self) -> None:
        """Ends what is at work there."""
        for process in (self.alone, self.worker.process if self.worker else None):
            if process:
                process.terminate()
                process.join(ENDING)
        if self.worker:
            self.worker.kill()


def statuses(work: Work, sessions: Iterable[str], at_once: int) -> Generator[int, None, None]:
    """Makes all sessions, so many at once. The status of each, when it is made."""
    places: list[Place] = []
    at_work: set[Place] = set()
    left = iter(sessions)

    def begin_at(place: Place) -> bool:
        """Begins the next session there, if one is left."""
        for session in left:
            place.begin(session)
            return True
        return False

    try:
        while len(places) < at_once and begin_at(place := Place(work)):
            places.append(place)
        at_work.update(places)
        while at_work:
            until = min(place.until for place in at_work)
            wait([place.awaited() for place in at_work], None if until == math.inf else until - time.monotonic())
            for place in [*at_work]:
                if (status := place.look()) is not None:
                    yield status
                    if not begin_at(place):
                        at_work.remove(place)
        for place in places:
            place.end()
    except BaseException:
        for place in places:
            place.stop()
        raise
