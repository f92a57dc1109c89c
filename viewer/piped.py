"""What another process makes while this one goes on, through a pipe."""

import marshal
import os
import signal
import sqlite3
import sys
from typing import Callable, Iterator, NoReturn

# The last form of `marshal` that does not look for objects that are there twice: nearly all are small numbers.
WITHOUT_REFERENCES = 2

# Each list comes after its length. A length of 0 says that it was the last one.
LENGTH_BYTES = 8

Send = Callable[[list[tuple]], None]


def run(make: Callable[[Send], None], into: int) -> NoReturn:
    """Makes the lists, writes them into a pipe, and ends the process."""
    try:
        for which in (signal.SIGINT, signal.SIGTERM):
            signal.signal(which, signal.SIG_DFL)
        with open(into, "wb") as pipe:
            def send(made: list[tuple]) -> None:
                data = marshal.dumps(made, WITHOUT_REFERENCES)
                pipe.write(len(data).to_bytes(LENGTH_BYTES, "little") + data)
                pipe.flush()
            make(send)
            pipe.write(bytes(LENGTH_BYTES))
    except (sqlite3.Error, OSError):
        pass  # the other process says that something is missing
    except Exception:
        sys.excepthook(*sys.exc_info())
    finally:
        os._exit(0)


class Piped:
    """The lists that `make` sends in a process of its own, or in several, which end with the block. Lists of several
    processes come through one pipe, so they must be short: the system writes them whole."""

    def __init__(self, make: Callable[[Send], None], processes: int = 1):
        out, into = os.pipe()
        self.makers: list[int] = []
        for _ in range(processes):
            maker = os.fork()
            if maker == 0:
                os.close(out)
                run(make, into)
            self.makers.append(maker)
        os.close(into)
        self.pipe = open(out, "rb")

    def __enter__(self) -> Iterator[list[tuple]]:
        return self.received()

    def __exit__(self, *_: object) -> None:
        for maker in self.makers:
            os.kill(maker, signal.SIGKILL)
            os.waitpid(maker, 0)
        self.pipe.close()

    def received(self) -> Iterator[list[tuple]]:
        """The lists. If the last one does not come, another process met an error, or was killed."""
        at_work = len(self.makers)
        while at_work:
            head = self.pipe.read(LENGTH_BYTES)
            length = int.from_bytes(head, "little")
            data = self.pipe.read(length)
            if len(head) < LENGTH_BYTES or len(data) < length:
                raise sqlite3.OperationalError("its rows can't be read")
            if length:
                yield marshal.loads(data)
            else:
                at_work -= 1
