"""How far something is: a bar in a line of a terminal, which stays in place. Elsewhere nothing is written."""

import time
from types import TracebackType

from told import progress, write

WIDTH = 30
EVERY = 0.1  # seconds


class Bar:
    def __init__(self, whole: int):
        self.whole, self.done = whole, 0
        self.begun = self.shown = time.monotonic()

    def __enter__(self) -> "Bar":
        self.show()
        return self

    def __exit__(self, kind: type[BaseException] | None, error: BaseException | None, _: TracebackType | None) -> None:
        write(progress(""))

    def add(self, count: int) -> None:
        self.done += count
        if time.monotonic() - self.shown >= EVERY:
            self.show()

    def show(self) -> None:
        self.shown = time.monotonic()
        part = min(self.done / self.whole, 1) if self.whole else 1
        full = int(part * WIDTH)
        rate = self.done / 1e6 / max(self.shown - self.begun, EVERY)
        write(progress(f"record: [{'#' * full}{'.' * (WIDTH - full)}] {part:4.0%}, {self.done / 1e6:.1f} of"
                       f" {self.whole / 1e6:.1f} MB, {rate:.1f} MB/s"))
