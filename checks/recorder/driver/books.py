"""The driver's books of a scenario, as it saved them. viewer/database/books.py reads them."""

import pathlib
import re
from collections import Counter
from typing import NamedTuple

from viewer.database.books import state, stats

LOG = re.compile(r"(\d+): (async|call |reply) from (-?\d+):(-?\d+) to (-?\d+):(-?\d+) context (\S+) node (-?\d+)"
                 r" handle (-?\d+) size (-?\d+):(-?\d+) ret (\d+)/(-?\d+)")


class Failed(NamedTuple):
    number: int
    kind: str
    process: int
    thread: int
    target: int
    error: int


def failed(text):
    return [Failed(int(m[1]), m[2].strip(), int(m[3]), int(m[4]), int(m[5]), int(m[12])) for m in LOG.finditer(text)]


NAMES = ("state", "stats", "stats.before", "failed_transaction_log", "failed_transaction_log.before", "moment")


def texts(folder):
    """The driver in Rust has no failed_transaction_log."""
    paths = {name: pathlib.Path(folder) / name for name in NAMES}
    return {name: path.read_text("utf-8") if path.exists() or "log" not in name else "" for name, path in paths.items()}


class Books:
    """The books of one scenario: their state at its end, and what they counted since its beginning."""

    def __init__(self, text):
        self.openings = state(text["state"])
        before, _ = stats(text["stats.before"])
        whole, each = stats(text["stats"])
        self.drivers = {opening.driver for opening in self.openings}
        self.codes = Counter({name: whole[name] - before[name] for name in whole if whole[name] != before[name]})
        for opening, counts in zip(self.openings, each, strict=True):
            if (opening.driver, opening.pid, opening.context) != counts[:3]:
                raise ValueError("stats and state list other processes")
            opening.codes = counts.codes
        old = {entry.number for entry in failed(text["failed_transaction_log.before"])}
        self.failed = [entry for entry in failed(text["failed_transaction_log"]) if entry.number not in old]
        self.has_log = len(self.failed) < 32
        moment, *mappings = text["moment"].splitlines()
        self.moment = int(moment)
        self.mapping = {}
        for line in mappings:
            pid, device, address = line.split()
            self.mapping.setdefault((device, int(pid)), int(address, 16))
