"""Captures whose pages are large: of 20,000 findings, and of 2,000 processes. Each is always the same."""

import pathlib
import random
from collections import Counter

from checks.kit.captures import (BC_ENTER_LOOPER, BC_FREE_BUFFER, BC_REPLY, BC_TRANSACTION, BR_REPLY, BR_TRANSACTION,
                                 BR_TRANSACTION_COMPLETE, HEADER_2, entry, frame, places_of, record, transaction, u64)
from checks.kit.tokens import marked

DONE = record(BR_TRANSACTION_COMPLETE)
SERVER, STEP, BEGIN = 100, 50_000, 1_000_000_000


class Crowd:
    """A server with one thread, and clients that call it. Each frame comes 50 µs after the one before."""

    def __init__(self) -> None:
        self.frames, self.lines, self.now, self.buffers = [HEADER_2], [], BEGIN, Counter[int]()
        self.lines.append(f"{BEGIN} begin realtime=1795867397000000000 boottime={BEGIN}"
                          " kernel=6.1 machine=aarch64 payloads=whole drivers=10:1:C\n")
        self.lines.append(f"{BEGIN} device 0 major=10 minor=1 name=binder\n")
        self.process(SERVER, "system_server")
        self.add(SERVER, 1, [record(BC_ENTER_LOOPER)])

    def add(self, process: int, direction: int, records: list[bytes], *attached: tuple[int, bytes]) -> None:
        self.now += STEP
        number = len(self.frames)
        entries = [entry(places_of(records)[at], body, b"") for at, body in attached]
        self.frames.append(frame(direction, number, process, process, records, entries))
        self.lines.append(f"{self.now} frame {number}\n")

    def process(self, number: int, name: str) -> None:
        self.lines.append(f"{self.now} process 0 {number} pid={number} start=1 opening={number} met=from-start"
                          f" name={name[-15:]}\n")
        self.lines.append(f"{self.now} command 0 {number} after={len(self.frames) - 1} uid={10000 + number}"
                          f" name={name}\n")
        self.lines.append(f"{self.now} thread 0 {number} {number} pid={number} tid={number} start=1"
                          f" name={name[-15:]}\n")

    def address(self, process: int) -> int:
        self.buffers[process] += 1
        return 0x7000_0000 + 0x1000 * self.buffers[process]

    def call(self, client: int, code: int, interface: str, is_freed: bool = True) -> None:
        """A call, of which the server frees the buffer, or not."""
        body, here = marked(interface) + bytes(16), self.address(SERVER)
        sizes = len(body), 0
        self.add(client, 1, [transaction(BC_TRANSACTION, 0, code, 0x10, 0, sizes)], (0, body))
        self.add(SERVER, 2, [transaction(BR_TRANSACTION, 0x7000, code, 0x10, client, sizes, here)], (0, body))
        freed = [record(BC_FREE_BUFFER, u64(here))] if is_freed else []
        self.add(SERVER, 1, [*freed, transaction(BC_REPLY, 0, 0, 0, 0, (4, 0))], (len(freed), bytes(4)))
        there = self.address(client)
        self.add(client, 2, [DONE, transaction(BR_REPLY, 0, 0, 0, 0, (4, 0), there)], (1, bytes(4)))
        self.add(client, 1, [record(BC_FREE_BUFFER, u64(there))])

    def write(self, room: pathlib.Path, name: str) -> tuple[str, str, str]:
        """Writes capture and side list. Returns the words for them."""
        count = len(self.frames) - 1
        self.lines.append(f"{self.now + 10 * STEP} end recording after={count} frames={count} lost=0\n")
        (room / f"{name}.cap").write_bytes(b"".join(self.frames))
        (room / f"{name}.side").write_text("binder side list 2\n" + "".join(self.lines), "utf-8")
        return f"{name}.cap", "--side", f"{name}.side"


def of_findings(codes: int = 1000, each: int = 20) -> Crowd:
    """So many buffers of each code are never freed."""
    crowd, order = Crowd(), [code for code in range(1, codes + 1) for _ in range(each)]
    random.Random(5).shuffle(order)
    for number in range(40):
        crowd.process(1000 + number, f"com.example.client{number % 7}.part{number}")
    for at, code in enumerate(order):
        crowd.call(1000 + at % 40, code, f"com.example.feature{code % 50}.IService{code % 50}", False)
    return crowd


def of_processes(count: int = 2000) -> Crowd:
    crowd = Crowd()
    for number in range(1000, 1000 + count):
        crowd.process(number, f"com.example.app{number:04}.{'abcdefgh'[number % 8]}")
        for code in (1, 2, 3):
            crowd.call(number, code, "android.app.IActivityManager", number % 10 > 0 or code != 2)
    return crowd
