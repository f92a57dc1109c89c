"""Numbers for the data of transactions, by which it is known which calls are alike, and the exceptions of replies: the
database has no data. In a redacted capture the same data have the same bytes too, and each exception is there."""

import os
import sqlite3
from contextlib import ExitStack
# As hashlib has it, which loads OpenSSL too.
from _blake2 import blake2s

from viewer.exceptions import EXCEPTIONS
from viewer.zeros import ended

# Before the data of an attachment entry come so many bytes, and a file of a capture begins with so many (ENVELOPE.md).
ENTRY_HEADER, FILE_HEADER = 12, 16

# The bytes of an exception, and with the shortest message, which comes after it: a status is shorter.
EXCEPTION, LEAST = 4, 8

ALL = ("INSERT INTO data_hash SELECT place, hash_of(attachment, data_size) AS hash FROM raw_record WHERE kind IN"
       " (SELECT number FROM kind WHERE name IN ('BC_TRANSACTION', 'BC_TRANSACTION_SG')) AND attachment NOTNULL")
ALL_EXCEPTIONS = (
    "INSERT INTO exception WITH thrown AS MATERIALIZED (SELECT place, exception_of(attachment, data_size) AS number"
    " FROM raw_record WHERE kind = (SELECT number FROM kind WHERE name = 'BR_REPLY') AND attachment NOTNULL)"
    " SELECT place, number FROM thrown WHERE number NOTNULL")


class Data:
    """The data of the records of a capture in these files, whose places are those of the joined capture, without the
    zeros in which a file may end. The files are not mapped: what was looked at would stay in memory, with all that lies
    around it, and a file that is cut meanwhile would end this program."""

    def __init__(self, files: list[str]):
        self.stack = ExitStack()
        self.parts: list[tuple[int, int]] = []
        base = 0
        for name in files:
            file = self.stack.enter_context(open(name, "rb", buffering=0)).fileno()
            end = ended(name)
            size = end.length if end else os.fstat(file).st_size
            if size > FILE_HEADER:
                self.parts.append((base, file))
                base += size - FILE_HEADER

    def __enter__(self) -> "Data":
        return self

    def __exit__(self, *_: object) -> None:
        self.stack.close()

    def hash_of(self, attachment: int | None, size: int) -> int | None:
        """The number of so many bytes of data, whose entry begins there."""
        if attachment is None:
            return None
        held = self.bytes_of(attachment, size)
        return int.from_bytes(blake2s(held, digest_size=8).digest(), "little", signed=True)

    def exception_of(self, attachment: int | None, size: int) -> int | None:
        """The exception with which so many bytes of data begin, whose entry begins there; None without one."""
        if attachment is None or size < LEAST:
            return None
        number = int.from_bytes(self.bytes_of(attachment, EXCEPTION), "little", signed=True)
        return number if number in EXCEPTIONS else None

    def bytes_of(self, attachment: int, size: int) -> bytes:
        """So many bytes of an entry that begins there, after its header."""
        base, file = next(part for part in reversed(self.parts) if part[0] + FILE_HEADER <= attachment)
        begin = attachment - base + ENTRY_HEADER
        data = os.pread(file, size, begin)
        while len(data) < size and (more := os.pread(file, size - len(data), begin + len(data))):
            data += more  # the system reads at most 2 GiB at once
        return data


def take_all(database: sqlite3.Connection, files: list[str]) -> None:
    """Has a number for each transaction, and each exception."""
    with Data(files) as data:
        database.create_function("hash_of", 2, data.hash_of)
        database.create_function("exception_of", 2, data.exception_of)
        database.execute(ALL)
        database.execute(ALL_EXCEPTIONS)
