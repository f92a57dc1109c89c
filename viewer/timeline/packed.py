"""The file of a timeline."""

import zlib
from concurrent.futures import Future, ThreadPoolExecutor
from typing import IO, Callable, Protocol

# What a file of gzip begins with: how it is packed, no name and no time, made on Unix.
GZIP_BEGIN = b"\x1f\x8b\x08\0\0\0\0\0\0\x03"

# How hard gzip packs.
LEVEL = 2


class Packing(Protocol):
    """How the bytes of a file are packed."""

    # What the file begins with.
    begin: bytes

    def pack(self, data: bytes) -> bytes: ...

    def end(self) -> bytes: ...


class Gzip:
    """As gzip does, as a whole."""
    begin = GZIP_BEGIN

    def __init__(self) -> None:
        self.packer = zlib.compressobj(LEVEL, zlib.DEFLATED, -zlib.MAX_WBITS)
        self.crc = self.length = 0

    def pack(self, data: bytes) -> bytes:
        self.crc, self.length = zlib.crc32(data, self.crc), self.length + len(data)
        return self.packer.compress(data)

    def end(self) -> bytes:
        return self.packer.flush() + self.crc.to_bytes(4, "little") + (self.length % 2**32).to_bytes(4, "little")


class Pieces:
    """Piece by piece, each by itself."""
    begin = b""

    def __init__(self, pack: Callable[[bytes], bytes]):
        self.pack = pack

    def end(self) -> bytes:
        return b""


class File:
    """A file. It is written in a thread of its own: while some events are packed, the next ones are made."""

    def __init__(self, file: IO[bytes], packing: Packing):
        self.file, self.packing = file, packing
        self.thread = ThreadPoolExecutor(1)
        self.writing: Future[None] | None = None

    def begin(self) -> None:
        self.file.write(self.packing.begin)

    def write(self, data: bytes) -> None:
        self.file.write(self.packing.pack(data))

    def wait(self) -> None:
        """Waits until what was handed over is written."""
        if self.writing is not None:
            self.writing.result()

    def add(self, data: bytes) -> None:
        self.wait()
        self.writing = self.thread.submit(self.write, data)

    def end(self) -> None:
        self.wait()
        self.file.write(self.packing.end())

    def close(self) -> None:
        with self.file, self.thread:
            self.wait()
