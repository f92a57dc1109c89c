"""Recordings of a blind test set: as folders, which `checks/run driver -- --blind` leaves, and as archives, which git
keeps in samples/blind."""

import hashlib
import io
import lzma
import pathlib
import re
import struct
import tarfile
from typing import Container, Iterator, NamedTuple

from checks.kit.frames import entries_of, frames_of
from checks.kit.programs import ROOT
from checks.kit.side_lists import packed, unpacked

STORED = ROOT / "samples/blind"
SUFFIX = ".tar.xz"

# Of the folder of a session what `./view` reads: the captures, the side list, the driver's books.
READ = ("capture-*.cap", "capture.side", "capture.*.*")

# What stays of a payload in an archive: the first bytes; of so many the words of text and small numbers, which are the
# names of interfaces and services; and so many from where an object begins.
BEGIN, HEAD, OBJECT = 16, 256, 40
TEXT = bytes([0, *range(32, 127)])
# The bytes before the data of an attachment.
ENTRY = 12


class Recording(NamedTuple):
    """The sessions of a set as they were recorded on a kernel: where the set has its expected.txt, the kernel's series,
    and the folder with a folder for each session."""
    home: pathlib.Path
    series: str
    folder: pathlib.Path

    @property
    def name(self) -> str:
        return f"{self.home.name}/{self.series}"

    @property
    def kernel(self) -> str:
        return (self.folder / "kernel").read_text("utf-8").strip()

    @property
    def sessions(self) -> list[pathlib.Path]:
        return sorted(path for path in self.folder.iterdir() if path.is_dir())


# ---- redacted


def kept_spans(data: bytes, offsets: bytes) -> Iterator[tuple[int, int]]:
    yield 0, BEGIN
    for at in range(BEGIN, min(HEAD, len(data)), 4):
        word = data[at:at + 4]
        if word[2:] == b"\0\0" or not word.translate(None, TEXT):
            yield at, at + 4
    for at, in struct.iter_unpack("<Q", offsets):
        yield at, at + OBJECT


def redacted_payload(data: bytes, offsets: bytes) -> bytes:
    """A payload of which all that is not kept is its hash, four bytes again and again. So payloads that are alike stay
    alike, and take hardly any room."""
    digest = hashlib.blake2s(data, digest_size=4).digest()
    made = bytearray((digest * (len(data) // len(digest) + 1))[:len(data)])
    for begin, end in kept_spans(data, offsets):
        made[begin:end] = data[begin:end]
    return bytes(made)


def redacted(capture: bytes) -> bytes:
    """A capture with redacted payloads."""
    made = bytearray(capture)
    for frame in frames_of(capture):
        at = frame.end - len(frame.attached)
        for _, data, offsets in entries_of(frame.attached):
            at += ENTRY
            made[at:at + len(data)] = redacted_payload(data, offsets)
            at += len(data) + len(offsets)
    return bytes(made)


def shorter_side(side: bytes) -> bytes:
    """A side list of whole microseconds, with many frames in a line: times are most of what an archive takes."""
    whole = re.sub(rb"^(\d+)\d{3} ", rb"\g<1>000 ", side, flags=re.M)
    return packed(unpacked(whole.decode(errors="surrogateescape"))).encode(errors="surrogateescape")


def content_of(path: pathlib.Path) -> bytes:
    """What an archive has of a file."""
    data = path.read_bytes()
    return redacted(data) if path.suffix == ".cap" else shorter_side(data) if path.name == "capture.side" else data


# ---- archives


def read_files(recording: Recording, left_out: Container[str]) -> Iterator[pathlib.Path]:
    yield recording.folder / "kernel"
    for session in (path for path in recording.sessions if path.name not in left_out):
        for pattern in READ:
            yield from sorted(session.glob(pattern))


def pack(recording: Recording, archive: pathlib.Path, left_out: Container[str] = ()) -> None:
    """Makes an archive of a recording without some sessions: first all captures, then all side lists. The same files
    make the same archive."""
    with tarfile.open(archive, "w:xz", preset=9 | lzma.PRESET_EXTREME, format=tarfile.USTAR_FORMAT) as archived:
        for path in sorted(read_files(recording, left_out), key=lambda path: (path.suffix, path)):
            content, member = content_of(path), tarfile.TarInfo(str(path.relative_to(recording.folder)))
            member.size = len(content)
            archived.addfile(member, io.BytesIO(content))


def unpack(archive: pathlib.Path, room: pathlib.Path, cases: list[str] | None) -> Recording:
    """The recording of an archive of a set, in a new folder of the room, with the sessions that are cases, or all."""
    recording = Recording(archive.parent, archive.name.removesuffix(SUFFIX), room)
    recording = recording._replace(folder=room / recording.name)
    recording.folder.mkdir(parents=True)
    with tarfile.open(archive) as archived:
        archived.extractall(recording.folder, [
            member for member in archived
            if cases is None or member.name == "kernel"
            or f"{recording.name}/{member.name.partition('/')[0]}" in cases])
    return recording


def stored_archives() -> list[pathlib.Path]:
    return sorted(STORED.glob(f"*/*{SUFFIX}"), key=lambda path: (path.name, path.parent.name))
