"""Packs the small redacted recordings of a guest, with their books.

One that came to no end, or is larger packed than LARGEST, is left out."""

import io
import pathlib
import tarfile
from typing import Sequence

from checks.recorder.aosp.judge import status_due

# In bytes.
LARGEST = 100_000

# The files of a recording that are stored; of the output only what the recorder says.
PARTS = ("capture-*.cap", "capture.side", "capture.*.*", "output", "status")


def packed(folder: pathlib.Path, name: str) -> bytes:
    """The recording as a tar file that is the same each time."""
    made = io.BytesIO()
    with tarfile.open(fileobj=made, mode="w:xz", preset=9, encoding="utf-8") as tar:
        for path in sorted({path for part in PARTS for path in folder.glob(part)}):
            data = path.read_bytes()
            if path.name == "output":
                data = b"".join(line for line in data.splitlines(True) if line.startswith(b"record: "))
            entry = tarfile.TarInfo(f"{name}/{path.name}")
            entry.size = len(data)
            tar.addfile(entry, io.BytesIO(data))
    return made.getvalue()


def store(source: pathlib.Path, to: pathlib.Path, ending: str = "", names: Sequence[str] = ()) -> None:
    """Stores recordings by the names of their lines, followed by an ending, which judge.py knows; with names only
    these."""
    to.mkdir(parents=True, exist_ok=True)
    for folder in sorted(path for path in source.iterdir() if (path / "capture.side").exists()):
        status, _, how, *_ = (folder / "status").read_text("utf-8").split()
        name = folder.name.removesuffix("-redacted")
        if how != "--redact" or status != status_due(name) or names and name not in names:
            continue
        data = packed(folder, name + ending)
        if len(data) <= LARGEST:
            (to / f"{name}{ending}.tar.xz").write_bytes(data)
