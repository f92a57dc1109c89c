"""The disk of scratch, or of results, that is full at some moment: from one of all the writes on, each fails. Then a
capture has its whole result, or none and a line that says why; and the next run makes the result."""

import os
import pathlib

from checks.kit.checking import Fail, compare
from checks.kit.programs import DRIVER, preloadable
from checks.kit.runs import answer

# At how many of the writes a disk becomes full, without `--full`.
MOMENTS = 3

# What a line says of a disk without room.
CAUSES = "No space left on device", "; the disk of "


class Disk:
    """A folder whose disk becomes full."""

    def __init__(self, room: pathlib.Path, name: str, library: pathlib.Path):
        self.folder, self.counter, self.library = room / name, room / f"{name}.count", library
        self.folder.mkdir()

    def environment(self, number: int) -> dict[str, str]:
        """That of programs for which there is no space left from this write on."""
        self.counter.write_bytes(bytes(8))
        return {**os.environ, "LD_PRELOAD": str(self.library), "FULL_FOLDER": f"{self.folder}/",
                "FULL_COUNT": str(self.counter), "FULL_FROM": str(number)}

    def writes(self) -> int:
        return int.from_bytes(self.counter.read_bytes(), "little")


def one(folder: pathlib.Path, result: pathlib.Path, environment: dict[str, str]) -> tuple[int, str]:
    """The status of `fleet one`, and what it says."""
    stored = DRIVER / "quarter/capture-1.cap", "--side", DRIVER / "quarter/capture.side"
    status, _, told = answer([folder / "fleet", "one", *stored, "--build", "b", "--device", "d", "-o", result],
                             env=environment, encoding="utf-8", timeout=600)
    return status, told


def found_in(result: pathlib.Path) -> str | None:
    """What a result has from its capture, if it is there: not when and by what it was made."""
    return result.read_text("utf-8").partition('"names":')[2] if result.exists() else None


def check_moments(what: str, folder: pathlib.Path, disk: Disk, scratch: pathlib.Path, result: pathlib.Path, every: bool,
                  fail: Fail) -> int:
    """Returns how many writes there are."""
    def played(number: int) -> tuple[int, str]:
        result.unlink(missing_ok=True)
        return one(folder, result, {**disk.environment(number), "TMPDIR": str(scratch)})

    whole = played(10**9), found_in(result)
    writes = disk.writes()
    compare(f"{what}: with room", (whole[0], bool(whole[1]), writes > 0), ((0, ""), True, True), fail)
    some = {1, writes // 10, writes, *range(1, writes, writes // MOMENTS + 1)} - {0}
    moments = range(1, writes + 1) if every else some
    for number in sorted(moments):
        status, told = played(number)
        left = sorted(path.name for path in (*result.parent.glob(".*"), *scratch.iterdir()))
        at = f"{what}, full at write {number} of {writes}: {told.strip()!r}"
        if status == 0:  # what only tidies up may fail
            compare(f"{at}: the result", found_in(result), whole[1], fail)
        else:
            compare(f"{at}: result, lines, cause, files", (
                found_in(result), told.count("\n"), any(cause in told for cause in CAUSES), left), (None, 1, True, []),
                fail)
    compare(f"{what}: with room again", (played(10**9), found_in(result)), whole, fail)
    return writes


def check_full_disk(folder: pathlib.Path, room: pathlib.Path, every: bool, fail: Fail) -> str:
    """Returns how many writes there are on both disks."""
    room.mkdir()
    library = preloadable(room, "lab/full_disk.c")
    scratch, results = (Disk(room, name, library) for name in ("scratch", "results"))
    counts = [check_moments(what, folder, disk, scratch.folder, results.folder / "made.json", every, fail)
              for what, disk in (("a disk of scratch", scratch), ("a disk of results", results))]
    return f"{counts[0]} writes of scratch, {counts[1]} of results"
