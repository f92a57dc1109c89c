"""Captures and side lists that end in zeros, as files may after a loss of power."""

import contextlib
import pathlib
import re

from checks.kit.checking import Fail, compare
from checks.kit.frames import frames_of
from checks.viewer.page.common import loaded, texts_of, texts_stored, view
from checks.viewer.page.sides import as_files

ZEROS = bytes(5000)
LINE = r"view: malformed \w+ at \d+(?: in part \d)?: {} (ends in|has only) [\w, ]*zero"


def groups(folder: pathlib.Path, room: pathlib.Path, *words: str) -> tuple[int, list[str], str]:
    """The status, the groups without the line of the fault, and standard error."""
    status, out, told = view(folder, room, *words, "--groups")
    return status, [line for line in out.splitlines() if not line.startswith("malformed\t")], told


def check_one(folder: pathlib.Path, room: pathlib.Path, fail: Fail) -> None:
    """Zeros behind the last whole frame are no fault of what comes before. A frame of which a block is zeros is left
    out, and so is one whose header is only begun."""
    capture, side = texts_stored("leaks")
    last, at = frames_of(capture)[-1], frames_of(capture)[40].place
    cuts = {"behind": (capture + ZEROS, capture), "in-a-frame": (capture[:-40] + ZEROS, capture[:last.place]),
            "in-a-header": (capture[:at + 12] + ZEROS, capture[:at]), "a-page": (capture[:4096] + ZEROS, None)}
    for name, (data, rest) in cuts.items():
        for suffix, content in (("cap", data), ("side", side.encode() + ZEROS)):
            (room / f"{name}.{suffix}").write_bytes(content)
        status, came, told = groups(folder, room, f"{name}.cap", "--side", f"{name}.side")
        came_so = status, bool(re.match(LINE.format(f"{name}.cap"), told)), "order" in told
        compare(f"zeros {name}: status and line", came_so, (2, True, False), fail)
        if rest is not None:
            (room / "rest.cap").write_bytes(rest)
            due = groups(folder, room, "rest.cap", "--side", f"{name}.side")[1]
            compare(f"zeros {name}: groups", came, due, fail)
    view(folder, room, "behind.cap", "--side", "behind.side", "-o", "behind.html")
    compare("zeros on the page", "behind.cap ends in 5,0" in texts_of(room / "behind.html"), True, fail)


def check_several(folder: pathlib.Path, room: pathlib.Path, fail: Fail) -> None:
    """Of several files one may end in zeros, or have nothing else, and the others are shown all the same."""
    capture, side = texts_stored("threads")
    place, sequence, *_ = frames_of(capture)[len(frames_of(capture)) // 2]
    files = capture[:place], capture[:16] + capture[place:]
    for ends in ((True, False), (False, True), (True, True)):
        for number, (data, list_, zeros) in enumerate(zip(files, as_files(side, sequence), ends), 1):
            (room / f"part-{number}.cap").write_bytes(data + ZEROS * zeros)
            (room / f"part-{number}.side").write_bytes(list_.encode() + ZEROS * zeros)
        status, _, told = view(folder, room, "part-1.cap", "part-2.cap", "-o", "parts.html")
        shown = re.search(r"(\d+) frames, ", texts_of(room / "parts.html"))
        compare(f"zeros at the ends of files {ends}", (status, told.count("zero bytes"), "order" in told, shown and
                int(shown[1])), (2, sum(ends), False, len(frames_of(capture))), fail)
    for number in 1, 2:
        (room / f"part-{number}.cap").write_bytes(files[number - 1])
        (room / f"part-{number}.side").write_text(as_files(side, sequence)[number - 1], "utf-8")
    for suffix in "cap", "side":
        (room / f"part-2.{suffix}").write_bytes(ZEROS)
    status, came, told = groups(folder, room, "part-1.cap", "part-2.cap")
    due = groups(folder, room, "part-1.cap")[1]
    compare("a file of zeros", (status, came, "has only zeros" in told), (2, due, True), fail)


def check_data(folder: pathlib.Path, room: pathlib.Path, fail: Fail) -> None:
    """The data of a file that comes after one that ends in zeros are found where they are."""
    capture, _ = texts_stored("hello-answers")
    place = frames_of(capture)[len(frames_of(capture)) // 2].place
    hashes = []
    for zeros in (ZEROS, b""):
        files = [room / "data-1.cap", room / "data-2.cap"]
        for file, data in zip(files, (capture[:place], capture[:16] + capture[place:])):
            file.write_bytes(data + zeros)
        with contextlib.closing(loaded(folder, room / f"data-{len(zeros)}.db", files, None)) as database:
            hashes.append(database.execute("SELECT * FROM data_hash ORDER BY place").fetchall())
    compare("data of files that end in zeros", *hashes, fail)


def check_power(folder: pathlib.Path, room: pathlib.Path, fail: Fail) -> None:
    check_one(folder, room, fail)
    check_several(folder, room, fail)
    check_data(folder, room, fail)
