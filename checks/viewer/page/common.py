"""What the checks of `view` share: how it is called, and what a capture and a page have."""

import gzip
import json
import pathlib
import re
import sqlite3

from checks.kit.programs import CHECKS, DRIVER
from checks.kit.runs import answer
from checks.kit.side_lists import unpacked
from checks.kit.stored import renew
from checks.viewer.sessions.session import Session
from viewer.database import loading
from viewer.page.group_lines import group_lines


# The line on standard error by which a page or a timeline ends.
AT_END = re.compile(r"^view: .*: [0-9,]+ real, [0-9,]+ maybe, [0-9,]+ others; .* missing\n\Z", re.MULTILINE)


def without_end(came: tuple[int, str, str]) -> tuple[int, str, str]:
    """What was answered, without that line."""
    return came[0], came[1], AT_END.sub("", came[2])


def view(folder: pathlib.Path, room: pathlib.Path, *words: object) -> tuple[int, str, str]:
    """What `view` answers, without its line at the end."""
    return without_end(answer([folder / "view", *map(str, words)], timeout=120, cwd=room, encoding="utf-8"))


def stored(scenario: str) -> tuple[pathlib.Path, str, pathlib.Path]:
    """The words for the stored capture of a scenario, with its side list."""
    return DRIVER / scenario / "capture-1.cap", "--side", DRIVER / scenario / "capture.side"


def texts_stored(scenario: str) -> tuple[bytes, str]:
    """The capture and the side list themselves, with a line for each frame. The list does not name the copies of the
    driver's books, which are not beside what a check makes of it. Names may have any bytes."""
    capture, _, side = stored(scenario)
    text = side.read_text("utf-8", errors="surrogateescape")
    return capture.read_bytes(), re.sub(r"^\d+ books .*\n", "", unpacked(text), flags=re.MULTILINE)


def on_one_clock(side: str) -> str:
    """The side list of an earlier recorder, which says of no clock but CLOCK_MONOTONIC."""
    side = re.sub(r"^\d+ clocks .*\n", "", side, flags=re.MULTILINE)
    return re.sub(r" boottime=\d+", "", side.replace("binder side list 2\n", "binder side list 1\n", 1))


def written(session: Session, room: pathlib.Path, name: str) -> tuple[str, str, str]:
    """Writes the capture, the side list and the books of a session; returns the words for it."""
    (room / f"{name}.cap").write_bytes(session.capture())
    (room / f"{name}.side").write_text(session.side(), "utf-8")
    for moment, text in session.copies.items():
        (room / f"{name}.{moment}").write_text(text, "utf-8")
    return f"{name}.cap", "--side", f"{name}.side"


def loaded(folder: pathlib.Path, made: pathlib.Path, files: list[pathlib.Path], side: pathlib.Path | None
           ) -> sqlite3.Connection:
    """The database of a capture, made without a page."""
    return loading.database_of(folder, list(map(str, files)), None if side is None else str(side), made,
                               lambda _: None)[0]


def timeline_of(path: pathlib.Path) -> dict:
    """What a timeline has; nothing if it is not there."""
    return json.loads(gzip.decompress(path.read_bytes())) if path.exists() else {}


def texts_of(path: pathlib.Path) -> str:
    """The text of a page without its markup."""
    return " ".join(re.sub(r"<[^>]*>", " ", path.read_text("utf-8")).split())


def without_numbers(path: str) -> str:
    """A path without numbers of processes, and without addresses, which are others in each recording."""
    path = re.sub(r" node 0x[0-9a-f]{8,}", " node 0x..", re.sub(r" \d+( on \w+)? node ", r"\1 node ", path))
    return re.sub(r"( from .*) \d+( on \w+)?$", r"\1\2", path)


def groups_of(database: sqlite3.Connection) -> list[tuple[str, ...]]:
    found = []
    for line in group_lines(database):
        verdict, title, n, n_all, _, _, path, rule, *_ = line.rstrip("\n").split("\t")
        if verdict in ("real", "maybe"):
            found.append((verdict, title, n, n_all, without_numbers(path), rule))
    return sorted(found)


# The groups of the stored captures: scenario, why, and what `groups_of` has of a group.
VERDICTS = CHECKS / "recorder/driver/verdicts.txt"


def verdicts() -> list[list[str]]:
    return [line.split("\t") for line in VERDICTS.read_text("utf-8").splitlines() if not line.startswith("#")]


def groups_due(scenario: str) -> list[tuple[str, ...]]:
    """The groups of a stored capture. One of the driver in Rust, NAME-rust, has those of NAME, or lines of its own."""
    rows = verdicts()
    name = scenario if any(row[0] == scenario for row in rows) else scenario.removesuffix("-rust")
    return sorted(tuple(row[2:]) for row in rows if row[0] == name)


def renew_groups(came: dict[str, list[tuple[str, ...]]]) -> None:
    """Writes the groups of these scenarios anew, where they differ. A group of a verdict, kind and path that was there
    keeps its reason; a new one has `?`, in place of which somebody must say `fault` or `more`."""
    rows = verdicts()
    why = {(row[0], row[2], row[3], row[6]): row[1] for row in rows}
    new = {name: [[name, why.get((name, group[0], group[1], group[4]), "?"), *group] for group in groups]
           for name, groups in came.items() if groups != groups_due(name)}
    # The lines of a scenario stay where its first one was.
    lines = [line for line in VERDICTS.read_text("utf-8").splitlines() if line.startswith("#")]
    told: set[str] = set()
    for name, *rest in [*rows, *([name] for name in new)]:
        if name not in new:
            lines.append("\t".join([name, *rest]))
        elif name not in told:
            lines += map("\t".join, new[name])
            told.add(name)
    renew(VERDICTS, "".join(f"{line}\n" for line in lines))
