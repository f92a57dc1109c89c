"""What is asked for of a capture: all of it, or some frames and processes; and what a line says of that."""

import argparse
import sqlite3

from viewer.files import Stopped
from viewer.page.groups_within import groups_within
from viewer.processes_asked import processes_of
from viewer.terminal import shown
from viewer.units import counted
from viewer.window import Recording, Window
from viewer.window_asked import is_asked


def window_of(database: sqlite3.Connection, asked: argparse.Namespace) -> Window | None:
    """The frames and processes that are asked for; None if all are."""
    upids = None if asked.process is None else tuple(processes_of(database, asked.process, "--process"))
    if is_asked(asked):
        return time_of(database, asked)._replace(upids=upids)
    if upids is None:
        return None
    first, last = database.execute("SELECT first_seq, last_seq FROM raw_capture").fetchone()
    return Window(first, last, None, None, upids, is_timed=False)


def time_of(database: sqlite3.Connection, asked: argparse.Namespace) -> Window:
    """The frames of the time that is asked for."""
    size, first, last = database.execute("SELECT bytes, first_seq, last_seq FROM raw_capture").fetchone()

    def frame_at(place: int) -> int:
        found = database.execute("SELECT seq FROM raw_frame WHERE place <= ? ORDER BY place DESC LIMIT 1",
                                 (place,)).fetchone()
        if found is None or place >= size:
            raise Stopped(1, f"--around: no frame has the byte at {place}")
        return found[0]

    return Recording(database, first, last).window(asked, frame_at)


# Of some frames, and of processes if some are asked for: the frames; the calls that were under way; the frames that are
# missing, but those of other processes, as the side list says; and what was missed without a number: between a frame
# before the last one, and one after the first.
OF_THEM = ("(:upids IS NULL OR utid IN (SELECT utid FROM raw_thread WHERE upid IN"
           " (SELECT value FROM json_each(:upids))))")
FRAMES = f"SELECT count(*) FROM raw_frame WHERE seq BETWEEN :first AND :last AND {OF_THEM}"
UNDER_WAY = ("SELECT count(*) FROM raw_call WHERE NOT served AND seq <= :last"
             f" AND coalesce(seq + dur_seq, 9223372036854775807) >= :first AND {OF_THEM}")
MISSING = ("SELECT :last - :first + 1 - (SELECT count(*) FROM raw_frame WHERE seq BETWEEN :first AND :last)"
           " - (SELECT count(*) FROM side_lost WHERE seq BETWEEN :first AND :last AND :upids NOTNULL"
           " AND process NOTNULL AND (device, process) NOT IN (SELECT device, process FROM raw_process"
           " WHERE upid IN (SELECT value FROM json_each(:upids))))")
MISSED = "SELECT coalesce(sum(count), 0) FROM side_missed WHERE after >= :first - 1 AND from_seq <= :last"


def then_of(database: sqlite3.Connection, window: Window) -> str:
    """What was recorded in the window, what was under way, and what was lost."""
    if window.first > window.last:
        return "then nothing was recorded"
    asked = {"first": window.first, "last": window.last, "upids": window.values()[3]}
    came, open_then, missing, missed = (database.execute(query, asked).fetchone()[0]
                                        for query in (FRAMES, UNDER_WAY, MISSING, MISSED))
    lost = [counted(missing, "frame")] if missing > 0 else []
    lost += [f"{missed:,} without a number"] if missed else []
    words = ["then"] * window.is_timed
    words += [] if window.upids is None else [f"of {who_of(database, window.upids)}:"]
    return (f"{' '.join(words)} {counted(came, 'frame')},"
            f" {counted(open_then, 'call')}{' under way' * window.is_timed},"
            f" {' and '.join(lost) + ' lost' + may_be_of(window) if lost else 'nothing lost'}")


def may_be_of(window: Window) -> str:
    """Whose what was lost may be, if processes are asked for."""
    return "" if window.upids is None else f" that may be of {'it' if len(window.upids) == 1 else 'them'}"


def who_of(database: sqlite3.Connection, upids: tuple[int, ...] | None) -> str:
    """What some processes are called, or how many they are."""
    if upids and len(upids) == 1:
        return shown(database.execute("SELECT who FROM who WHERE upid = ?", upids).fetchone()[0])
    return counted(len(upids or ()), "process", "processes")


def told_of(database: sqlite3.Connection, window: Window | None) -> str:
    """How many groups are shown, and what the capture has, in a line."""
    counts = {verdict: groups for verdict, (groups, _) in counts_of(database, window).items()}
    others = sum(counts.values()) - counts.get("real", 0) - counts.get("maybe", 0)
    frames, missing, malformed = database.execute("SELECT frames, missing, fault FROM raw_capture").fetchone()
    until = " up to its fault" if malformed else ""
    then = f" {then_of(database, window)};" if window else ""
    return (f"{counts.get('real', 0):,} real, {counts.get('maybe', 0):,} maybe, {others:,} others;{then}"
            f" {counted(frames, 'frame')}{until}, {f'{missing % 2**64:,}' if missing else 'none'} missing")


def counts_of(database: sqlite3.Connection, window: Window | None) -> dict[str, tuple[int, int]]:
    """How many groups, and how many findings, are shown of each verdict."""
    groups_shown = set(groups_within(database, window))
    found: dict[str, tuple[int, int]] = {}
    for group, verdict, n in database.execute("SELECT grp, verdict, n FROM finding_group"):
        if group in groups_shown:
            groups, findings = found.get(verdict, (0, 0))
            found[verdict] = groups + 1, findings + n
    return found
