"""No statement of the rules takes the square of what a capture has: of a capture that is twice as long, each takes
about twice as many steps."""

import pathlib
import sqlite3

from checks.kit.captures import u64
from checks.kit.checking import Fail, compare
from checks.kit.frames import frames_of
from checks.viewer.page.common import texts_stored
from viewer.database import loading, programs, raw_tables
from viewer.database.sqlite import open_database
from viewer.rules import judging

# The scenario that is joined, and how often. Its clients take and let go of a handle again and again.
SCENARIO, COPIES = "hello-11", 60

# So many instructions of SQLite count as one; and how many of these the longer capture may take, beside this many.
STEP, MOST, BESIDE = 1000, 2.5, 100


def joined_capture(copies: int) -> bytes:
    """The capture, so many times, with rising sequences."""
    capture, _ = texts_stored(SCENARIO)
    frames = frames_of(capture)
    return capture[:16] + b"".join(u64(one.sequence + copy * frames[-1].sequence) + capture[one.place + 8:one.end]
                                   for copy in range(copies) for one in frames)


def joined_side(copies: int) -> str:
    """Its side list, in which all goes on until the end of the last copy."""
    head, *lines = texts_stored(SCENARIO)[1].splitlines()
    split = [(int(time), word, rest) for time, word, rest in (line.split(" ", 2) for line in lines)]
    frames = [(time, int(rest)) for time, word, rest in split if word == "frame"]
    span, last = split[-1][0] - split[0][0], frames[-1][1]
    made = [line for line in lines if line.split(" ")[1] != "end"]
    made += [f"{time + copy * span} frame {number + copy * last}"
             for copy in range(1, copies) for time, number in frames]
    made.append(f"{split[-1][0] + copies * span} end recording after={copies * last} frames={copies * last} lost=0")
    return "\n".join([head, *made, ""])


class Counted:
    """A database that counts the steps of each statement."""

    def __init__(self, database: sqlite3.Connection):
        self.database = database
        self.steps: list[tuple[str, int]] = []

    def __getattr__(self, name: str) -> object:
        return getattr(self.database, name)

    def execute(self, statement: str, *values: object) -> sqlite3.Cursor:
        taken = 0

        def step() -> None:
            nonlocal taken
            taken += 1
        self.database.set_progress_handler(step, STEP)
        answer = self.database.execute(statement, *values)
        self.database.set_progress_handler(None, 0)
        self.steps.append((" ".join(statement.split())[:200], taken))
        return answer


def steps_of(folder: pathlib.Path, room: pathlib.Path, copies: int,
             rules: pathlib.Path = judging.FOLDER) -> list[tuple[str, int]]:
    """The statements that judge the capture, each with its steps."""
    capture, side, rows, report = (room / f"joined-{copies}.{what}" for what in ("cap", "side", "rows", "report"))
    capture.write_bytes(joined_capture(copies))
    side.write_text(joined_side(copies), "utf-8")
    rows.mkdir()
    programs.answer(folder, report, "audit", "report", capture)
    programs.answer(folder, room / "told", "listing", "--tables", rows, capture)
    made = room / f"joined-{copies}.db"
    raw_tables.load_rows(made, rows, str(side))
    database = Counted(open_database(made))
    loading.fill(database.database, [str(capture)], str(side), report, None)
    judging.judge(database, rules)
    database.close()
    return database.steps


def check_growth(folder: pathlib.Path, room: pathlib.Path, fail: Fail) -> None:
    short, long = (steps_of(folder, room, copies) for copies in (COPIES, 2 * COPIES))
    compare("statements that judge", len(short) > 100, True, fail)
    compare("statements that take more than a longer capture should", [
        (statement, few, many) for (statement, few), (_, many) in zip(short, long) if many > MOST * few + BESIDE], [],
        fail)
