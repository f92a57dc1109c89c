"""Checks `./view --absent`: it says that a call was not made only where no such call can be missing.

    checks/run absent

- Of a small session whose client makes no call of the method, the answer is `absent`. Each condition fails in a session
  of its own, that differs in one thing: then the answer is `not known`, and a line names what fails.
- Of a call that is in the capture the answer is `made`, with its place.
- A name that means nothing, or two things, is refused in a line.

`checks/run lost` asks it of each call that a frame had which is lost.
"""

import argparse
import os
import pathlib
import sqlite3
import time
from typing import Callable, NamedTuple

from checks.kit.checking import Fail, check, compare
from checks.kit.programs import ROOT
from checks.kit.tokens import marked
from checks.viewer.sessions.played import base_of, judged
from checks.viewer.sessions.session import Process, Session
from viewer.absent.asked_of import Between, openings_of, span_of
from viewer.absent.called import called, meant_in
from viewer.absent.lines import lines_of
from viewer.database import raw_tables
from viewer.database.programs import build_programs
from viewer.files import Stopped
from viewer.window import Recording, moment

HELLO, OTHER = marked("com.example.IHello"), marked("com.example.IOther")
METHODS = "INSERT INTO method VALUES ('com.example.IHello', 1, 'sayHello', 'a table'), " \
          "('com.example.IHello', 7, 'sayBye', 'a table')"
BYE, PART = "IHello.sayBye", ("narrowed", "narrowed_processes", "narrowed_devices")


class Case(NamedTuple):
    """A session, what is asked of it, the beginning of the first line, and what the line of a condition that fails has.
    `then`: SQL after the session was judged."""
    name: str
    play: Callable[[Session, Process, Process], None]
    due: str
    fails: str | tuple[str, ...] = ()
    word: str = BYE
    process: str | None = "client"
    between: tuple[str, str] | None = None
    then: str = ""
    has_side: bool = True
    lines: Callable[[list[str]], list[str]] | None = None


def quiet(_: Session, service: Process, client: Process) -> None:
    """Calls of another method, and one with the code of the method for another interface."""
    client.main.asks(service.main, 1, body=HELLO, times=3)
    client.main.asks(service.main, 7, body=OTHER)


def then(*more: Callable[[Session, Process, Process], None]) -> Callable[[Session, Process, Process], None]:
    def play(session: Session, service: Process, client: Process) -> None:
        quiet(session, service, client)
        for one in more:
            one(session, service, client)
    return play


def says_bye(_: Session, service: Process, client: Process) -> None:
    client.main.asks(service.main, 7, body=HELLO)


def is_unread(_: Session, service: Process, client: Process) -> None:
    """The data of a call were not recorded."""
    service.main.replies(service.main.gets(client.main.sends(0, 7, body=HELLO, seen=False), seen=False))


def loses(whose: str | None) -> Callable[[Session, Process, Process], None]:
    def play(session: Session, service: Process, client: Process) -> None:
        session.loses({"client": client, "service": service}.get(whose or ""))
        quiet(session, service, client)
    return play


def waits(session: Session, _: Process, __: Process) -> None:
    session.wait(5_000)


def misses(session: Session, _: Process, __: Process) -> None:
    session.tell(f"missed 3 what=calls-without-number from={session.sequence} after={session.sequence + 1}")


def narrowed(words: str) -> Callable[[list[str]], list[str]]:
    return lambda lines: [line.replace("machine=x86_64", f"machine=x86_64 narrowed={words}") for line in lines]


CASES = (
    Case("absent", quiet, "absent: client 200 did not call IHello.sayBye from "),
    Case("of the whole name", quiet, "absent: ", word="com.example.IHello.sayBye"),
    Case("by code", quiet, "absent: ", word="IHello code 7"),
    Case("a code of any interface", quiet, "made: 1 call of code 7 by client 200 ", word="code 7"),
    Case("of an interface that nobody names", quiet, "absent: ", word="INobody.says"),
    Case("of any process", quiet, "absent: any process did not call ", process=None),
    Case("made", then(says_bye), "made: 1 call of IHello.sayBye by client 200 from "),
    Case("made by another", then(says_bye), "absent: service 100 did not call ", process="service"),
    Case("made, and one more may be", then(loses("client"), says_bye), "made: 1 call of ", "may have had it"),
    Case("made later", then(waits, says_bye), "absent: ", between=("+0", "+1")),
    Case("made then", then(waits, says_bye, waits), "made: 1 call ", between=("+4", "+5.1")),
    Case("a frame of it is lost", loses("client"), "not known: ", "may have had it, but was lost: ring-full"),
    Case("a frame of another is lost", loses("service"), "absent: "),
    Case("a frame of nobody knows whom is lost", loses(None), "not known: ", "may have had it"),
    Case("a frame of another is lost, of any", loses("service"), "not known: ", "may have had it", process=None),
    Case("the lost frame is at another time", then(waits, quiet, loses("client")), "absent: ", between=("+0", "+1")),
    Case("the lost frame comes next", then(waits, loses("client")), "not known: ", "may have had it",
         between=("+0", "+1")),
    Case("a number is missing of which no line is", loses("client"), "not known: ", "says of 0 alone whose",
         lines=lambda lines: [line for line in lines if " lost " not in line]),
    Case("calls were missed", then(misses, quiet), "not known: ", "3 calls without number were missed"),
    Case("calls were missed at another time", then(waits, quiet, misses, quiet), "absent: ", between=("+0", "+1")),
    Case("the data of a call are not there", then(is_unread), "not known: ",
         "the data of 1 transaction with this code name no interface"),
    Case("without a side list", quiet, "not known: ", ("without a side list it is not known what was missed",
                                                       "it is not known when was recorded"),
         process="200", has_side=False),
    Case("until after the end", quiet, "not known: ", "was recorded", between=("+0", "+60")),
    Case("from before the first file that is left", quiet, "not known: ", "only from 0.000 s",
         between=("00:00:00", "00:00:00.02"), lines=lambda lines: [lines[0], "1 file 2\n", *lines[1:]]),
    Case("the report counts more", quiet, "not known: ", "and the tables have",
         then="UPDATE report SET count = count + 10 WHERE name = 'BC_TRANSACTION'"),
    Case("it ends at a fault", quiet, "not known: ", "ends at its first fault",
         then="UPDATE capture SET value = 'AttachSize at 1234' WHERE key = 'malformed'"),
    Case("another device alone was recorded", quiet, "not known: ", "only a part was recorded: --device vndbinder",
         lines=narrowed("device:vndbinder")),
    Case("it alone was recorded", quiet, "absent: ", lines=narrowed("pid:200")),
    Case("others alone were recorded", quiet, "not known: ", "only a part was recorded: --pid 200", process=None,
         lines=narrowed("pid:200")),
)


def database_of(case: Case, room: pathlib.Path) -> sqlite3.Connection:
    session = Session(case.has_side)
    service, client = session.two()
    case.play(session, service, client)
    if case.lines:
        session.lines = case.lines(session.lines)
    database = judged(base_of(room, session))
    database.execute(METHODS)
    for statement in filter(None, [case.then]):
        database.execute(statement)
    return database


def answer(database: sqlite3.Connection, case: Case) -> list[str]:
    between: Between | None = (moment(case.between[0]), moment(case.between[1])) if case.between else None
    window = None
    if between:
        first, last = database.execute("SELECT first_seq, last_seq FROM raw_capture").fetchone()
        recording = Recording(database, first, last)
        window = recording.between(*recording.moments(*between))
    openings = openings_of(database, case.process) if case.process else None
    return list(lines_of(database, meant_in(database, called(case.word)), openings, span_of(database, window, between)))


def check_case(case: Case, room: pathlib.Path, fail: Fail) -> None:
    head, *conditions = answer(database_of(case, room), case)
    failing = [line for line in conditions if line.startswith("  FAILS")]
    due = [case.fails] if isinstance(case.fails, str) else list(case.fails)
    if not head.startswith(case.due):
        fail(f"{case.name}: expected {case.due!r}, came {head!r} {failing}")
    if len(failing) != len(due) or any(text not in line for text, line in zip(due, failing)):
        fail(f"{case.name}: expected the lines {due} to fail, came {failing}")


REFUSED = (
    ("sayBye", "is no call"), ("IHello.sayNothing", "no table of methods has sayNothing"),
    ("IHello code 99999999999", "is no call"), ("", "is no call"), (".", "is no call"),
    ("IHello.\udcff", "no table of methods has"), ("ISame.isIt", "may be com.example.ISame or org.example.ISame"))


def check_refused(room: pathlib.Path, fail: Fail) -> None:
    def play(_: Session, service: Process, client: Process) -> None:
        for name in ("com.example.ISame", "org.example.ISame", "com.example.IHello"):
            client.main.asks(service.main, 1, body=marked(name))
    database = database_of(Case("refused", play, ""), room)
    for word, due in REFUSED:
        try:
            meant_in(database, called(word))
            came = "nothing"
        except (argparse.ArgumentTypeError, Stopped) as error:
            came = str(error)
        if due not in came:
            fail(f"--absent {word!r}: expected {due!r}, came {came!r}")
    try:
        openings_of(database, "nobody")
        fail("--process nobody is somebody")
    except Stopped as stopped:
        compare("--process nobody", str(stopped), "--process: the capture has no process nobody", fail)


def judge(_: argparse.Namespace, room: pathlib.Path, fail: Fail) -> None:
    os.environ["TZ"] = "UTC"
    time.tzset()
    build_programs(ROOT)
    raw_tables.loader()
    for case in CASES:
        check_case(case, room, fail)
    check_refused(room, fail)


if __name__ == "__main__":
    check(judge)
