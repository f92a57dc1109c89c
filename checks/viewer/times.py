"""Checks the views of times: where the time of each call went, in parts that add up, against a second computation.

    checks/run times                 all recordings, and the made-up minute
    checks/run times -- NAME..       these alone, as `driver/nested`, `aosp/parallel-14` or `minute`

On 20 recordings of real kernels, in samples/, and on a made-up minute of a phone (kit/made_minute.py) must hold:

- `own` of all rows of `call_tree` add up to the time of its call, and the parts of `send_time` to `dur`, to the
  nanosecond. So they do in each recording, for each call.
- 200 calls, drawn at random, have in `call_tree` the calls and the times of each that kit/second_times.py paints.
- The minute has the times that it was made with, within a millisecond: of a chain of calls each part, of a burst of
  oneway sends how long the last one waited and for which sends, and of methods the longest, the median and the
  hundredths.
- Of the minute the rules find what it was made with, and nothing else that is real or maybe: whose the 379 ms of a main
  thread are, who sends the burst, which listener is slow, and who asks for the same again; each with who causes it, and
  its times within a millisecond. The card of a call has the calls of its chain as a picture.
"""

import argparse
import pathlib
import random
import re
import sqlite3
import tarfile
from typing import Iterator, NamedTuple

from checks.kit.checking import Fail, check, compare
from checks.kit.made_minute import SECOND, WALL, minute
from checks.kit.programs import DRIVER, ROOT
from checks.kit.second_times import Recording
from viewer.database import loading
from viewer.page import page

DRIVEN = ("bulk", "callbacks", "chain", "clean-rust", "ends", "gaps", "hello-9", "hello-11", "hello-answers",
          "hello-callbacks", "hello-hidl", "hello-stuck", "hung", "leaks", "nested", "slow", "threads")
OF_AOSP = ("parallel-14", "schedule-14", "services-10")
MINUTE = "minute"
DRAWN, SEED = 200, 17
MILLISECOND = 1_000_000


class Stored(NamedTuple):
    """A recording: its name, and its files."""
    name: str
    capture: pathlib.Path
    side: pathlib.Path


def recordings(room: pathlib.Path) -> Iterator[Stored]:
    for name in DRIVEN:
        yield Stored(f"driver/{name}", DRIVER / name / "capture-1.cap", DRIVER / name / "capture.side")
    for name in OF_AOSP:
        with tarfile.open(ROOT / f"samples/aosp/{name}.tar.xz", encoding="utf-8") as packed:
            packed.extractall(room)
        yield Stored(f"aosp/{name}", room / name / "capture-1.cap", room / name / "capture.side")


def names() -> list[str]:
    return [*(f"driver/{name}" for name in DRIVEN), *(f"aosp/{name}" for name in OF_AOSP), MINUTE]


def database_of(one: Stored, room: pathlib.Path) -> sqlite3.Connection:
    made = room / f"{one.name.replace('/', '-')}.db"
    loading.database_of(ROOT, [str(one.capture)], str(one.side), made, lambda _: None)[0].close()
    return sqlite3.connect(made)


# ---- sums, and the second computation


def wrong_sums(database: sqlite3.Connection) -> Iterator[str]:
    """Calls whose parts, or whose trees, do not add up, and sends that have no parts."""
    for place, in database.execute("SELECT place FROM send_time WHERE queue + work + below + back + unknown IS NOT dur"
                                   " OR dur IS NULL OR dur < 0 OR why IS NULL <> (unknown = 0) AND unknown <> 0"):
        yield f"the parts of the send at {place} do not add up"
    for place, own, whole in database.execute(
            "SELECT root, added, whole FROM (SELECT root, sum(own) AS added, max(CASE WHEN level = 0 AND NOT is_unknown"
            " THEN dur END) AS whole FROM call_tree GROUP BY root) WHERE added IS NOT whole"):
        yield f"the tree of {place} has {own} ns of {whole}"


def tree_in(database: sqlite3.Connection, place: int) -> dict[tuple[int, str], int]:
    """The own times of a tree, by place and part."""
    found: dict[tuple[int, str], int] = {}
    for at, is_unknown, own, queue, work, back in database.execute(
            "SELECT place, is_unknown, own, queue, work, back FROM call_tree WHERE root = ?", (place,)):
        parts = {"unknown": own} if is_unknown else {"queue": queue, "work": work, "back": back}
        found.update({(at, part): time for part, time in parts.items() if time})
    return found


def drawn(found: list[tuple[Recording, sqlite3.Connection, str]]) -> Iterator[tuple[str, int, dict, dict]]:
    """Calls at random, each with what came and what is due. Half of them have calls within them."""
    chance = random.Random(SEED)
    every = [(recording, database, name, send) for recording, database, name in found for send in recording.calls()]
    deep = [one for one in every if one[3].delivery and one[0].within.get(one[3].delivery.record)]
    for recording, database, name, send in chance.sample(deep, min(len(deep), DRAWN // 2)) + chance.sample(
            every, min(len(every), DRAWN - DRAWN // 2)):
        painted = recording.paint(send)
        due = {colour: time for colour, time in painted.parts.items() if time}
        yield f"{name}: {send.place}", painted.whole, due, tree_in(database, send.place)


def check_recordings(named: list[str], room: pathlib.Path, fail: Fail) -> None:
    found = []
    for one in recordings(room):
        if one.name in named:
            database = database_of(one, room)
            for what in wrong_sums(database):
                fail(f"{one.name}: {what}")
            side = one.side.read_text("utf-8", "replace")
            found.append((Recording(one.capture.read_bytes(), side), database, one.name))
    for name, whole, due, came in drawn(found):
        compare(f"{name}: the parts", came, due, fail)
        compare(f"{name}: their sum", sum(came.values()), whole, fail)


# ---- the made-up minute


def is_near(what: str, came: float | None, due: float, fail: Fail) -> None:
    """Compares two times in milliseconds, which may differ by one."""
    if came is None or abs(came - due) > 1:
        fail(f"the minute: {what}: expected {due} ms, came {came}")


# Of each call of the chain the level, the server, and in milliseconds queue, work, below and all of it.
CHAIN = [(0, "system_server 1000", 60.08, 20, 299.31, 379.49), (1, "sensors-hal 600", 0.08, 49, 250.13, 299.31),
         (2, "powerd 500", 0.08, 250, 0, 250.13)]
# Of methods how many calls, and in milliseconds the median and the longest of queue and work.
METHODS = {("com.slow.clock 2300", "android.app.IListener code 1"): (1, 0.08, 0.08, 120, 120),
           ("com.example.ime 2500", "com.example.INotes code 9"): (400, 1001, 2007, 10, 10),
           ("powerd 500", "android.os.IPower code 77"): (1, 0.08, 0.08, 3, 3)}


def check_chain(database: sqlite3.Connection, fail: Fail) -> None:
    place, = database.execute("SELECT place FROM txn WHERE main_thread AND dur > 300000000").fetchone()
    came = database.execute("SELECT level, who, queue, work, below, dur FROM call_tree JOIN who ON upid = server_upid"
                            " WHERE root = ? ORDER BY n", (place,)).fetchall()
    compare("the minute: the calls of the chain", [one[:2] for one in came], [one[:2] for one in CHAIN], fail)
    for one, due in zip(came, CHAIN):
        for part, time, wanted in zip(("queue", "work", "below", "all"), one[2:], due[2:]):
            is_near(f"{part} of {due[1]}", time / MILLISECOND, wanted, fail)


def check_methods(database: sqlite3.Connection, fail: Fail) -> None:
    for (server, call), (calls, *times) in METHODS.items():
        row = database.execute("SELECT calls, queue_median, queue_longest, work_median, work_longest FROM method_time"
                               " WHERE client IS NULL AND server = ? AND call = ?", (server, call)).fetchone()
        compare(f"the minute: calls of {call}", row and row[0], calls, fail)
        for part, time, due in zip(("queue", "longest queue", "work", "longest work"), row[1:] if row else (), times):
            is_near(f"{part} of {call}", time / MILLISECOND, due, fail)


def check_hundredths(database: sqlite3.Connection, fail: Fail) -> None:
    """Of each method and caller the median and the hundredths, by sorting."""
    sends: dict[tuple, list[tuple[int, int, int]]] = {}
    for client, server, call, dur, queue, work in database.execute(
            "SELECT t.client, t.server, t.call, s.dur, s.queue, s.work FROM send_time s JOIN txn t USING (place)"
            " WHERE NOT s.is_open AND t.outcome IN ('answered', 'delivered')"):
        for key in ((None, server, call), (client, server, call)):
            sends.setdefault(key, []).append((dur, queue, work))
    due = {}
    for key, times in sends.items():
        of = [sorted(one) for one in zip(*times)]
        ranks = [-(-len(times) * part // 100) - 1 for part in (95, 99)]
        due[key] = (len(times), of[0][(len(times) - 1) // 2], *(of[0][rank] for rank in ranks), of[0][-1],
                    *(value for one in of[1:] for value in (one[(len(times) - 1) // 2], one[ranks[0]], one[-1])))
    came = {row[:3]: row[3:] for row in database.execute(
        "SELECT client, server, call, calls, median, p95, p99, longest, queue_median, queue_p95, queue_longest,"
        " work_median, work_p95, work_longest FROM method_time")}
    compare("the minute: the methods", came.keys() ^ due.keys(), set(), fail)
    for key in came.keys() & due.keys():
        compare(f"the minute: the times of {key}", came[key], due[key], fail)


def check_burst(database: sqlite3.Connection, fail: Fail) -> None:
    """The send that waited longest, and the handlers that were at work meanwhile."""
    place, wait = database.execute("SELECT place, wait FROM txn WHERE oneway ORDER BY wait DESC LIMIT 1").fetchone()
    is_near("the longest wait of a oneway send", wait / MILLISECOND, 2007, fail)
    held = database.execute("SELECT t.client, count(*), sum(h.dur) FROM queue_holder h JOIN txn t ON t.place = h.send"
                            " WHERE h.place = ? GROUP BY 1", (place,)).fetchall()
    compare("the minute: who held the threads", [one[:2] for one in held], [("com.spam.logger 2100", 201)], fail)
    is_near("how long they held them", held[0][2] / MILLISECOND, 2001, fail)


# Of each finding of the minute the rule, who causes it, the path, and its note with the times in milliseconds.
FOUND = [
    ("V1", "powerd 500", "IPackageManager code 5 to system_server 1000 node 0x7100 package",
     "{}: {} at work in powerd 500, {} waiting for a thread of system_server 1000, {} at work in sensors-hal 600, {} at"
     " work in system_server 1000", [379.49, 250, 60.08, 49, 20]),
    ("V2", "com.slow.clock 2300", "IListener code 1 at com.slow.clock 2300 node 0x9000",
     "it takes {}, half of 30 listeners {} at most", [120.13, 1.13]),
    ("V3", "com.chatty.mail 2200", "IPackageManager code 7 to system_server 1000 node 0x7100 package",
     "200 times with the same data, once in {}", [50]),
    ("W12", "com.spam.logger 2100", "INotes code 9 at com.example.ime 2500 node 0x7400 ime",
     "com.spam.logger 2100 sent 400, and one waited {}; each takes {}", [2007, 10])]
# A time as notes have it, and its unit in milliseconds. Of seconds three digits are told.
TIME, UNITS = re.compile(r"\b(\d+(?:\.\d+)?) (µs|ms|s)\b"), {"µs": 0.001, "ms": 1, "s": 1000}


def check_findings(database: sqlite3.Connection, fail: Fail) -> None:
    """What is real or maybe, and what is slow: who causes it, and the times."""
    came = database.execute("SELECT f.rule, w.who, f.path, f.note FROM finding f JOIN rule r ON r.id = f.rule"
                            " JOIN who w ON w.upid = coalesce(f.culprit, f.upid) WHERE f.lead IS NULL"
                            " AND (r.verdict IN ('real', 'maybe') OR f.section = 'slow') ORDER BY 1").fetchall()
    compare("the minute: what is found", [(*one[:3], TIME.sub("{}", one[3])) for one in came],
            [one[:4] for one in FOUND], fail)
    for (rule, *_, note), (*_, due) in zip(came, FOUND):
        for (time, unit), wanted in zip(TIME.findall(note), due):
            told = float(time) * UNITS[unit]
            is_near(f"{rule}: {note}", told, round(wanted, -1) if unit == "s" else wanted, fail)


def check_card(database: sqlite3.Connection, one: Stored, room: pathlib.Path, fail: Fail) -> None:
    """The card of the call of the main thread has the three calls of its chain, each with its picture."""
    made = room / "minute.html"
    page.write(database, [str(one.capture)], made)
    cards = made.read_text("utf-8").split('<details class="group ')[1:]
    card = next((card for card in cards if "slow calls of a main thread" in card), "")
    tree = card.partition('<table class="tree">')[2].partition("</table>")[0]
    compare("the minute: the calls on the card", [server for server, _ in re.findall(
        r'<td class="level-\d">.* to <bdi>(\S+ \d+)</bdi><td>\s*(<svg class="waterfall")', tree)],
        [server for _, server, *_ in CHAIN], fail)


def check_clock(database: sqlite3.Connection, fail: Fail) -> None:
    """By the wall clock the call of the chain was ten seconds after the beginning."""
    came = database.execute("SELECT utc, realtime, boottime - c.ts FROM txn JOIN clock c USING (seq) WHERE main_thread"
                            " AND dur > 300000000").fetchone()
    compare("the minute: the wall clock", came, ("2026-11-28 14:03:27.000", (WALL + 10) * SECOND, 0), fail)


def check_minute(room: pathlib.Path, fail: Fail) -> None:
    capture, side = minute()
    one = Stored(MINUTE, room / "minute-1.cap", room / "minute.side")
    one.capture.write_bytes(capture)
    one.side.write_text(side, "utf-8")
    database = database_of(one, room)
    for what in wrong_sums(database):
        fail(f"the minute: {what}")
    for part in (check_chain, check_methods, check_hundredths, check_burst, check_findings, check_clock):
        part(database, fail)
    check_card(database, one, room, fail)


def judge(given: argparse.Namespace, room: pathlib.Path, fail: Fail) -> None:
    check_recordings(given.cases, room, fail)
    if MINUTE in given.cases:
        check_minute(room, fail)


if __name__ == "__main__":
    check(judge, names)
