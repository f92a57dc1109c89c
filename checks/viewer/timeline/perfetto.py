"""Asks Perfetto's trace processor about timelines of all stored captures."""

import csv
import io
import pathlib
import re
import sqlite3
import subprocess
import tarfile
import zipfile
from collections import Counter
from typing import Iterable, Iterator

from checks.kit.checking import Fail, compare, row
from checks.kit.programs import DRIVER
from checks.viewer.page.common import loaded, on_one_clock, texts_stored
from checks.viewer.timeline.system_trace import AHEAD, SLEPT, SystemTrace
from viewer.timeline import trace
from viewer.timeline.tracks import Window
from viewer.units import counted

# Traces by the suffixes of their names, and how the arguments of slices are called in them.
PLAIN, ANDROID, JSON = "plain.pftrace", "android.pftrace", "out.json.gz"
ARGUMENTS = {PLAIN: "debug", ANDROID: "debug", JSON: "args"}


class TraceProcessor:
    """The program, and how often it was asked."""

    def __init__(self, program: pathlib.Path):
        self.program = program.resolve()

    def ask(self, path: pathlib.Path, query: str) -> list[list[str]]:
        """The rows of an answer."""
        asked = subprocess.run([self.program, "query", path, query], capture_output=True, encoding="utf-8")
        if asked.returncode:
            raise RuntimeError(f"{path.name}: {asked.stderr.strip()[-400:]}")
        text = asked.stdout.lstrip("\n")
        return [["" if cell == "[NULL]" else cell for cell in one] for one in csv.reader(io.StringIO(text))][1:]


FAULTS = "SELECT name, value FROM stats WHERE value > 0 AND severity IN ('error', 'data_loss')"

SLICES = """
SELECT s.id, coalesce(s.parent_id, ''), extract_arg(s.arg_set_id, '{0}.place'), s.ts, s.dur, s.category, t.tid, p.pid,
  t.name, p.name
FROM slice s JOIN thread_track k ON k.id = s.track_id JOIN thread t USING (utid) JOIN process p USING (upid)"""
# All but the calls: instants by category, queues, counters, flows by what they go between.
COUNTS = """
SELECT 'slices ' || category, count(*) FROM slice s JOIN track t ON t.id = s.track_id
  WHERE category NOT IN ('call', 'served', 'aidl') AND coalesce(t.name, '') NOT GLOB 'binder_audit: [rm]*' GROUP BY 1
UNION ALL SELECT 'on tracks of findings', count(*) FROM slice s JOIN track t ON t.id = s.track_id
  WHERE t.name GLOB 'binder_audit: [rm]*'
UNION ALL SELECT 'counter values', count(*) FROM counter
UNION ALL SELECT 'sum of counters', cast(sum(value) AS INT) FROM counter
UNION ALL SELECT 'flows ' || o.category || ' -> ' || i.category, count(*) FROM flow f JOIN slice o ON o.id = f.slice_out
  JOIN slice i ON i.id = f.slice_in WHERE o.category NOT GLOB 'finding*' GROUP BY 1
UNION ALL SELECT 'open slices', count(*) FROM slice WHERE dur < 0"""
TRANSACTIONS = """
INCLUDE PERFETTO MODULE android.binder;
SELECT extract_arg(c.arg_set_id, 'debug.place'), extract_arg(s.arg_set_id, 'debug.place'), client_dur, server_dur,
  is_sync, interface, method_name
FROM android_binder_txns t JOIN slice c ON c.id = t.binder_txn_id JOIN slice s ON s.id = t.binder_reply_id"""

PAIRS = """
SELECT s.place, s.delivery, s.oneway, c.dur, v.dur, c.verdict, v.verdict FROM send s
LEFT JOIN call c ON c.place = s.place LEFT JOIN call v ON v.place = s.delivery
WHERE s.certain AND s.delivery NOTNULL AND s.kind LIKE 'BC_TRANSACTION%'"""


def captures() -> Iterator[tuple[str, list[pathlib.Path], pathlib.Path | None]]:
    """All stored captures. Those of the real driver have a side list."""
    for folder in sorted(path for path in DRIVER.iterdir() if path.is_dir()):
        side, = folder.glob("*.side")
        yield folder.name, sorted(folder.glob("*.cap")), side
    for path in sorted(DRIVER.parent.glob("*.cap")):
        yield path.stem, [path], None


def shift_of(database: sqlite3.Connection, name: str) -> int:
    """How much later the times of a timeline are than those of the side list, if the system did not sleep."""
    known = dict(database.execute("SELECT key, value FROM capture"))
    return known["boottime"] - known["begin_ts"] if known.get("boottime") is not None else 0


def check_calls(what: str, tool: TraceProcessor, path: pathlib.Path, database: sqlite3.Connection, found: Counter,
                fail: Fail) -> None:
    """The calls of the database as slices: times, durations, what they are in, and whose they are."""
    shift = shift_of(database, path.name)
    rows = {one[0]: one for one in tool.ask(path, SLICES.format(ARGUMENTS[path.name]))}
    calls = {place: (cat, parent, ts + shift, dur, *who) for place, cat, parent, ts, dur, *who in database.execute(
        "SELECT c.place, iif(side = 'made', 'call', 'served'), parent, c.ts, c.dur, t.tid, p.pid, t.name, p.name"
        " FROM call c JOIN thread t USING (utid) JOIN process p ON p.upid = c.upid")}
    found["calls"] += len(calls)
    seen = set()
    for _, parent, place, ts, dur, cat, tid, pid, thread, process in rows.values():
        if cat not in ("call", "served"):
            continue
        seen.add(int(place))
        outer = rows.get(parent)
        while outer and outer[5] not in ("call", "served"):
            outer = rows.get(outer[1])
        due = calls[int(place)]
        came = (cat, int(outer[2]) if outer else None, int(ts), int(dur) if due[3] is not None else None, int(tid),
                int(pid), thread or None, process)
        due = *due[:7], due[7] or "process"
        if path.name == JSON:  # its processes have the numbers of the capture
            came, due = (*came[:4], came[6]), (*due[:4], due[6])
        compare(f"{what}: the call at {place}", came, due, fail)
        found["times and nesting"] += 1
        found["durations"] += due[3] is not None
    compare(f"{what}: calls", seen, set(calls), fail)


def check_counts(what: str, tool: TraceProcessor, path: pathlib.Path, told: dict[str, object],
                 database: sqlite3.Connection, found: Counter, fail: Fail) -> None:
    """All that a timeline says of itself is there."""
    came = {name: int(count or 0) for name, count in tool.ask(path, COUNTS)}
    oneway, = database.execute("SELECT (SELECT count(*) FROM send WHERE oneway AND kind LIKE 'BC_TR%') + (SELECT"
                               " count(*) FROM delivery WHERE oneway)").fetchone()
    instants = sum(count for name, count in came.items() if name.startswith(("slices death", "slices e", "slices f",
                                                                            "slices lost", "slices spam")))
    pairs = database.execute(PAIRS).fetchall()
    flows = Counter("flows oneway -> oneway" if pair[2] else "flows call -> served" for pair in pairs)
    compare(f"{what}: counts", (came["slices oneway"] if oneway else 0, came.get("slices queue", 0), instants,
                                came["counter values"], came["open slices"]),
            (oneway, told["queue_slices"], told["instants"], told["counter_events"], 0), fail)
    compare(f"{what}: flows", {name: count for name, count in came.items() if name.startswith("flows")}, flows, fail)
    for name in ("slices oneway", "slices queue", "counter values", "on tracks of findings"):
        found[name.removeprefix("slices ")] += came.get(name, 0)
    found["instants"] += instants
    found["flows"] += sum(flows.values())


def check_transactions(what: str, tool: TraceProcessor, path: pathlib.Path, database: sqlite3.Connection,
                       found: Counter, fail: Fail) -> None:
    """The certain pairs that `android.binder` finds, and why it does not find others."""
    pairs = {(place, delivery): more for place, delivery, *more in database.execute(PAIRS)}
    came = {(int(client), int(server)): (int(client_dur), int(server_dur), int(sync), interface, method)
            for client, server, client_dur, server_dur, sync, interface, method in tool.ask(path, TRANSACTIONS)}
    compare(f"{what}: pairs that are not of the database", set(came) - set(pairs), set(), fail)
    found["certain pairs"] += len(pairs)
    found["of android.binder"] += len(came)
    found["with interface and method"] += sum(bool(one[3] and one[4]) for one in came.values())
    for pair, (client, server, sync, *_) in came.items():
        oneway, *durations, _, _ = pairs[pair]
        compare(f"{what}: the sort of {pair}", sync, 1 - bool(oneway), fail)
        for dur, due in zip((client, server), durations):
            if sync and due is not None:
                compare(f"{what}: how long {pair} took", dur, due, fail)
                found["durations of android.binder"] += 1
    for pair in set(pairs) - set(came):
        _, client, server, verdict, served = pairs[pair]
        found[f"not found: client {verdict}, {'ended' if client is not None else 'open'}; server {served},"
              f" {'ended' if server is not None else 'open'}"] += 1
        durations = [int(dur) for dur, in tool.ask(
            path, f"SELECT dur FROM slice WHERE extract_arg(arg_set_id, 'debug.place') IN {pair} AND category IN"
                  " ('call', 'served') ORDER BY ts")]
        compare(f"{what}: {pair} is not found, and its client takes {durations}", durations[0] < durations[1], True,
                fail)


def write_timelines(database: sqlite3.Connection, room: pathlib.Path) -> None:
    for name in ARGUMENTS:
        (room / name).unlink(missing_ok=True)
        trace.write(database, room / name, Window(), name, name == ANDROID)


def told_by(tool: TraceProcessor, path: pathlib.Path) -> dict[str, object]:
    return {name.removeprefix("trace_attribute."): int(number) if number else text for name, number, text in
            tool.ask(path, "SELECT name, int_value, str_value FROM metadata WHERE name GLOB 'trace_attribute*'")}


def check_alone(tool: TraceProcessor, folder: pathlib.Path, room: pathlib.Path, found: dict[str, Counter], fail: Fail
                ) -> None:
    for what, files, side in captures():
        database = loaded(folder, room / f"{what}.db", files, side)
        write_timelines(database, room)
        told = told_by(tool, room / PLAIN)
        for name in ARGUMENTS:
            path = room / name
            compare(f"{what}, {name}: faults", tool.ask(path, FAULTS), [], fail)
            if side is not None:  # without times the database has none to compare with
                check_calls(f"{what}, {name}", tool, path, database, found[name], fail)
            check_counts(f"{what}, {name}", tool, path, told, database, found[name], fail)
            found[name]["captures"] += 1
        check_transactions(what, tool, room / ANDROID, database, found[ANDROID], fail)
        database.close()


# ---- names of strangers


HOSTILE = '"},{"ph":"B\\x09\\x0a</script>%s\u202e\U0001f600::x'
NAMES = """
SELECT hex(name) FROM process WHERE pid > 0 AND name NOTNULL UNION SELECT hex(name) FROM thread WHERE tid > 0 AND
  name NOTNULL"""


def check_hostile(tool: TraceProcessor, folder: pathlib.Path, room: pathlib.Path, fail: Fail) -> None:
    """Names of processes, threads and methods come as they are."""
    _, side = texts_stored("hello-answers")
    (room / "hostile.side").write_text(re.sub("name=.*$", lambda _: "name=" + HOSTILE, side, flags=re.MULTILINE),
                                       "utf-8")
    database = loaded(folder, room / "hostile.db", [DRIVER / "hello-answers/capture-1.cap"], room / "hostile.side")
    database.execute("INSERT OR REPLACE INTO method SELECT i.name, r.code, ?, '-' FROM interface i,"
                     " (SELECT DISTINCT code FROM raw_record WHERE code NOTNULL) r", (HOSTILE,))
    write_timelines(database, room)
    name = HOSTILE.replace("\\x09", "\t").replace("\\x0a", "\n")
    for path in (room / PLAIN, room / ANDROID, room / JSON):
        compare(f"hostile names, {path.name}: faults", tool.ask(path, FAULTS), [], fail)
        compare(f"hostile names, {path.name}: names", {bytes.fromhex(one).decode() for one, in tool.ask(path, NAMES)},
                {name}, fail)
        methods = tool.ask(path, f"SELECT DISTINCT hex(extract_arg(arg_set_id, '{ARGUMENTS[path.name]}.method')) FROM"
                                 " slice WHERE category = 'call'")
        compare(f"hostile names, {path.name}: methods", [HOSTILE.encode().hex().upper()] in methods, True, fail)
    database.close()


# ---- together with a system trace


PROCESSES = "SELECT pid, count(*) FROM process WHERE pid > 1 GROUP BY 1"
# How many counters a process has that a system trace tells, and that a timeline tells.
UNDER_ONE = """
SELECT count(DISTINCT iif(k.name GLOB 'binder *', NULL, p.upid)),
  count(DISTINCT iif(k.name GLOB 'binder *', p.upid, NULL)), count(DISTINCT p.upid), count(DISTINCT p.pid)
FROM process_counter_track k JOIN process p USING (upid) WHERE k.id IN (SELECT track_id FROM counter)"""
PHONE_S = """
INCLUDE PERFETTO MODULE android.binder;
SELECT count(*), sum(client_dur), sum(server_dur) FROM android_binder_txns"""
STATES = """
INCLUDE PERFETTO MODULE android.binder;
SELECT DISTINCT thread_state_type, thread_state FROM android_sync_binder_thread_state_by_txn ORDER BY 1, 2"""
# Threads with slices, and those of them that the system trace says have run; and what it says of transactions.
RAN = """
INCLUDE PERFETTO MODULE android.binder;
SELECT count(DISTINCT utid), count(DISTINCT iif(utid IN (SELECT utid FROM sched), utid, NULL)),
  (SELECT count(*) FROM android_sync_binder_thread_state_by_txn)
FROM thread_track WHERE id IN (SELECT track_id FROM slice)"""
OURS = "SELECT extract_arg(arg_set_id, 'debug.place'), ts, dur FROM slice WHERE category IN ('call', 'served')"


# How a system trace is made: whether processes begin in it, and in how many pieces it is written.
WAYS = ((False, 1), (True, 1), (False, 20), (True, 20))


def joined(room: pathlib.Path, system: bytes, ours: bytes) -> Iterator[pathlib.Path]:
    """Both traces as one: one behind the other, and in archives, as the page of Perfetto makes of several files."""
    for name, data in (("theirs-first", system + ours), ("ours-first", ours + system)):
        (room / f"{name}.pftrace").write_bytes(data)
        yield room / f"{name}.pftrace"
    for name, data in (("system", system), ("ours", ours)):
        (room / f"{name}.pftrace").write_bytes(data)
    with zipfile.ZipFile(room / "both.zip", "w") as packed:
        for name in ("system", "ours"):
            packed.write(room / f"{name}.pftrace", f"{name}.pftrace")
    yield room / "both.zip"
    with tarfile.open(room / "both.tar", "w", format=tarfile.USTAR_FORMAT) as archive:
        for name in ("system", "ours"):
            archive.add(room / f"{name}.pftrace", f"{name}.pftrace")
    yield room / "both.tar"


def check_joined(what: str, tool: TraceProcessor, room: pathlib.Path, database: sqlite3.Connection, system: SystemTrace,
                 name: str, found: Counter, fail: Fail) -> None:
    """Processes are one, all calls are there, at the system's times, and the phone's own transactions are as before."""
    has_binder = name == PLAIN
    ran = set()
    for has_tasks, pieces in WAYS:
        phone = system.made(has_binder, not has_binder, has_tasks, pieces)
        way = f"{what}, {name}, {'new processes, ' * has_tasks}{counted(pieces, 'piece')}"
        ran |= check_way(way, tool, room, database, system, phone, name, found, fail)
        found["joined in pieces" if pieces > 1 else "joined in one piece"] += 1
    compare(f"{what}, {name}: threads that ran, rows of their states, in all ways", len(ran), 1, fail)


def check_way(what: str, tool: TraceProcessor, room: pathlib.Path, database: sqlite3.Connection, system: SystemTrace,
              phone: bytes, name: str, found: Counter, fail: Fail) -> set[tuple[str, ...]]:
    """Returns what is said of the threads that ran, in each order of both files. Behind a trace in pieces our slices
    come too late, as docs/PERFETTO.md says."""
    has_binder, ran = name == PLAIN, set()
    (room / "phone.pftrace").write_bytes(phone)
    alone = tool.ask(room / "phone.pftrace", PHONE_S)
    due = {place: (system.boottime(ts), system.boottime(ts + dur) - system.boottime(ts) if dur is not None else None)
           for place, ts, dur in database.execute("SELECT place, ts, dur FROM call")}
    pids = Counter(pid for pid, in database.execute("SELECT DISTINCT pid FROM process"))
    for path in joined(room, phone, (room / name).read_bytes()):
        told = f"{what}, {path.name}"
        if path.stem == "theirs-first" and "1 piece" not in what:
            lost = len(due) - len(tool.ask(path, OURS))
            compare(f"{told}: slices are lost", lost > 0, True, fail)
            continue
        compare(f"{told}: faults", tool.ask(path, FAULTS), [], fail)
        compare(f"{told}: processes", {int(pid): int(n) for pid, n in tool.ask(path, PROCESSES)}, dict(pids), fail)
        theirs, ours, all_, numbers = map(int, tool.ask(path, UNDER_ONE)[0])
        compare(f"{told}: processes with counters", (theirs, all_), (numbers, numbers), fail)
        compare(f"{told}: processes with both counters", ours > 0, True, fail)
        came = {int(place): (int(ts), int(dur)) for place, ts, dur in tool.ask(path, OURS)}
        compare(f"{told}: calls", {place: (ts, dur if due[place][1] is not None else None)
                                   for place, (ts, dur) in came.items()}, due, fail)
        if has_binder:
            compare(f"{told}: the phone's transactions", tool.ask(path, PHONE_S), alone, fail)
            compare(f"{told}: the phone has some", int(alone[0][0]) > 0, True, fail)
            found["transactions of the phone: alone, joined"] = f"{alone[0][0]}, {tool.ask(path, PHONE_S)[0][0]}"
        else:
            ran.add(tuple(tool.ask(path, RAN)[0]))
            states = [tuple(one) for one in tool.ask(path, STATES)]
            compare(f"{told}: who ran meanwhile",
                    {("binder_reply", "Running"), ("binder_txn", "S")} <= set(states), True, fail)
        found["joined traces"] += 1
    return ran or {()}


def side_of(sleeps: bool, room: pathlib.Path) -> pathlib.Path:
    """The side list of `threads`, as if the phone of the system trace had been recorded: it says what the clocks
    showed, and again after the sleep."""
    side = on_one_clock(texts_stored("threads")[1])
    begin = int(re.search(r"^(\d+) begin ", side, re.MULTILINE)[1])
    frames = sorted(int(ts) for ts in re.findall(r"^(\d+) frame ", side, re.MULTILINE))
    woke = frames[len(frames) // 2]
    side = re.sub(r"( begin realtime=\d+)", rf"\1 boottime={begin + AHEAD}", side)
    if sleeps:
        side += f"{woke} clocks realtime=1 boottime={woke + AHEAD + SLEPT}\n"
    (room / "threads.side").write_text(side, "utf-8")
    return room / "threads.side"


def check_clocks(tool: TraceProcessor, room: pathlib.Path, database: sqlite3.Connection, system: SystemTrace,
                 found: Counter, fail: Fail) -> None:
    """A timeline alone has its times on CLOCK_BOOTTIME, also after a sleep, and the wall clock."""
    due = {place: system.boottime(ts) for place, ts in database.execute("SELECT place, ts FROM call")}
    for name in (PLAIN, JSON):
        rows = tool.ask(room / name, SLICES.format(ARGUMENTS[name]))
        compare(f"alone, {name}", {int(row[2]): int(row[3]) for row in rows if row[5] in ("call", "served")}, due, fail)
    compare("alone: faults", tool.ask(room / PLAIN, FAULTS), [], fail)
    found["first call by the wall clock"] = tool.ask(room / PLAIN, "SELECT abs_time_str(min(ts)) FROM slice")[0][0]


def check_system(tool: TraceProcessor, folder: pathlib.Path, room: pathlib.Path, found: dict[str, Counter], fail: Fail
                 ) -> None:
    for sleeps in (False, True):
        database = loaded(folder, room / f"system-{sleeps}.db", [DRIVER / "threads/capture-1.cap"],
                          side_of(sleeps, room))
        write_timelines(database, room)
        system = SystemTrace(database, sleeps)
        for name in (PLAIN, ANDROID):
            check_joined("slept" if sleeps else "awake", tool, room, database, system, name, found[name], fail)
        if sleeps:
            check_clocks(tool, room, database, system, found[PLAIN], fail)
        database.close()


# ---- together with a trace that `traced` wrote meanwhile


# What a trace has: of ours, slices and instants by category, values of counters and flows; what ran; errors; how often
# it has a process by its number; and transactions. Some are of ours, and others of the system.
FACTS = """
INCLUDE PERFETTO MODULE android.binder;
SELECT 'ours: ' || category, count(*) FROM slice WHERE category IN ({0}) GROUP BY 1
UNION ALL SELECT 'ours: counter values', count(*) FROM counter c JOIN process_counter_track k ON k.id = c.track_id
  WHERE k.name GLOB 'binder *'
UNION ALL SELECT 'ours: flows', count(*) FROM flow f JOIN slice o ON o.id = f.slice_out
  JOIN slice i ON i.id = f.slice_in WHERE o.category IN ({0}) AND i.category IN ({0})
UNION ALL SELECT 'system: times that a thread ran', count(*) FROM sched
UNION ALL SELECT 'system: states of threads', count(*) FROM thread_state
UNION ALL SELECT 'system: threads that ran', count(DISTINCT utid) FROM sched
UNION ALL SELECT 'fault: ' || name, value FROM stats WHERE value > 0 AND severity IN ('error', 'data_loss')
UNION ALL SELECT 'process: ' || pid, count(*) FROM process WHERE pid > 0 GROUP BY 1
UNION ALL SELECT 'transactions', count(*) FROM android_binder_txns
UNION ALL SELECT 'states in transactions', count(*) FROM android_sync_binder_thread_state_by_txn"""
CATEGORIES = "SELECT DISTINCT category FROM slice"
# The threads with slices of ours, by their numbers: how many rows each has, and whether the system says that it ran.
OF_THREADS = """
SELECT tid, pid, count(DISTINCT utid), max(utid IN (SELECT utid FROM sched))
FROM thread JOIN process USING (upid) WHERE utid IN (SELECT utid FROM thread_track WHERE id IN (SELECT track_id FROM
  slice WHERE category IN ('call', 'served', 'oneway'))) GROUP BY 1, 2"""
RAN_AT_ALL = "SELECT DISTINCT tid FROM sched JOIN thread USING (utid) WHERE tid > 0"
# By how much two snapshots of the clocks may put one moment at two places of the axis.
APART = 10**6


def facts_of(tool: TraceProcessor, path: pathlib.Path, ours: str) -> dict[str, int]:
    return {name: int(count) for name, count in tool.ask(path, FACTS.format(ours))}


def threads_of(tool: TraceProcessor, path: pathlib.Path) -> list[tuple[str, ...]]:
    return [tuple(one) for one in tool.ask(path, OF_THREADS)]


def some_of(facts: dict[str, int], begin: str) -> dict[str, int]:
    return {name: count for name, count in facts.items() if name.startswith(begin)}


def differing(came: Iterable[tuple], due: Iterable[tuple]) -> list[tuple]:
    """The first ones that only one of them has."""
    return sorted(set(came) ^ set(due))[:3]


def check_beside(tool: TraceProcessor, folder: pathlib.Path, room: pathlib.Path, given: list[pathlib.Path], fail: Fail
                 ) -> None:
    """In each order of both files all is there that either has: slices, counters and flows of ours, at the same times,
    what ran, and each process and each thread once. Behind a trace that was written piece by piece ours comes too late:
    there it only says how much is lost."""
    system, side, *files = given
    database = loaded(folder, room / "beside.db", files, side)
    write_timelines(database, room)
    ran = {tid for tid, in tool.ask(system, RAN_AT_ALL)}
    row("", "of ours", "lost", "threads", "of them ran", "transactions", "states in them")
    for name in (PLAIN, ANDROID):
        categories = ", ".join(f"'{one}'" for one, in tool.ask(room / name, CATEGORIES))
        ours, theirs = (facts_of(tool, path, categories) for path in (room / name, system))
        due = some_of(ours, "ours: ")
        calls = {place: int(ts) for place, ts, _ in tool.ask(room / name, OURS)}
        threads = [(tid, pid, "1", str(int(tid in ran))) for tid, pid, *_ in threads_of(tool, room / name)]
        for path in joined(room, system.read_bytes(), (room / name).read_bytes()):
            told, came, now = f"{name}, {path.name}", facts_of(tool, path, categories), threads_of(tool, path)
            lost = sum(due.values()) - sum(some_of(came, "ours: ").values())
            row(told, sum(due.values()), lost, len(now), sum(one[3] == "1" for one in now), came["transactions"],
                came["states in transactions"])
            compare(f"{told}: the system", some_of(came, "system: "), some_of(theirs, "system: "), fail)
            if path.stem == "theirs-first" and lost:
                continue
            compare(f"{told}: ours", some_of(came, "ours: "), due, fail)
            compare(f"{told}: faults", some_of(came, "fault: "), {}, fail)
            numbers = {**some_of(ours, "process: "), **some_of(theirs, "process: ")}
            compare(f"{told}: processes, how often", differing(some_of(came, "process: ").items(), numbers.items()), [],
                    fail)
            compare(f"{told}: threads, how often, whether they ran", differing(now, threads), [], fail)
            compare(f"{told}: calls at other times", [place for place, ts, _ in tool.ask(path, OURS)
                                                      if abs(int(ts) - calls[place]) > APART][:3], [], fail)
            if name == PLAIN:
                compare(f"{told}: transactions", came["transactions"], theirs["transactions"], fail)
    database.close()


def ask_perfetto(folder: pathlib.Path, room: pathlib.Path, program: pathlib.Path, beside: list[pathlib.Path],
                 fail: Fail) -> None:
    tool = TraceProcessor(program)
    if beside:
        check_beside(tool, folder, room, beside, fail)
        return
    found = {name: Counter() for name in ARGUMENTS}
    check_alone(tool, folder, room, found, fail)
    check_hostile(tool, folder, room, fail)
    check_system(tool, folder, room, found, fail)
    names = dict.fromkeys(name for counts in found.values() for name in counts)
    row("", *ARGUMENTS)
    for name in names:
        row(name, *(counts.get(name, "") for counts in found.values()))
