"""Checks the timeline of `./view --trace`.

    checks/run trace [-- CASE..]   plays these cases alone, as `clock`, `sample/leaks`, or `sample`: all samples
    checks/run trace -- --viewer TRACE_VIEWER FILE..
                                   reads timelines by the importer of chrome://tracing, in Debian's chromium, and prints
                                   what that finds, and what each timeline says of itself; by hand
    checks/run trace -- --picture TRACE_VIEWER PICTURE.png
                                   makes the picture in docs/PAGE.md; by hand
    checks/run trace -- --cost BYTES [TIMES]
                                   prints what the timelines of so many bytes of traffic take, TIMES one after another;
                                   by hand
    checks/run trace -- --perfetto TRACE_PROCESSOR
                                   asks Perfetto's trace processor about timelines of all stored captures, alone and
                                   together with a system trace, and prints what it finds; by hand
    checks/run trace -- --perfetto TRACE_PROCESSOR --beside SYSTEM SIDE CAPTURE..
                                   the same of this capture, with the system trace that was recorded meanwhile

What must hold in both formats, that of Perfetto by a decoder of its own, for stored captures with and without a side
list, of one device and of two, in parts and malformed:

- Slices begin and end in pairs, nest as the calls of the database do, and are at the times of the records that their
  arguments name. The arguments are those of the record.
- There is a slice for each call, each served call, each oneway send and each oneway delivery of the database, and a
  slice of a queue for each oneway transaction that certainly came or whose receiver is certain.
- Flows are the certain pairs of transactions in the database, no others. Each goes from the slice of its send to that
  of its delivery, even if the delivery has an earlier time, and in JSON hangs on no instant.
- The counters end with what the process holds by the database, and reach the most that it held. Those of calls and of
  busy threads are at each time as many as there are slices.
- There is an instant for each death, freeze notification, error, warning of spam, lost frame and end, and for each
  finding that is not normal.
- Two processes of one number on two devices have two tracks in JSON; in Perfetto's format they are one process, and
  their threads of one number one thread, but not if the first one had ended.
- With `boottime=` in the side list all times of JSON are on that clock, also after a sleep; Perfetto's format says what
  the clocks showed.
- In Perfetto's format findings are on tracks of their own, with flows; calls have their stacks; names are told once.
- With the names of Android each transaction and its delivery have them, and say what is called.
- A narrowed timeline has the slices of its thread, process and frames, and the counters of the whole one.
- The walker in C, built with AddressSanitizer and UndefinedBehaviorSanitizer, writes the same bytes; and of databases
  with harmed rows it writes a timeline, or says that these can't be read.
- Names from a stranger are data. An existing file is not overwritten; only the owner can read a timeline; SIGTERM and
  a full disk leave nothing; a malformed capture has what comes before its fault, and status 2. The process that reads
  the database ends with the timeline, also if it was killed.

TRACE_PROCESSOR is trace_processor_shell of Perfetto 56, or a script that calls it; the system trace is made by hand.
TRACE_VIEWER is the file trace_viewer_full.html of Catapult, with webcomponents.min.js beside it. Debian's package
golang-1.19-src has both; its chromium has no chrome://tracing.

It takes some 40 seconds of the processor.
"""

import argparse
import gzip
import os
import pathlib
import re
import signal
import sqlite3
import subprocess
import sys
from collections import Counter
from typing import Iterator
from unittest import mock

from checks.kit.captures import (BC_ACQUIRE, BC_FREE_BUFFER, BC_RELEASE, BC_TRANSACTION, BR_NOOP, BR_REPLY,
                                 BR_TRANSACTION, BR_TRANSACTION_COMPLETE, HEADER, each, each_long, frame, record,
                                 transaction)
from checks.kit.cases import Part, parts_of, play
from checks.kit.checking import Fail, check, compare
from checks.kit.programs import AUDITOR, DRIVER, ROOT, built_programs
from checks.viewer.page.common import loaded, on_one_clock, stored, texts_stored, timeline_of, view
from checks.viewer.timeline.browser import Pictured, make_picture, read_in_chromium
from checks.viewer.timeline.compared import CERTAIN, SLICES, check_json, check_packets, places
from checks.viewer.timeline.cost import print_cost
from checks.viewer.timeline.perfetto import ask_perfetto
from checks.viewer.timeline.read import Read
from checks.viewer.timeline.read_json import ReadJson, nanoseconds
from checks.viewer.timeline.read_packets import ReadPackets, packets_of
from checks.viewer.timeline.walked import (check_harmed, check_walker_ends, check_walker_killed, has_child,
                                           sanitized)
from viewer.database.sqlite import open_database
from viewer.timeline import trace, walk
from viewer.timeline.tracks import Window

# Captures with their side lists. Together they have calls within calls, queues, ends, gaps, refused sends and errors.
WITH_SIDE = ("leaks", "oneway", "threads", "callbacks", "mourned", "held-back", "reuse", "embrace", "gaps", "two",
             "errors", "forgetful", "hello-sessions", "before")
WITHOUT_SIDE = (("two-devices.cap",), ("rotated-1.cap", "rotated-2.cap"), ("refused-send.cap",), ("missing.cap",),
                ("empty.cap",), ("references.cap",))

WITH_FILES = {name: ([DRIVER / name / "capture-1.cap"], DRIVER / name / "capture.side") for name in WITH_SIDE}

PICTURED = Pictured("chain", 4084, 13, 29)


def window_of(database: sqlite3.Connection, process: int | None = None, **others: int) -> Window:
    """A window, with the processes of this number."""
    if process is None:
        return Window(**others)
    upids = tuple(upid for upid, in database.execute("SELECT upid FROM process WHERE process = ?", (process,)))
    return Window(str(process), upids, **others)


def written(database: sqlite3.Connection, path: pathlib.Path, is_android: bool = False, **window: int) -> pathlib.Path:
    path.unlink(missing_ok=True)
    trace.write(database, path, window_of(database, **window), path.name, is_android)
    return path


def read_of(database: sqlite3.Connection, path: pathlib.Path, fail: Fail, **window: int) -> Read:
    """The timeline of a database, in the format of its name. Busy threads are not counted if only some are shown."""
    reader = ReadPackets if ".pftrace" in path.name else ReadJson
    return reader(written(database, path, **window), database, fail, "thread" not in window)


def check_formats(what: str, database: sqlite3.Connection, room: pathlib.Path, fail: Fail
                  ) -> tuple[ReadJson, ReadPackets]:
    """Both formats against the database. Returns what was read."""
    def told(line: str) -> None:
        fail(f"{what}, {line}")
    json = ReadJson(written(database, room / "out.json.gz"), database, told)
    check_json(what, database, json, told)
    packets = ReadPackets(written(database, room / "out.pftrace"), database, told)
    check_packets(what, database, packets, told)
    return json, packets


# ---- the stored captures


def check_sample(folder: pathlib.Path, room: pathlib.Path, files: list[pathlib.Path], side: pathlib.Path | None,
                 fail: Fail) -> None:
    what = " ".join(str(path.relative_to(ROOT / "samples")) for path in files)
    database = loaded(folder, room / f"{what.replace('/', '-')}.db", files, side)
    json, packets = check_formats(what, database, room, fail)
    if what == "two-devices.cap":
        check_devices(database, json, packets, fail)
    if files[0].parent.name in ("threads", "oneway", "callbacks"):
        for name in ("out.json.gz", "out.pftrace.gz"):
            check_narrow(f"{what}, {name}", database, room / name, fail)
    if files[0].parent.name in ("threads", "oneway", "hello-sessions"):
        check_android(what, database, room, fail)
    database.close()


def check_devices(database: sqlite3.Connection, json: ReadJson, packets: ReadPackets, fail: Fail) -> None:
    """Processes of one number on two devices have two tracks in JSON, each of which says its device, and are one
    process of the system in the other format."""
    labels = {pid: label for (kind, pid, _), label in json.names.items() if kind == "process_labels"}
    due = Counter(f"device {device}" for device, in database.execute("SELECT device FROM process"))
    compare("two devices: labels", Counter(labels.values()), due, fail)
    numbers, = database.execute("SELECT count(DISTINCT process) FROM process").fetchone()
    compare("two devices: the capture has one number twice", numbers < len(labels), True, fail)
    device = dict(database.execute("SELECT place, 'device ' || device FROM record JOIN process USING (upid)"))
    compare("two devices: slices on the tracks of another device",
            [s.args for s in json.slices if labels[s.track[0]] != device[s.args["place"]]], [], fail)
    compare("two devices: processes of the system", Counter(map(len, packets.pids.values())), Counter({1: numbers}),
            fail)


def check_android(what: str, database: sqlite3.Connection, room: pathlib.Path, fail: Fail) -> None:
    """Each transaction and its delivery have the names of Android, and what came, and what names an interface, has a
    slice that says what is called."""
    names = {"call": {"binder transaction"}, "served": {"binder reply"},
             "oneway": {"binder transaction async", "binder async rcv"}}
    read = ReadPackets(written(database, room / "android.pftrace", True), database,
                       lambda line: fail(f"{what}: {line}"), False)
    slices = [one for one in read.slices if one.cat != "aidl"]
    for cat, query in SLICES.items():
        compare(f"{what}, Android, {cat}", sorted(s.args["place"] for s in slices if s.cat == cat),
                places(database, query), fail)
        compare(f"{what}, Android, names of {cat}", {s.name for s in slices if s.cat == cat} <= names[cat], True, fail)
    compare(f"{what}, Android, flows", sorted([s.args["place"] for s in pair] for pair in read.flows.values()),
            [[*pair] for pair in database.execute(f"SELECT place, delivery FROM send WHERE place IN ({CERTAIN})"
                                                  " ORDER BY place")], fail)
    told = [one.name.split("::") for one in read.slices if one.cat == "aidl"]
    compare(f"{what}, Android, parts of names", {(len(parts), *parts[:2]) for parts in told} <= {(5, "AIDL", "binder")},
            True, fail)
    known = sum("interface" in one.args for one in slices)
    unknown = sum(one.name == "binder async rcv" and "interface" not in one.args for one in slices)
    compare(f"{what}, Android, slices of what is called", Counter(parts[-1] for parts in told),
            Counter(client=sum("interface" in one.args for one in slices if "transaction" in one.name),
                    server=sum("interface" in one.args for one in slices if "transaction" not in one.name) + unknown)
            if known or unknown else Counter(), fail)


# ---- narrowed timelines


def windows_of(database: sqlite3.Connection, whole: Read) -> list[dict[str, int]]:
    """Windows on the busiest thread, and on a third of the frames, by the numbers of the capture."""
    first, last = database.execute("SELECT first_seq, last_seq FROM raw_capture").fetchone()
    cut = first + (last - first) // 3, first + 2 * (last - first) // 3
    _, utid = Counter(whole.owner[s.args["place"]] for s in whole.slices).most_common(1)[0][0]
    process, thread = database.execute("SELECT process, thread FROM thread WHERE utid = ?", (utid,)).fetchone()
    return [{"process": process}, {"thread": thread}, {"process": process, "thread": thread}, {"first": cut[0]},
            {"last": cut[1]}, {"first": cut[0], "last": cut[1]}, {"process": process, "first": cut[0], "last": cut[1]},
            {"process": 7}]


def check_narrow(what: str, database: sqlite3.Connection, path: pathlib.Path, fail: Fail) -> None:
    whole = read_of(database, path, fail)
    last, = database.execute("SELECT last_seq FROM raw_capture").fetchone()
    for window in windows_of(database, whole):
        read = read_of(database, path, lambda line: fail(f"{what}, {window}: {line}"), **window)
        compare(f"{what}, {window}", sorted(s.args["place"] for s in read.slices),
                due_in(database, window), fail)
        begun = dict(database.execute("SELECT place, seq FROM record"))
        for one in read.slices:
            compare(f"{what}, {window}, {one.args}", one.args.get("begin") == "before --from",
                    begun[one.args["place"]] < window.get("first", 0), fail)
        ends = {s.args.get("end") for s in read.slices}
        compare(f"{what}, {window}, ends", ends - {None, "its thread ended", "its process ended",
                                                   "the call around it ended"} <=
                ({"after --to"} if "last" in window else {"open at the end"}), True, fail)
        after, = database.execute("SELECT min(ts) FROM frame WHERE seq > ?", (window.get("last", last),)).fetchone()
        cut = {s.end - read.shift for s in read.slices if s.args.get("end") == "after --to"}
        compare(f"{what}, {window}, when it ends", cut <= {after}, True, fail)
        shown = {upid for upid, process, thread in database.execute("SELECT upid, process, thread FROM thread")
                 if (window.get("process", process), window.get("thread", thread)) == (process, thread)}
        if "last" not in window:
            compare(f"{what}, {window}, counters", {k: v for k, v in read.last.items() if v},
                    {k: v for k, v in whole.last.items() if k[0] in shown and v}, fail)
        compare(f"{what}, {window}, processes of counters", {upid for upid, _ in read.last} <= shown, True, fail)
        between = dict(database.execute("SELECT s.place, d.seq FROM send s JOIN record d ON d.place = s.delivery"))
        tracks = {s.track for s in read.slices}
        flows = sorted(pair[0].args["place"] for pair in read.flows.values())
        compare(f"{what}, {window}, flows", flows,
                sorted(ends[0].args["place"] for ends in whole.flows.values()
                       if all(end.track in tracks for end in ends)
                       and begun[ends[0].args["place"]] >= window.get("first", 0)
                       and between[ends[0].args["place"]] <= window.get("last", last)), fail)


# ---- a small capture


def small_capture() -> bytes:
    """What the stored captures do not have: a oneway transaction that two processes may have sent, and that is not
    freed before its thread takes the next; one that another thread frees while its own thread makes a call; and one
    within a call that ends before it is freed. A reference is let go more often than it was taken."""
    oneway = {"code": 5, "flags": 1}
    confirmed = [record(BR_NOOP), record(BR_TRANSACTION_COMPLETE)]
    steps = [
        (1, 10, 10, [transaction(BC_TRANSACTION, target=1, **oneway)]),
        (1, 30, 30, [transaction(BC_TRANSACTION, target=1, **oneway)]),
        (2, 10, 10, confirmed), (2, 30, 30, confirmed),
        (2, 20, 21, [transaction(BR_TRANSACTION, buffer=0x1000, **oneway)]),
        (2, 20, 21, [transaction(BR_TRANSACTION, buffer=0x2000, **oneway)]),
        (1, 20, 22, each_long(BC_FREE_BUFFER, 0x1000)),
        (1, 20, 21, [transaction(BC_TRANSACTION, target=3, code=7)]),
        (1, 20, 22, each_long(BC_FREE_BUFFER, 0x2000)),
        (2, 20, 21, [*confirmed, transaction(BR_TRANSACTION, code=6, flags=1, buffer=0x3000)]),
        (2, 20, 21, [transaction(BR_REPLY, buffer=0x4000)]),
        (1, 20, 21, each_long(BC_FREE_BUFFER, 0x3000, 0x4000)),
        (1, 30, 30, [*each(BC_RELEASE, 9), *each(BC_ACQUIRE, 9, 9), *each(BC_RELEASE, 9)])]
    return HEADER + b"".join(frame(direction, number, process, thread, records)
                             for number, (direction, process, thread, records) in enumerate(steps, 1))


def check_small(folder: pathlib.Path, room: pathlib.Path, fail: Fail) -> None:
    (room / "small.cap").write_bytes(small_capture())
    database = loaded(folder, room / "small.db", [room / "small.cap"], None)
    json, packets = check_formats("the small capture", database, room, fail)
    compare("the small capture, pairs that are not certain",
            database.execute("SELECT count(*) FROM send WHERE delivery NOTNULL AND NOT certain").fetchone(), (2,), fail)
    for read in (json, packets):
        came = [(s.name, s.begin // 1000, s.end // 1000, s.args.get("end")) for s in read.slices if s.track[1] == 21]
        compare("the small capture, slices", came,
                [("serve oneway code 5", 5, 6, None), ("serve oneway code 5", 6, 11, None),
                 ("call code 7", 8, 11, None), ("serve oneway code 6", 10, 11, "the call around it ended")], fail)
    database.close()


def due_in(database: sqlite3.Connection, window: dict[str, int]) -> list[int]:
    """The places of the slices that a window has: those that are not over before it, and do not begin after it. A
    oneway transaction is over with its buffer, with the next one of its thread, or with the call around it."""
    found = []
    for place, seq, thread, process, end in database.execute(
            "SELECT r.place, r.seq, thread, process, c.closer_seq FROM call c JOIN record r USING (place)"
            " JOIN thread t ON t.utid = c.utid UNION ALL"
            " SELECT s.place, s.seq, thread, process, s.seq FROM send s JOIN thread USING (utid) WHERE oneway AND kind"
            " LIKE 'BC_TRANSACTION%' UNION ALL"
            " SELECT d.place, d.seq, thread, process, (SELECT min(x) FROM (SELECT d.seq + d.dur_seq AS x UNION ALL"
            "   SELECT min(e.seq) FROM delivery e WHERE e.utid = d.utid AND e.place > d.place AND kind LIKE"
            "   'BR_TRANSACTION%' UNION ALL SELECT c.closer_seq FROM call c WHERE c.utid = d.utid AND c.place < d.place"
            "   AND c.closer > d.place)) FROM delivery d JOIN thread USING (utid) WHERE oneway"):
        if (window.get("process", process), window.get("thread", thread)) == (process, thread) \
                and seq <= window.get("last", seq) and (end is None or end >= window.get("first", 0)
                                                        or seq >= window.get("first", 0)):
            found.append(place)
    return sorted(found)


# ---- the program


def check_words(folder: pathlib.Path, room: pathlib.Path, fail: Fail) -> None:
    capture, *_ = stored("leaks")
    for words in (("--trace",), ("--thread", 1), ("--from", 1, "-o", "a.html"), ("--trace", "a.json.gz", "--to", "x"),
                  ("--call", 16, "--process", "service"), ("--trace", "a.json.gz", "--thread", 2**64),
                  ("--trace", "a.json"), ("--trace", "a.gz"), ("--names", "android"),
                  ("--trace", "a.json.gz", "--names", "android"), ("--trace", "a.pftrace", "--names", "linux")):
        compare(f"words {words}", view(folder, room, capture, *words)[0], 64, fail)
    (room / "there.json.gz").write_text("kept", "utf-8")
    compare("an existing file", view(folder, room, capture, "--trace", "there.json.gz"),
            (1, "", "view: there.json.gz exists already\n"), fail)
    compare("a folder that is not there", view(folder, room, capture, "--trace", "no/a.json.gz")[0], 4, fail)
    due = ["there.json.gz"]
    for name, begin in (("a.json.gz", b"\x1f\x8b"), ("a.pftrace", b"\x0a"), ("a.pftrace.gz", b"\x1f\x8b")):
        compare(f"no such process, {name}", view(folder, room, *stored("leaks"), "--trace", name, "--process", 1),
                (1, "", "view: --process: the capture has no process 1\n"), fail)
        told = view(folder, room, *stored("leaks"), "--trace", name, "--thread", 1)
        compare(f"no such thread, {name}", told, (0, "", "view: the capture has no thread that is asked for, so the"
                                                  " timeline is empty\n"), fail)
        compare(f"the beginning of {name}", (room / name).read_bytes()[:len(begin)], begin, fail)
        compare(f"who can read {name}", (room / name).stat().st_mode & 0o777, 0o600, fail)
        due.append(name)
    compare("its events", timeline_of(room / "a.json.gz").get("traceEvents"), [], fail)
    view(folder, room, *stored("leaks"), "--trace", "b.pftrace", "--names", "android")
    compare("names", any(b"binder transaction" in packet for packet in packets_of(room / "b.pftrace")), True, fail)
    compare("what is left", sorted(path.name for path in room.iterdir()), sorted([*due, "b.pftrace"]), fail)
    compare("the existing file", (room / "there.json.gz").read_text("utf-8"), "kept", fail)


def check_malformed(folder: pathlib.Path, room: pathlib.Path, fail: Fail) -> None:
    """A malformed capture has what comes before its fault; here a capture that is cut within a frame."""
    whole, _ = texts_stored("threads")
    for name, data in (("cut", whole[:len(whole) // 2 + 3]), ("none", b"no capture"),
                       ("bad", whole[:len(whole) // 2 // 4 * 4])):
        (room / f"{name}.cap").write_bytes(data)
        status, _, _ = view(folder, room, f"{name}.cap", "--trace", f"{name}.pftrace", "--database", f"{name}.db")
        compare(f"{name}, status", status, 2, fail)
        database = open_database(room / f"{name}.db")
        check_packets(name, database, ReadPackets(room / f"{name}.pftrace", database, fail), fail)
        for read in check_formats(name, database, room, fail):
            compare(f"{name}, the fault", str(read.told.get("malformed")).split(" ")[0], "malformed", fail)
            compare(f"{name}, slices", bool(read.slices), name != "none", fail)
        database.close()


HOSTILE = '"},{"ph":"B\\x09\\x0a</script>\u202e\U0001f600'


def check_hostile(folder: pathlib.Path, room: pathlib.Path, fail: Fail) -> None:
    _, side = texts_stored("leaks")
    (room / "hostile.side").write_text(re.sub("name=(manager|service)$", lambda _: "name=" + HOSTILE, side,
                                              flags=re.MULTILINE), "utf-8")
    database = loaded(folder, room / "hostile.db", [DRIVER / "leaks/capture-1.cap"], room / "hostile.side")
    json, packets = check_formats("hostile names", database, room, fail)
    compare("a sign that is written as two", b"\\ud83d" in gzip.decompress((room / "out.json.gz").read_bytes()), False,
            fail)
    name = HOSTILE.replace("\\x09", "\t").replace("\\x0a", "\n")
    compare("hostile names", sorted(pid for (kind, pid, _), told in json.names.items()
                                    if told == name and kind == "process_name"), [173, 176], fail)
    compare("hostile names of threads", sorted(tid for (_, tid), told in packets.tids.items() if told == name),
            [173, 176], fail)
    database.close()


AHEAD, SLEPT = 5_000_000_123, 50_000_000_000


def check_clock(folder: pathlib.Path, room: pathlib.Path, fail: Fail) -> None:
    """With CLOCK_BOOTTIME in the side list all times of JSON are on that clock, as far as it was ahead then: more after
    a sleep. Nothing else is another. In Perfetto's format the times stay, and it says what the clocks showed."""
    side = on_one_clock(texts_stored("leaks")[1])
    lines = side.splitlines()
    begin = next(int(line.split()[0]) for line in lines if " begin " in line)
    woke = begin + 800_000_000
    for name, more in (("awake", []), ("slept", [f"{woke} clocks realtime=7 boottime={woke + AHEAD + SLEPT}",
                                                 f"{woke + 1} later words=of a newer list"])):
        told = [line.replace(" begin ", f" begin boottime={begin + AHEAD} ") for line in lines]
        (room / f"{name}.side").write_text("\n".join(told[:-1] + more + told[-1:]) + "\n", "utf-8")
    (room / "plain.side").write_text(side, "utf-8")
    read: dict[str, tuple[ReadJson, ReadPackets]] = {}
    for name in "plain", "awake", "slept":
        database = loaded(folder, room / f"{name}.db", [DRIVER / "leaks/capture-1.cap"], room / f"{name}.side")
        read[name] = ReadJson(written(database, room / "clock.json.gz"), database, fail), \
            ReadPackets(written(database, room / "clock.pftrace"), database, fail)
        database.close()
    plain = [event for event in read["plain"][0].events]
    for name, slept in (("awake", 0), ("slept", SLEPT)):
        came = read[name][0].events
        at = [nanoseconds(event["ts"]) if "ts" in event else 0 for event in plain]
        due = [ns + (ns > 0) * (AHEAD + (slept if ns >= woke else 0)) for ns in at]
        compare(f"times on CLOCK_BOOTTIME, {name}",
                [nanoseconds(event["ts"]) if "ts" in event else 0 for event in came], due, fail)
        compare(f"events on CLOCK_BOOTTIME, {name}", [{**event, "ts": 0} for event in came],
                [{**event, "ts": 0} for event in plain], fail)
        compare(f"the axis, {name}", str(read[name][0].told["axis"]).split()[0], "CLOCK_BOOTTIME", fail)
        compare(f"times in Perfetto's format, {name}", [(s.begin, s.end) for s in read[name][1].slices],
                [(s.begin, s.end) for s in read["plain"][1].slices], fail)
    compare("some are before and after the sleep", len({nanoseconds(event["ts"]) < woke for event in plain
                                                        if "ts" in event}), 2, fail)
    clocks = [[clock.get(6) for clock in packets.clocks] for _, packets in read.values()]
    compare("what the clocks showed", clocks,
            [[None], [begin + AHEAD], [begin + AHEAD, woke + AHEAD + SLEPT]], fail)


def check_early(folder: pathlib.Path, room: pathlib.Path, fail: Fail) -> None:
    """A delivery of a certain pair that was timed before its send is put at the time of its send, and counted."""
    capture, _, side = stored("lookups")
    database = loaded(folder, room / "early.db", [capture], side)
    pairs = database.execute(
        "SELECT s.place, s.ts, d.seq, (SELECT max(ts) FROM frame f WHERE f.utid = d.utid AND f.seq < d.seq) FROM send s"
        f" JOIN record d ON d.place = s.delivery WHERE s.place IN ({CERTAIN}) ORDER BY s.place").fetchall()
    # Not those of which the thread did something else after the send: their times are raised anyway.
    moved = [(place, ts, seq) for place, ts, seq, before in pairs if before is not None and before < ts - 2000][::2]
    database.executemany("UPDATE side_time SET ts = ? WHERE seq = ?", [(ts - 2000, seq) for _, ts, seq in moved])
    for name in ("early.json.gz", "early.pftrace"):
        read = read_of(database, room / name, fail)
        compare(f"{name}: deliveries that were raised", read.told["deliveries_before_their_send"] >= len(moved) > 3,
                True, fail)
        begins = {pair[0].args["place"]: [end.begin for end in pair] for pair in read.flows.values()}
        compare(f"{name}: flows", sorted(begins), [place for place, *_ in pairs], fail)
        compare(f"{name}: flows that go back", [pair for pair in begins.values() if pair[0] > pair[1]], [], fail)
        compare(f"{name}: when these came", {begins[place][1] - begins[place][0] for place, *_ in moved}, {0}, fail)
    database.close()


def check_instants_last(folder: pathlib.Path, room: pathlib.Path, fail: Fail) -> None:
    """A finding in a frame before a send of that frame has no flow of the send: in JSON it is written after it."""
    database = loaded(folder, room / "last.db", *WITH_FILES["threads"])
    found, = database.execute("SELECT min(f.id) FROM finding f WHERE utid NOTNULL").fetchone()
    send, seq, utid = database.execute(
        f"SELECT s.place, s.seq, s.utid FROM send s WHERE s.place IN ({CERTAIN}) AND s.place > (SELECT min(place) FROM"
        " record r WHERE r.seq = s.seq) ORDER BY s.place").fetchone()
    database.execute("UPDATE finding SET place = (SELECT min(place) FROM record WHERE seq = :seq), seq = :seq,"
                     " utid = :utid, lead = NULL, rule = 'U2' WHERE id = :found",
                     {"seq": seq, "utid": utid, "found": found})
    read = ReadJson(written(database, room / "last.json.gz"), database, fail)
    compare("the slice of the flow", [getattr(end, "args", {}).get("place") for end in read.flows[send]][:1], [send],
            fail)
    compare("the finding of its frame", [i.cat for i in read.instants if i.args.get("rule") == "U2"
                                         and i.args["place"] < send][-1:], ["finding,real"], fail)
    database.close()


def check_reused(folder: pathlib.Path, room: pathlib.Path, fail: Fail) -> None:
    """A process that opens a device again is one process of the system, whose threads are one thread each. If the first
    one and its threads had ended before, it is another process that got its number."""
    for ended, count in ((False, 1), (True, 2)):
        side = texts_stored("leaks")[1]
        pid, other = re.findall(r" process 0 (\d+) pid", side)[1:3]
        side = re.sub(rf"(process 0 {other}) pid={other} ", rf"\1 pid={pid} ", side)
        side = re.sub(rf"(thread 0 {other} {other}) pid={other} tid={other} ", rf"\1 pid={pid} tid={pid} ", side)
        if not ended:
            side = re.sub(rf"^\d+ end (thread 0 {pid} .*|opening 0 {pid} .*|pid {pid} .*)\n", "", side, flags=re.M)
        else:
            opened = re.search(rf"^(\d+) process 0 {other} ", side, re.M)
            side = re.sub(rf"^\d+ (end (?:thread 0 {pid}|opening 0 {pid}|pid {pid}) )", rf"{opened[1]} \1", side,
                          flags=re.M)
        (room / "reused.side").write_text(side, "utf-8")
        database = loaded(folder, room / f"reused-{count}.db", [DRIVER / "leaks/capture-1.cap"], room / "reused.side")
        read = ReadPackets(written(database, room / "reused.pftrace"), database, fail)
        compare(f"a number again, ended {ended}", len(read.pids[int(pid)]), count, fail)
        compare(f"a number again, ended {ended}, slices", len(read.slices),
                database.execute("SELECT count(*) FROM call").fetchone()[0], fail)
        database.close()


def check_order(folder: pathlib.Path, room: pathlib.Path, fail: Fail) -> None:
    """Times that go back, and frames without one: slices nest, and the timeline says how many such frames there are."""
    lines = texts_stored("nested")[1].splitlines(keepends=True)
    frames = [at for at, line in enumerate(lines) if re.match(r"\d+ frame \d+$", line)]
    for at in frames[10::7]:
        lines[at] = re.sub(r"^\d+", lambda found: str(int(found[0]) - 10**8), lines[at])
    (room / "odd.side").write_text("".join(lines), "utf-8")
    database = loaded(folder, room / "odd.db", [DRIVER / "nested/capture-1.cap"], room / "odd.side")
    database.execute("DELETE FROM side_time WHERE seq % 11 = 5")
    for name in ("odd.json.gz", "odd.pftrace"):
        read = read_of(database, room / name, fail)
        compare(f"{name}: slices", len(read.slices), database.execute("SELECT count(*) FROM call").fetchone()[0], fail)
        odd = [read.told[f"frames_with{which}_time"] > 0 for which in ("out", "_earlier")]
        compare(f"{name}: frames", odd, [True, True], fail)
    database.close()


# Runs ./view, to which something happens when so many times something was handed over to the file.
HAPPENS_AT = """
import os, runpy, signal, sys
from viewer.timeline import packed
at, happens, count, written = int(sys.argv[1]), sys.argv[2], 0, packed.File.add
def add(self, data):
    global count
    written(self, data)
    count += 1
    if count == at:
        exec(happens)
packed.File.add = add
sys.argv = sys.argv[3:]
runpy.run_path(sys.argv[0], run_name="__main__")
"""
SIGTERM, FULL = "os.kill(os.getpid(), signal.SIGTERM)", "raise OSError(28, 'No space left on device')"


def check_stopped(folder: pathlib.Path, room: pathlib.Path, fail: Fail) -> None:
    """SIGTERM while a timeline is written leaves nothing, neither beside it nor in TMPDIR. Nor does a full disk, of
    which a line tells."""
    (room / "tmp").mkdir()
    for at, name, happens, due in (
            (1, "stopped.json.gz", SIGTERM, (143, "")), (2, "stopped.json.gz", SIGTERM, (143, "")),
            (1, "stopped.pftrace", SIGTERM, (143, "")),
            (1, "full.pftrace", FULL, (4, "view: full.pftrace: No space left on device\n"))):
        words = [folder / "view", DRIVER / "gaps/capture-1.cap", "--no-side", "--trace", name]
        ended = subprocess.run([sys.executable, "-c", HAPPENS_AT, str(at), happens, *words], cwd=room,
                               env={**os.environ, "TMPDIR": str(room / "tmp")}, stderr=subprocess.PIPE,
                               encoding="utf-8")
        left = sorted(path.name for path in room.rglob("*"))
        compare(f"{name}, stopped at {at}", (ended.returncode, ended.stderr, left), (*due, ["tmp"]), fail)


def check_reader(folder: pathlib.Path, room: pathlib.Path, fail: Fail) -> None:
    """No process is left after a narrowed timeline, for which not all rows need be read, and after one of a database
    that lacks a table, which ends with an error."""
    database = loaded(folder, room / "reader.db", [DRIVER / "gaps/capture-1.cap"], None)
    first, = database.execute("SELECT first_seq FROM raw_capture").fetchone()
    written(database, room / "narrow.json.gz", last=first)
    compare("a process after a narrowed timeline", has_child(), False, fail)
    database.execute("DROP TABLE raw_send")
    try:
        written(database, room / "lacks.json.gz")
        came = "a timeline"
    except sqlite3.Error as error:
        came = str(error)
    compare("a database that lacks a table", (came, has_child()), ("its rows can't be read", False), fail)
    database.close()


# Is killed while another process makes lists without end.
KILLED = """
import os, signal
from viewer.piped import Piped
def make(send):
    while True:
        send([(0,)])
with Piped(make) as lists:
    next(lists)
    os.kill(os.getpid(), signal.SIGKILL)
"""


def check_killed(_: pathlib.Path, __: pathlib.Path, fail: Fail) -> None:
    """SIGKILL leaves no process: who writes into a pipe that nobody reads ends."""
    killed = subprocess.Popen([sys.executable, "-Bc", KILLED], cwd=ROOT, start_new_session=True,
                              stdout=subprocess.PIPE)
    try:
        killed.communicate(timeout=60)  # the output ends when no process has it any more
        is_left = False
    except subprocess.TimeoutExpired:
        os.killpg(killed.pid, signal.SIGKILL)
        is_left = True
    compare("what was killed: its status, and whether a process is left", (killed.wait(), is_left),
            (-signal.SIGKILL, False), fail)


def all_written(database: sqlite3.Connection, room: pathlib.Path, windows: list[dict[str, int]]) -> list[bytes]:
    """Timelines in all formats."""
    return [written(database, room / name, is_android, **window).read_bytes() for window in windows
            for name, is_android in (("out.json.gz", False), ("out.pftrace", False), ("out.pftrace", True))]


def check_walker(folder: pathlib.Path, room: pathlib.Path, fail: Fail) -> None:
    """The walker with sanitizers, also of times that go back, of frames without one, and of deliveries before their
    sends; and what can fail."""
    for name in ("oneway", "hello-sessions", "two", "errors", "embrace"):
        database = loaded(folder, room / f"{name}.db", *WITH_FILES[name])
        database.execute("UPDATE side_time SET ts = ts - 3000000 WHERE seq % 7 = 3")
        database.execute("DELETE FROM side_time WHERE seq % 11 = 5")
        whole = ReadPackets(written(database, room / "whole.pftrace"), database, fail)
        windows = [{}, *(windows_of(database, whole) if name == "oneway" else [])]
        due = all_written(database, room, windows)
        with sanitized(room, fail):
            compare(f"{name}, with sanitizers", all_written(database, room, windows) == due, True, fail)
        database.close()
    database = open_database(room / "oneway.db")
    check_walker_ends(database, room, written, fail)
    database.close()
    with sanitized(room, fail):
        check_harmed(room / "oneway.db", room, written, fail)
    check_walker_killed(room / "oneway.db", room, fail)


def check_remembered(folder: pathlib.Path, room: pathlib.Path, fail: Fail) -> None:
    """A timeline is the same if little is remembered of what is called, so that what was told has to be told again."""
    database = loaded(folder, room / "remembered.db", *WITH_FILES["hello-sessions"])
    ways = [("out.json.gz", False), ("out.pftrace", False), ("out.pftrace", True)]
    due = [written(database, room / name, is_android).read_bytes() for name, is_android in ways]
    with mock.patch.object(walk, "REMEMBERED", 1):
        came = [written(database, room / name, is_android).read_bytes() for name, is_android in ways]
    compare("what is remembered makes no difference", [one == two for one, two in zip(came, due)], [True] * 3, fail)
    database.close()


# ---- all of it


def parts() -> Iterator[Part]:
    for name, files in WITH_FILES.items():
        yield Part(f"sample/{name}", check_sample, files)
    for names in WITHOUT_SIDE:
        yield Part(f"sample/{names[0]}", check_sample, ([ROOT / "samples" / name for name in names], None))
    yield Part("sample/ends", check_sample, ([DRIVER / "ends/capture-1.cap"], None))
    yield from parts_of(check_small, check_words, check_malformed, check_hostile, check_clock, check_early,
                        check_instants_last, check_reused, check_order, check_stopped, check_reader, check_killed,
                        check_walker, check_remembered)


def picture_of_sample(room: pathlib.Path, viewer: str, picture: pathlib.Path) -> None:
    """The picture in docs/PAGE.md."""
    view(built_programs(room, AUDITOR), room, *stored(PICTURED.name), "--trace", "out.json.gz")
    make_picture(room, viewer, room / "out.json.gz", PICTURED, picture)


def judge(given: argparse.Namespace, room: pathlib.Path, fail: Fail) -> None:
    if given.viewer:
        read_in_chromium(room, given.viewer[0], given.viewer[1:])
    elif given.picture:
        picture_of_sample(room, given.picture[0], pathlib.Path(given.picture[1]))
    elif given.cost:
        print_cost(room, *given.cost)
    elif given.perfetto:
        ask_perfetto(built_programs(room, given.programs[0]), room, given.perfetto, given.beside, fail)
    else:
        play((part for part in parts() if part.name in given.cases), built_programs(room, given.programs[0]), room,
             fail)


if __name__ == "__main__":
    check(judge, lambda: [part.name for part in parts()], viewer={"nargs": "+"}, picture={"nargs": 2},
          cost={"nargs": "+", "type": int},
          perfetto={"type": pathlib.Path}, beside={"nargs": "+", "type": pathlib.Path})
