"""A timeline against its database."""

import sqlite3
from collections import Counter

from checks.kit.checking import Fail, compare
from checks.viewer.timeline.read import Read
from checks.viewer.timeline.read_json import ReadJson
from checks.viewer.timeline.read_packets import ReadPackets

# What is in the database, by the categories of slices and instants.
SLICES = {
    "call": "SELECT place FROM call WHERE side = 'made'",
    "served": "SELECT place FROM call WHERE side = 'served'",
    "oneway": "SELECT place FROM send WHERE oneway AND kind LIKE 'BC_TRANSACTION%' UNION ALL"
              " SELECT place FROM delivery WHERE oneway"}
INSTANTS = {
    "death": "SELECT place FROM record WHERE kind = 'BR_DEAD_BINDER'",
    "freeze": "SELECT place FROM record WHERE kind = 'BR_FROZEN_BINDER'",
    "error": "SELECT place FROM record WHERE kind IN"
             " ('BR_ERROR', 'BR_DEAD_REPLY', 'BR_FAILED_REPLY', 'BR_FROZEN_REPLY')",
    "spam": "SELECT place FROM record WHERE kind = 'BR_ONEWAY_SPAM_SUSPECT'",
    **{f"finding,{verdict}": "SELECT place FROM finding f JOIN rule r ON r.id = f.rule WHERE place NOTNULL AND"
       f" verdict = '{verdict}'" for verdict in ("real", "maybe", "explained")}}
CERTAIN = "SELECT place FROM send WHERE certain AND delivery NOTNULL AND kind LIKE 'BC_TRANSACTION%'"
QUEUES = ("SELECT s.place FROM send s LEFT JOIN node_of n USING (generation) WHERE s.oneway AND kind LIKE"
          " 'BC_TRANSACTION%' AND iif(s.delivery IS NULL, outcome <> 'refused' AND n.certain, s.certain)")


# Arguments of some slices.
OTHERS = {
    "interface": "SELECT place, interface FROM record WHERE interface NOTNULL AND code NOTNULL",
    "refused": "SELECT place, refused FROM send WHERE refused NOTNULL AND oneway",
    "from": "SELECT s.delivery, who FROM send s JOIN who USING (upid)"
            " WHERE s.certain AND s.kind LIKE 'BC_TRANSACTION%'",
    "to": "SELECT s.place, who || iif(n.certain, '', ', not certain') FROM send s JOIN node_of n USING (generation)"
          " JOIN who w ON w.upid = n.upid"}
# Arguments of slices that do not come of the records alone. The interface does if the data name it.
INFERRED = {"service", "interface", "method", "begin", "end"}


def places(database: sqlite3.Connection, query: str) -> list[int]:
    return sorted(place for place, in database.execute(query))


def is_timed(database: sqlite3.Connection) -> bool:
    return bool(database.execute("SELECT count(ts) FROM frame").fetchone()[0])


def fields_of(database: sqlite3.Connection) -> dict[int, dict[str, object]]:
    """The arguments of each slice that come from its record."""
    found: dict[int, dict[str, object]] = {}
    for place, seq, handle, ptr, cookie, code, sender, size in database.execute(
            "SELECT place, seq, handle, ptr, cookie, code, sender_pid, data_size FROM record WHERE code NOTNULL"):
        told = {"place": place, "seq": seq % 2**64, "code": code, "data_size": size}
        found[place] = {**told, "handle": handle} if ptr is None else \
            {**told, "ptr": hex(ptr % 2**64), "cookie": hex(cookie % 2**64), "sender_pid": sender}
    for place, verdict, closer in database.execute("SELECT place, verdict, closer FROM call"):
        found[place] |= {"verdict": verdict} | ({} if closer is None else {"closer": closer})
    for name, query in OTHERS.items():
        for place, value in database.execute(query):
            found[place][name] = value
    for place, delivery, fits in database.execute(
            "SELECT place, delivery, fits FROM send WHERE certain AND kind LIKE 'BC_TRANSACTION%'"):
        more = {} if fits == 1 else {"fits": fits}
        found[place] |= {"delivery": delivery} | more
        found[delivery] |= {"send": place} | more
    return found


def check_slices(what: str, database: sqlite3.Connection, read: Read, fail: Fail) -> None:
    for cat, query in SLICES.items():
        compare(f"{what}, slices {cat}", sorted(s.args["place"] for s in read.slices if s.cat == cat),
                places(database, query), fail)
    timed, told, fields = is_timed(database), read.told, fields_of(database)
    first = told.get("frame_at_zero", 0)
    at = {place: (ts + read.shift if timed else 1000 * (seq - first), read.thread_of(upid, thread, tid))
          for place, ts, seq, upid, thread, tid in database.execute(
              "SELECT place, ts, seq, r.upid, thread, tid FROM record r JOIN thread USING (utid)")}
    closers = dict(database.execute("SELECT place, closer FROM call"))
    ended = {place for place, in database.execute(
        "SELECT place FROM call JOIN thread t USING (utid) JOIN process p ON p.upid = t.upid, raw_capture c"
        " WHERE closer IS NULL AND min(coalesce(t.ended_after, 1e18), coalesce(p.ended_after, 1e18)) <= c.last_seq")}
    parents = dict(database.execute("SELECT place, parent FROM call"))
    for one in read.slices:
        place = one.args["place"]
        compare(f"{what}, the beginning of {one.args}", (one.begin, one.track), at[place], fail)
        came = {name: value for name, value in one.args.items() if name not in INFERRED or name in fields[place]}
        compare(f"{what}, the arguments at {place}", came, fields[place], fail)
        closer = closers.get(place)
        if closer is not None:
            compare(f"{what}, the end of {one.args}", (one.end, one.args.get("end")), (at[closer][0], None), fail)
        elif one.cat in ("call", "served"):
            compare(f"{what}, why {one.args} ends", one.args["end"] == "open at the end", place not in ended, fail)
        if one.cat in ("call", "served"):
            outer = one.outer
            while outer and outer.cat not in ("call", "served"):
                outer = outer.outer
            compare(f"{what}, what {place} is in", outer.args["place"] if outer else None, parents[place], fail)


def check_flows(what: str, database: sqlite3.Connection, read: Read, fail: Fail) -> None:
    delivery = dict(database.execute("SELECT place, delivery FROM send"))
    ends = sorted(tuple(one.args["place"] if one else None for one in pair) for pair in read.flows.values())
    compare(f"{what}, flows", ends, [(send, delivery[send]) for send in places(database, CERTAIN)], fail)
    for pair in read.flows.values():
        if None not in pair and pair[0].begin > pair[-1].begin:
            fail(f"{what}, a flow goes back: {[one.args for one in pair]}")
    uncertain, = database.execute("SELECT count(*) FROM send WHERE delivery NOTNULL AND NOT certain").fetchone()
    compare(f"{what}, pairs without a flow", read.told["pairs_without_flow"], uncertain, fail)


# What a process holds at the end, and what it held at most in the slices of the capture.
HELD = """
SELECT p.upid, p.device, p.process, coalesce(p.ended_after <= c.last_seq, 0),
  (SELECT count(*) FROM delivery d WHERE d.upid = p.upid AND freed_by IS NULL) AS buffers,
  (SELECT coalesce(sum(data_size), 0) FROM delivery d WHERE d.upid = p.upid AND freed_by IS NULL) AS bytes,
  (SELECT coalesce(sum(data_size), 0) FROM delivery d WHERE d.upid = p.upid AND freed_by IS NULL AND oneway) AS async,
  (SELECT coalesce(sum(strong), 0) FROM handle h WHERE h.upid = p.upid) AS refs,
  (SELECT count(*) FROM call k JOIN thread t USING (utid) WHERE k.upid = p.upid AND side = 'made' AND verdict = 'open'
    AND coalesce(t.ended_after > c.last_seq, 1)) AS calls,
  (SELECT max(buffers) FROM level l WHERE l.upid = p.upid), (SELECT max(bytes) FROM level l WHERE l.upid = p.upid),
  (SELECT max(calls) FROM level l WHERE l.upid = p.upid)
FROM process p, raw_capture c ORDER BY p.upid"""
NAMES = ("buffers", "bytes", "async bytes", "references", "calls")


def check_counters(what: str, database: sqlite3.Connection, read: Read, fail: Fail) -> None:
    for upid, device, process, ended, *held in database.execute(HELD):
        last, most = held[:5], held[5:]
        came = [read.last.get((upid, name), 0) for name in NAMES]
        compare(f"{what}, what process {process} on device {device} ends with", came, [0] * 5 if ended else last, fail)
        compare(f"{what}, the most of process {process} on device {device}",
                [read.most[upid, name] for name in ("buffers", "bytes", "calls")], most, fail)
        if ended and last[0]:
            compare(f"{what}, what process {process} held", read.most[upid, "buffers"] >= last[0], True, fail)
    busy = Counter({upid: value for (upid, name), value in read.last.items() if name == "threads" and value})
    open_ = {read.owner[s.args["place"]] for s in read.slices
             if "serve" in s.name and s.args.get("end") == "open at the end"}
    compare(f"{what}, busy threads at the end", busy, Counter(upid for upid, _ in open_), fail)


def check_instants(what: str, database: sqlite3.Connection, read: Read, fail: Fail) -> None:
    for cat, query in INSTANTS.items():
        compare(f"{what}, instants {cat}", sorted(i.args["place"] for i in read.instants if i.cat == cat),
                places(database, query), fail)
    others = {i.cat for i in read.instants} - {*INSTANTS, "end", "lost"}
    compare(f"{what}, other instants", others, set(), fail)
    ends, = database.execute("SELECT (SELECT count(*) FROM thread WHERE ended_after <= c.last_seq) + (SELECT count(*)"
                             " FROM process WHERE ended_after <= c.last_seq) FROM raw_capture c").fetchone()
    compare(f"{what}, ends", sum(i.cat == "end" for i in read.instants), ends, fail)
    lost, missing, missed = database.execute(
        "SELECT (SELECT count(*) FROM side_lost WHERE seq BETWEEN first_seq AND last_seq), missing,"
        " (SELECT count(*) FROM side_missed) FROM raw_capture").fetchone()
    came = [i for i in read.instants if i.cat == "lost"]
    compare(f"{what}, lost frames", [sum(i.name == name for i in came) for name in ("lost frame", "missed")],
            [lost, missed], fail)
    compare(f"{what}, missing frames", sum(i.args["count"] for i in came if i.name == "missing frames"),
            missing % 2**64 - lost, fail)


def check_queues(what: str, database: sqlite3.Connection, read: Read, fail: Fail) -> None:
    compare(f"{what}, queues", sorted(read.queues), places(database, QUEUES), fail)
    first = read.told.get("frame_at_zero", 0)
    got = dict(database.execute("SELECT s.place, iif(x.ts IS NULL, 1000 * (d.seq - ?), x.ts) FROM send s JOIN record d"
                                " ON d.place = s.delivery LEFT JOIN frame x ON x.seq = d.seq", (first,)))
    sent = dict(database.execute("SELECT place, iif(ts IS NULL, 1000 * (seq - ?), ts) FROM send", (first,)))
    for send, one in read.queues.items():
        came = one.begin - read.shift, one.end - read.shift if send in got else one.end >= one.begin
        compare(f"{what}, queue {send}", came, (sent[send], got.get(send, True)), fail)
        compare(f"{what}, the end of queue {send}", "end" in one.args, send not in got, fail)


def check_read(what: str, database: sqlite3.Connection, read: Read, fail: Fail) -> None:
    """What must hold in each format."""
    for part in (check_slices, check_flows, check_counters, check_instants, check_queues):
        part(what, database, read, fail)
    clock = "CLOCK_BOOTTIME" if read.shift else "CLOCK_MONOTONIC"
    compare(f"{what}, the axis", str(read.told["axis"]).split()[0], clock if is_timed(database) else "the", fail)
    compare(f"{what}, what it says of itself",
            [read.told[name] for name in ("slices", "flows", "queue_slices", "counter_events", "instants")],
            [len(read.slices), len(read.flows), len(read.queues), read.counted, len(read.instants)], fail)


# ---- what only a trace of Perfetto has


def check_system(what: str, database: sqlite3.Connection, read: ReadPackets, fail: Fail) -> None:
    """Each process and thread of the system has one track, with its name, and each is the system's."""
    names = dict(database.execute("SELECT coalesce(tid, thread), name FROM thread"))
    threads = {read.thread_of(upid, thread, tid) for upid, thread, tid in
               database.execute("SELECT upid, thread, tid FROM thread")}
    compare(f"{what}, threads of the system", set(read.tids), threads, fail)
    compare(f"{what}, names of threads", {tid: name for (_, tid), name in read.tids.items()}, names, fail)
    compare(f"{what}, processes of the system", set(read.pids), set(read.system.values()), fail)
    facts = dict(database.execute("SELECT key, value FROM capture"))
    due = [{clock: time for clock, time in ((6, facts.get("boottime")), (3, facts["begin_ts"]), (1, facts["realtime"]))
            if time is not None}] if "begin_ts" in facts else []
    compare(f"{what}, clocks", read.clocks[:1], due, fail)
    compare(f"{what}, the tool", read.told["tool"], "binder_audit: ./view --trace", fail)


def check_findings(what: str, database: sqlite3.Connection, read: ReadPackets, fail: Fail) -> None:
    """Each finding that is real or maybe is on a track above the processes, and a flow links it with its record and
    with what is one with it."""
    for verdict in ("real", "maybe"):
        came = sorted(i.args["place"] for i in read.findings[f"binder_audit: {verdict}"])
        compare(f"{what}, findings {verdict}", came, places(database, INSTANTS[f"finding,{verdict}"]), fail)
    one_of = database.execute(
        "SELECT coalesce(f.lead, f.id), f.place, r.verdict IN ('real', 'maybe') FROM finding f JOIN rule r ON r.id ="
        " f.rule WHERE f.place NOTNULL AND f.utid NOTNULL AND r.verdict <> 'normal'").fetchall()
    due: dict[int, list[int]] = {}
    for one, place, has_track in one_of:
        due.setdefault(one, []).extend([place] * (1 + has_track))
    came_as_one = sorted(sorted(i.args["place"] for i in link) for link in read.links.values())
    compare(f"{what}, what is one finding", came_as_one, sorted(map(sorted, due.values())), fail)


def check_colours(what: str, read: ReadPackets, fail: Fail) -> None:
    """Both ends of a certain pair have one number, by which they have one colour, and no others have it."""
    came, due = (sorted([s.args["place"] for s in pair] for pair in pairs.values())
                 for pairs in (read.correlated, read.flows))
    compare(f"{what}, what has one colour", came, due, fail)


def check_stacks(what: str, database: sqlite3.Connection, read: ReadPackets, fail: Fail) -> None:
    """The stacks of calls and of oneway sends, function by function."""
    due = {}
    for place, stack in database.execute("SELECT s.place, c.stack FROM send s JOIN side_call c USING (seq) WHERE"
                                         " s.kind LIKE 'BC_TRANSACTION%'"):
        due[place] = [(function, "not mapped" if path is None else (path or "no file").strip("/"),
                       (pc if address is None else address) % 2**64)
                      for function, path, pc, address in database.execute(
                          "SELECT function, path, pc, address FROM stack WHERE stack = ? ORDER BY idx, inlined",
                          (stack,))]
    compare(f"{what}, stacks", {place: stack for place, stack in read.stacks_of.items() if place >= 0}, due, fail)


def check_json(what: str, database: sqlite3.Connection, read: ReadJson, fail: Fail) -> None:
    check_read(what, database, read, fail)
    compare(f"{what}, numbers of processes", len(set(read.pid_of.values())), len(read.pid_of), fail)


def check_packets(what: str, database: sqlite3.Connection, read: ReadPackets, fail: Fail) -> None:
    check_read(what, database, read, fail)
    check_system(what, database, read, fail)
    check_findings(what, database, read, fail)
    check_colours(what, read, fail)
    check_stacks(what, database, read, fail)
