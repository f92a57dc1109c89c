"""What the driver held of each process when the recording began and when it ended: the copies of its books that are
beside the side list."""

import sqlite3
from collections import Counter, defaultdict
from typing import Generic, Iterator, NamedTuple, TypeVar

from viewer.database.beside import bytes_beside, places_beside
from viewer.database.books import Counts, Opening, Transaction, state, stats
from viewer.database.side_list import Copy
from viewer.files import shown_name
from viewer.units import signed


Book = TypeVar("Book", Opening, Counts)


class Matched(NamedTuple, Generic[Book]):
    """An opening in the books that is one of the capture."""
    upid: int
    opening: Book


# ---- the files


def ending_of(copy: Copy) -> str:
    return f".{copy.moment}.{copy.what}"


def name_of(copy: Copy, sides: list[str]) -> str:
    """What a copy is called that is not there."""
    return shown_name([str(next(places_beside(sides[0], ending_of(copy))))])


def text_of(copy: Copy, sides: list[str]) -> tuple[str | None, str | None]:
    """The text of a copy; or None, and what is wrong with it, if it is there."""
    found = bytes_beside(sides, ending_of(copy))
    if not found:
        return None, None
    path, data = found
    if len(data) != copy.size:
        return None, f"{shown_name([str(path)])} has {len(data):,} bytes, and the side list names {copy.size:,}"
    return data.decode(errors="replace"), None


# ---- which opening is which


# A device of a process: the system's id of that, the name of the device, and its driver if that is known.
Device = tuple[int, str, str | None]


def open_at(database: sqlite3.Connection, copy: Copy) -> dict[Device, list[tuple[int, str]]]:
    """The openings of the capture that were open when the copy was made, with how they were met, the first one first,
    by their device. At the beginning only those that were met."""
    found: dict[Device, list[tuple[int, str]]] = defaultdict(list)
    rows = database.execute(
        "SELECT p.upid, p.pid, d.name, d.driver, p.met FROM process p JOIN side_device d USING (device)"
        " WHERE p.met NOTNULL AND p.frames > 0 AND coalesce(p.ended > :ts, 1)"
        " AND iif(:begin, p.met = 'in-mid-life', p.first_seq <= :after) ORDER BY p.opening",
        {"ts": copy.ts, "begin": copy.moment == "begin", "after": copy.after})
    for upid, pid, device, driver, met in rows:
        found[pid, device, driver].append((upid, met))
    return found


def matched(database: sqlite3.Connection, copy: Copy, openings: list[Book]) -> list[Matched[Book]]:
    """The openings of the books that are certainly some of the capture. Of several by one process, it is known in which
    order they were opened only if all were seen to be opened."""
    books: dict[Device, list[Book]] = defaultdict(list)
    for opening in reversed(openings):
        books[opening.pid, opening.context, opening.driver].append(opening)
    found = []
    for key, ours in open_at(database, copy).items():
        theirs = books[key]
        if len(ours) == len(theirs) and (len(ours) == 1 or all(met == "from-start" for _, met in ours)):
            found += [Matched(upid, opening) for (upid, _), opening in zip(ours, theirs)]
    return found


# ---- the tables


# A write gets its number before the driver works on it, and a read only when its call returns: so what a frame did is
# surely in a copy, or not, if it came this long before or after it, in nanoseconds.
AROUND = 100_000_000


def widened(database: sqlite3.Connection, copy: Copy) -> Copy:
    """The copy with its numbers further apart: what the frames up to `from_seq` did is surely in it, and what the
    frames after `after` did is surely not."""
    def last_until(ts: int) -> int:
        return database.execute("SELECT max(seq) FROM side_time WHERE ts <= ?", (ts,)).fetchone()[0] or 0
    return copy._replace(from_seq=min(copy.from_seq, last_until(copy.ts - AROUND)),
                         after=max(copy.after, last_until(copy.ts + AROUND)))


QUIET = {"begin": "SELECT first_seq > :after FROM raw_process WHERE upid = :upid",
         "end": "SELECT last_seq <= :from FROM raw_process WHERE upid = :upid"}


def is_quiet(database: sqlite3.Connection, copy: Copy, upid: int) -> int:
    """Whether all frames of a process are surely in the copy or, at the beginning, surely not."""
    row = database.execute(QUIET[copy.moment], {"after": copy.after, "from": copy.from_seq, "upid": upid}).fetchone()
    return row[0]


def sides_of(opening: Opening) -> Iterator[tuple[str, int, Transaction | None]]:
    """The calls that threads have open: those that they make, also those whose answer is on its way, and those that
    they serve. Of an error that is on its way no more is known."""
    for item in opening.outgoing:
        yield "made", item.thread, item
    for item in opening.pending:
        if item.is_reply:
            yield "made", item.thread, item
    for thread, count in opening.errors.items():
        yield from [("made", thread, None)] * count
    for item in opening.incoming:
        yield "served", item.thread, item


# Frames that the side list has and the capture has not, before its first one or between its last one and the copy: the
# capture was cut.
CUT = ("SELECT 1 FROM side_time s, raw_capture c WHERE c.last_seq IS NULL OR s.seq < c.first_seq"
       " OR :end AND s.seq > c.last_seq AND s.seq <= :from LIMIT 1")


def load_state(database: sqlite3.Connection, copy: Copy, openings: list[Opening],
               silent: list[Matched[Opening]]) -> None:
    """What the openings of the capture had by the book `state`; nothing if the capture lacks frames around it. `silent`
    are openings without a frame, which only own nodes here."""
    if database.execute(CUT, {"end": copy.moment == "end", "from": copy.from_seq}).fetchone():
        return
    found = matched(database, copy, openings)
    moment = copy.moment
    owners = {(one.opening.driver, number): (one.upid, *map(signed, node)) for one in found + silent
              for node, number in one.opening.node_numbers.items()}
    threads = {(upid, tid): utid for upid, tid, utid in database.execute("SELECT upid, tid, utid FROM thread")}
    servers = {number: (place.opening.pid, place.thread) for number, place in places_of_calls(openings)[1].items()}
    for upid, opening in found:
        database.execute("INSERT INTO book_opening VALUES (?, ?, ?, ?, ?, ?, ?, ?, ?)",
                         (moment, upid, is_quiet(database, copy, upid), opening.deaths > 0,
                          opening.clears + opening.cleared_and_dead, opening.freezes > 0, opening.freeze_clears,
                          opening.loopers, opening.driver))
        database.executemany("INSERT OR REPLACE INTO book_handle VALUES (?, ?, ?, ?, ?, ?, ?, ?, ?, ?)", (
            (moment, upid, handle, ref.strong, ref.weak, ref.is_dead, opening.is_requested(handle),
             *owners.get((opening.driver, ref.node), (None, None, None))) for handle, ref in opening.refs.items()))
        database.executemany("INSERT OR REPLACE INTO book_node VALUES (?, ?, ?, ?, ?, ?, ?, ?)", (
            (moment, upid, *map(signed, node), *counts) for node, counts in opening.nodes.items()))
        unread = opening.unread
        database.executemany("INSERT OR REPLACE INTO book_buffer VALUES (?, ?, ?, ?, ?, ?, ?)", (
            (moment, upid, number, signed(area.address), area.data, area.offsets, number in unread)
            for number, area in opening.areas.items()))
        database.executemany(
            "INSERT INTO book_call(moment, upid, utid, tid, side, number, code, server_pid, server_tid)"
            " VALUES (?, ?, ?, ?, ?, ?, ?, ?, ?)",
            ((moment, upid, threads.get((upid, tid)), tid, side, item and item.number, item and item.code,
              *(servers.get((opening.driver, item.number), (None, None)) if item and side == "made" else (None, None)))
             for side, tid, item in sides_of(opening)))


def none_of_the_drivers(what: str, moment: str) -> str:
    return f"the copy of {what} at the {moment} has numbers that are none of the driver's"


def load_stats(database: sqlite3.Connection, copy: Copy, text: str) -> str | None:
    """For how many threads the driver asked, and may ask, by the book `stats`; and the free space for oneway sends.
    Returns what is wrong with the book if it is left out."""
    try:
        database.executemany("INSERT INTO book_stats VALUES (?, ?, ?, ?, ?, ?)", (
            (copy.moment, upid, counts.requested, counts.started, counts.most, counts.oneway_free)
            for upid, counts in matched(database, copy, stats(text)[1])))
    except (ValueError, OverflowError):
        database.execute("DELETE FROM book_stats WHERE moment = ?", (copy.moment,))
        return none_of_the_drivers("stats", copy.moment)
    return None


# ---- calls that were open throughout


# The number of a call, with the driver that gave it.
Number = tuple[str, int]


class Place(NamedTuple):
    """Where a call is in the books: which opening has it, the call as that has it, and the thread that makes or serves
    it; None if it waits for a thread."""
    opening: Opening
    item: Transaction
    thread: int | None


def places_of_calls(openings: list[Opening]) -> tuple[dict[Number, Place], dict[Number, Place]]:
    """By the number of a call, who makes it, and who serves it or should get it."""
    made = {(one.driver, item.number): Place(one, item, item.thread) for one in openings for item in one.outgoing}
    waits = {(one.driver, item.number): Place(one, item, None) for one in openings for item in one.pending
             if not item.is_reply}
    served = {(one.driver, item.number): Place(one, item, item.thread) for one in openings for item in one.incoming}
    return made, waits | served


class Throughout:
    """The calls that are in the book of the beginning and in that of the end: the driver gives no number twice, so they
    were open throughout the recording. Their openings need no frame. One that has none is a process of its own here."""

    def __init__(self, database: sqlite3.Connection, begin: list[Opening], end: list[Opening], copy: Copy,
                 names: dict[int, str]):
        self.database, self.names, self.silent = database, names, list[Matched[Opening]]()
        self.known = set(database.execute("SELECT p.pid, d.name, d.driver FROM process p"
                                          " LEFT JOIN side_device d USING (device)"))
        self.devices = {(name, driver): device for device, name, driver in
                        database.execute("SELECT device, name, driver FROM side_device ORDER BY device DESC")}
        self.last_upid, self.last_device = database.execute(
            "SELECT coalesce((SELECT max(upid) FROM process), 0), coalesce((SELECT max(device) FROM"
            " (SELECT device FROM side_device UNION ALL SELECT device FROM raw_process)), -1)").fetchone()
        self.upids = {id(one.opening): one.upid for one in matched(database, copy, end)}
        self.numbers = Counter((one.pid, one.context, one.driver) for one in end)
        made, served = places_of_calls(end)
        numbers = {(one.driver, item.number) for one in begin for item in one.outgoing} & made.keys() & served.keys()
        self.calls = [(made[number], served[number]) for number in sorted(numbers)]

    def upid_of(self, opening: Opening) -> int | None:
        """The process of an opening; None if it is not certain which one it is."""
        if id(opening) not in self.upids:
            if self.is_known(opening) or self.numbers[opening.pid, opening.context, opening.driver] > 1:
                return None
            self.add(opening)
        return self.upids[id(opening)]

    def is_known(self, opening: Opening) -> bool:
        """Whether the capture may have the opening: a process of this number, of whose device nothing else is known."""
        return any((opening.pid, name, driver) in self.known
                   for name in (opening.context, None) for driver in (opening.driver, None))

    def add(self, opening: Opening) -> None:
        """Gives an opening without a frame a number after those of the capture."""
        self.last_upid += 1
        device, driver = self.device_of(opening)
        self.database.execute("INSERT INTO book_process VALUES (?, ?, ?, ?)",
                              (self.last_upid, device, opening.pid, self.names.get(opening.pid)))
        self.known.add((opening.pid, opening.context, driver))
        self.upids[id(opening)] = self.last_upid
        self.silent.append(Matched(self.last_upid, opening))

    def device_of(self, opening: Opening) -> tuple[int, str | None]:
        """The number of the device of an opening, with its driver if that is known; a new one if the side list has
        none."""
        found = [(self.devices[opening.context, driver], driver) for driver in (opening.driver, None)
                 if (opening.context, driver) in self.devices]
        if found:
            return min(found, key=lambda device: device[0])
        self.last_device += 1
        self.database.execute("INSERT INTO side_device VALUES (?, ?, ?)",
                              (self.last_device, opening.context, opening.driver))
        self.devices[opening.context, opening.driver] = self.last_device
        return self.last_device, opening.driver

    def load(self) -> None:
        """A thread has its calls at -1, the last one, -2 and so on: before all that the capture has of it."""
        threads = {(upid, tid): utid for upid, tid, utid in self.database.execute("SELECT upid, tid, utid FROM thread")}
        for caller, server in self.calls:
            upid, to = self.upid_of(caller.opening), self.upid_of(server.opening)
            if upid is None or to is None:
                continue
            nodes = {number: node for node, number in server.opening.node_numbers.items()}
            ptr, cookie = nodes.get(server.item.node, (None, None))
            self.database.execute(
                "INSERT INTO book_open VALUES (?, ?, ?, ?, ?, ?, ?, ?, ?, ?, ?, ?)",
                (caller.item.number, upid, threads.get((upid, caller.thread)), caller.thread, -1 - caller.item.above,
                 to, threads.get((to, server.thread)), server.thread,
                 None if server.thread is None else -1 - server.item.above, caller.item.code,
                 None if ptr is None else signed(ptr), None if cookie is None else signed(cookie)))


# ---- all of it


def load_states(database: sqlite3.Connection, states: dict[str, tuple[Copy, str]],
                names: dict[int, str]) -> Iterator[str]:
    """Puts the books `state` into the database, each by its moment. Returns what is wrong with those that are left
    out. `names` are those of the processes that were there before, by their pid."""
    openings: dict[str, list[Opening]] = {}
    for moment, (_, text) in states.items():
        try:
            openings[moment] = state(text)
        except ValueError:
            yield none_of_the_drivers("state", moment)
    silent: list[Matched[Opening]] = []
    if len(openings) == 2:
        calls = Throughout(database, openings["begin"], openings["end"], states["end"][0], names)
        try:
            calls.load()
            silent = calls.silent
        except OverflowError:
            database.execute("DELETE FROM book_open")
            database.execute("DELETE FROM book_process")
            yield "the copies of state have calls with numbers that are none of the driver's"
    for moment, those in openings.items():
        try:
            load_state(database, states[moment][0], those, silent)
        except OverflowError:
            for table in ("book_opening", "book_handle", "book_node", "book_buffer", "book_call"):
                database.execute(f"DELETE FROM {table} WHERE moment = ?", (moment,))
            yield none_of_the_drivers("state", moment)


def load(database: sqlite3.Connection, copies: list[Copy], sides: list[str], names: dict[int, str]) -> str | None:
    """Puts the copies into the database. Returns what is wrong with those that are left out. Of two copies of one book
    the last counts."""
    wrong, states, lacking = [], {}, []
    for copy in {(copy.moment, copy.what): copy for copy in copies}.values():
        text, why = text_of(copy, sides)
        if text is None:
            wrong.append(why)
            lacking += [name_of(copy, sides)] * (why is None)
            continue
        copy = widened(database, copy)
        database.execute("INSERT OR REPLACE INTO book VALUES (?, ?, ?, ?, ?)", copy[:5])
        if copy.what == "stats" and copy.moment in ("begin", "end"):
            wrong.append(load_stats(database, copy, text))
        if copy.what == "state" and copy.moment in ("begin", "end"):
            states[copy.moment] = copy, text
    wrong += load_states(database, states, names)
    if lacking:
        wrong.append(f"{', '.join(lacking)} {'is' if len(lacking) == 1 else 'are'} not beside the side list")
    return "; ".join(filter(None, wrong)) or None
