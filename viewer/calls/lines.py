"""Where the time of a call went, in lines for a person at a terminal."""

import sqlite3
from typing import Iterator

from viewer.calls.tree import CALLERS, ROWS, Hop, Stretch, Tree
from viewer.clocks import Times
from viewer.page.group_table import padded, width_of
from viewer.rules.names import Names
from viewer.terminal import shown
from viewer.units import counted, duration_of

# How wide the picture is, and its signs.
WIDTH = 32
SIGNS = {"queue": "░", "work": "█", "below": "─", "back": "▒", "unknown": "?"}
# What a part of the time is called.
WORDS = {"queue": "waiting for a thread of", "work": "at work", "back": "the way back from", "unknown": "not known, at"}
# The most parts that are listed.
PARTS = 8


def milliseconds(ns: int | None) -> str:
    return "" if ns is None else f"{ns / 1_000_000:,.3f}"


def picture(stretches: list[Stretch], whole: int) -> str:
    """Where in the whole time a call was, and in what. What is shorter than a sign is left out."""
    def at(ns: int) -> int:
        return max(0, min(WIDTH, round(ns * WIDTH / whole)))
    drawn = [" "] * WIDTH
    for one in stretches if whole > 0 else ():
        for sign in range(at(one.begin), at(one.end)):
            drawn[sign] = SIGNS[one.what]
    return "".join(drawn).rstrip()


class Told:
    """The lines of a tree."""

    def __init__(self, database: sqlite3.Connection, place: int):
        self.names, self.times = Names(database), Times(database)
        self.tree = Tree(database, self.names, place)
        self.who = dict(database.execute("SELECT upid, who FROM who"))

    def server(self, hop: Hop) -> str:
        return self.who.get(hop.server_upid, "an unknown server")

    def head(self) -> Iterator[str]:
        """Who made the call, when, how long it took, and whose that was."""
        root = self.tree.root
        thread = "main thread" if root.main_thread else f"thread {root.client_tid}"
        when = f" at {self.times.both(root.ts)}" if self.times.since(root.ts) else ""
        yield f"{self.who[root.client_upid]}, {thread}{when}: {self.tree.called(root)} to {self.server(root)}"
        if root.dur is None:
            yield f"{root.outcome}; how long it took is not known without a side list"
        else:
            yield f"{root.outcome}, {'so far ' if root.is_open else ''}{duration_of(root.dur)} at place {root.place}"

    def row(self, at: int, whole: int) -> list[str]:
        hop = self.tree.hops[at]
        indent = "  " * hop.level
        if hop.is_unknown:
            return [*map(milliseconds, (hop.since, hop.dur)), "", "", "", f"{indent}  not known: {hop.why}", ""]
        thread = f", {hop.server_thread or hop.server_tid}" if hop.server_tid else ""
        guess = "" if hop.certain in (1, None) else " (likely)"
        called = f"{indent}{self.tree.called(hop)} to {self.server(hop)}{thread}{guess}"
        return [*map(milliseconds, (hop.since, hop.dur, hop.queue, hop.work, hop.back)), called,
                picture(self.tree.stretches(at), whole)]

    def table(self) -> Iterator[str]:
        """The calls in columns, in milliseconds, with the picture."""
        whole = self.tree.root.dur or 0
        signs = " ".join(f"{sign} {what}" for what, sign in SIGNS.items() if what != "unknown")
        heads = ["since", "all", "queue", "work", "back", "call", signs]
        rows = [heads, *(self.row(at, whole) for at in range(min(ROWS, len(self.tree.hops))))]
        rows = [list(map(shown, row)) for row in rows]
        widths = [max(width_of(row[at]) for row in rows) for at in range(len(heads))]
        for row in rows:
            cells = [cell.rjust(width) if at < 5 else padded(cell, width)
                     for at, (cell, width) in enumerate(zip(row, widths))]
            yield "  ".join(cells).rstrip()
        if len(self.tree.hops) > ROWS:
            left = len(self.tree.hops) - ROWS
            yield f"and {left:,} more: SELECT * FROM call_tree WHERE root = {self.tree.root.place}"

    def parts(self) -> Iterator[str]:
        """Whose the time was, the longest part first."""
        whole = self.tree.root.dur
        if not whole:
            return
        yield f"whose the {milliseconds(whole)} ms are:"
        for part in self.tree.parts[:PARTS]:
            who = self.who.get(part.upid, "an unknown server")
            what = f"{who} {WORDS['work']}" if part.what == "work" else f"{WORDS[part.what]} {who}"
            share = f"{milliseconds(part.ns):>12}  {100 * part.ns / whole:3.0f} %"
            yield shown(f"{share}  {what}, in {self.tree.called(part.hop)}")
        if left := sum(part.ns for part in self.tree.parts[PARTS:]):
            share = f"{milliseconds(left):>12}  {100 * left / whole:3.0f} %"
            yield f"{share}  {counted(len(self.tree.parts) - PARTS, 'shorter part')}"

    def holders(self) -> Iterator[str]:
        """Who had the threads of a server while a call waited for one."""
        for hop in self.tree.hops:
            if hop.place not in self.tree.holders or hop.is_unknown:
                continue
            found = self.tree.holders[hop.place]
            waited = f"{milliseconds(hop.queue)} ms for a thread of {self.server(hop)}"
            if not found:
                yield shown(f"while it waited {waited}, no known thread of it was in a call or a oneway handler")
                continue
            yield shown(f"who had its threads while {self.tree.called(hop)} waited {waited}:")
            for holder in found:
                caller = self.who.get(holder.client_upid, "an unknown caller")
                what = self.tree.held(holder) if holder.own else f"{self.tree.held(holder)} of {caller}"
                yield shown(f"{milliseconds(holder.dur):>12}  {what}, {counted(holder.n, 'time')},"
                            f" {counted(holder.threads, 'thread')}")
            if len(found) == CALLERS:
                yield f"{'':>12}  and more: SELECT * FROM queue_holder WHERE place = {hop.place}"

    def lines(self) -> Iterator[str]:
        for part in (map(shown, self.head()), self.table(), self.parts(), self.holders()):
            yield from (f"{line}\n" for line in part)


def lines_of(database: sqlite3.Connection, place: int) -> Iterator[str]:
    """What --call prints."""
    return Told(database, place).lines()
