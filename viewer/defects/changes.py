"""Two captures compared by their defects: what is new, worse, grown or gone in the one since the other."""

import sqlite3
from contextlib import closing
from typing import Iterator, NamedTuple

from viewer.defects import times
from viewer.defects.seen import Defect, Seen, defects_of, facts_of, kept_database, seconds_of
from viewer.files import Stopped
from viewer.malformed import Fault
from viewer.terminal import line_of

# What a defect may have become, in the order of the lines.
NEW, WORSE, GROWN, GONE, SAME, NOT_MET = "new", "worse", "grown", "gone", "same", "not met"
SHOWN = (NEW, WORSE, GROWN, GONE)

# So many times as many findings an hour have grown.
GROWTH = 2


class Change(NamedTuple):
    """What a defect has become. `defect` is that of the new capture, or if it is not there that of the old one."""
    what: str
    defect: Defect
    before: int
    now: int


# The options without which defects have other keys and verdicts, by the facts that say whether they were given.
OPTIONS = {"methods": "--methods", "side_list": "--side"}


def refuse_unlike(old: dict, new: dict, name: str) -> None:
    """Keys of two designs are not compared, and none where one side alone has the names of methods, or a side list."""
    if old["prints"] != new["prints"]:
        raise Stopped(1, f"{name}: its keys are of design {old['prints']}, and those of the capture of {new['prints']}:"
                         " rebuild it with --database")
    for fact, option in OPTIONS.items():
        if bool(old[fact]) != bool(new[fact]):
            made, viewed = ("with", "without") if old[fact] else ("without", "with")
            raise Stopped(1, f"{name} was made {made} {option}, and the capture is viewed {viewed}: give both, or none")


def has_grown(before: Defect, now: Defect, seconds: tuple[float | None, float | None]) -> bool:
    """Whether there are many more findings, an hour if it is known how long both were recorded."""
    old, new = seconds if all(seconds) else (1, 1)
    return now.n * old > GROWTH * before.n * new  # type: ignore[operator]


class Comparison:
    """The changes in the database of a capture since another one, whose database is called `name`."""

    def __init__(self, new: sqlite3.Connection, old: Seen, name: str):
        facts = old.facts, facts_of(new)
        refuse_unlike(*facts, name)
        self.facts = facts
        self.seconds = seconds_of(facts[0]), seconds_of(facts[1])
        self.before, self.now = old.defects, defects_of(new)
        self.met = {who for who, in new.execute("SELECT program || ' on ' || device FROM program")}
        self.called = set(new.execute("SELECT caller, call FROM talk UNION SELECT server, call FROM talk"))
        self.name, self.database = name, new
        self.times = times.changes(old.times, times.times_of(new))
        self.changes = [Change(self.what(key), self.now.get(key) or self.before[key],
                               self.count(self.before, key), self.count(self.now, key))
                        for key in {**self.now, **self.before} if self.is_told(key)]

    def is_told(self, key: str) -> bool:
        """Whether a defect is real or maybe in one of the captures."""
        return any(defect.counts for of in (self.before, self.now) if (defect := of.get(key)))

    @staticmethod
    def count(of: dict[str, Defect], key: str) -> int:
        return of[key].n if key in of else 0

    def what(self, key: str) -> str:
        before, now = self.before.get(key), self.now.get(key)
        if before is None:
            return NEW
        if now is None:
            return GONE if self.could_come(before) else NOT_MET
        if now.counts and now.rank < before.rank:
            return WORSE
        return GROWN if now.counts and has_grown(before, now, self.seconds) else SAME

    def could_come(self, defect: Defect) -> bool:
        """Whether its process is in the new capture, and makes or gets the call of its path there."""
        return defect.who in self.met and (defect.call is None or (defect.who, defect.call) in self.called)

    def of(self, *what: str) -> list[Change]:
        return [change for change in self.changes if change.what in what]

    def lines(self, fault: Fault | None) -> Iterator[str]:
        """A line for each defect that is not the same, and for each method that is slower or faster, then one with
        counts. If the new capture is malformed, the first line says so."""
        if fault:
            yield line_of("malformed", None, None, None, fault.kind, None, fault.file, fault.place, None)
        for what in SHOWN:
            for _, defect, before, now in self.of(what):
                yield line_of(what, defect.verdict, before, now, defect.kind, defect.who, defect.path, defect.place,
                              defect.key)
        if self.times:
            with closing(kept_database(self.name)) as old:
                yield from times.lines(self.times, old, self.database)
        counts = {**{what: len(self.of(what)) for what in (*SHOWN, SAME, NOT_MET)},
                  **{what: sum(it.what == what for it in self.times) for what in (times.SLOWER, times.FASTER)}}
        yield ", ".join(f"{count} {what}" for what, count in counts.items()) + "\n"
