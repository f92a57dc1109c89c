"""Builds of a lab compared: which defects are new, worse, grown or gone in one since others, on enough devices and in
enough captures to say so."""

import math
import sqlite3
from collections.abc import Iterator
from typing import NamedTuple

from lab import chance, power
from lab.fail_on import FailOn
from lab.first_seen import BUILDS_BEFORE, FIRST, Best, best_capture, builds_before, seen_in, urgency
from lab.known_until import Known
from lab.power import Power
from lab.renamed import Renamed, Text
from lab.sides import Found, Seen, Sides, build_of, refuse_mix
from lab.slower import COUNTS, Row as Timed, Times
from viewer.defects.changes import GONE, GROWN, NEW, NOT_MET, SAME, WORSE
from viewer.defects.known_keys import unseen_lines
from viewer.defects.times import FASTER, SLOWER
from viewer.files import Stopped
from viewer.terminal import field_of
from viewer.units import counted

# A defect that was known until a build, and is there in a later one. And what is more than chance, in the order of the
# lines; and beside it all that has a line.
BACK = "back"
SHOWN = (NEW, WORSE, BACK, GROWN, GONE)
TOLD = (*SHOWN, FIRST)

# What became of methods.
TIMED = (SLOWER, FASTER)


class Enough(NamedTuple):
    """When a difference is told: on how many devices a defect must be, so many of a hundred, and at least so many; and
    how many of a hundred told differences may be false. And in how many builds before none has what is first seen."""
    share: float = 5
    least: int = 2
    rate: float = 5
    before: int = BUILDS_BEFORE

    def of(self, devices: int) -> int:
        return max(self.least, math.ceil(self.share * devices / 100))


class Row(NamedTuple):
    """A defect in two builds, and how likely chance makes them as unlike: by the captures that have it, by those that
    have it as `real`, and by findings an hour. None: the test could tell nothing, or not more than another one."""
    key: str
    kind: str
    who: str
    path: str
    call: str | None
    before: Seen
    now: Seen
    p_captures: float | None
    p_real: float | None
    p_rate: float | None

    @property
    def tests(self) -> list[float]:
        return [p for p in (self.p_captures, self.p_real, self.p_rate) if p is not None]

    def least(self, looked: int) -> Iterator[float]:
        """The same, as small as each may be after a look at so many orders."""
        yield from (p for p in (self.p_captures, self.p_real) if p is not None)
        if self.p_rate is not None:
            yield chance.least_after(self.p_rate, looked)

    @property
    def p(self) -> float:
        """The p of the test that says most."""
        return min(self.tests, default=1.0)

    @property
    def verdict(self) -> str:
        return "real" if (self.now.real or not self.now.captures and self.before.real) else "maybe"


class Comparison:
    """What became of the defects of `old`, one or several builds, in the build `new`."""

    def __init__(self, lab: sqlite3.Connection, old: list[str], new: str, enough: Enough = Enough(),
                 known: dict[str, Known] | None = None, renamed: Renamed = Renamed({})):
        if new in old:
            raise Stopped(64, f"build {new} is both old and new")
        self.order = {name: number for number, name in lab.execute("SELECT number, name FROM build")}
        self.builds = [build_of(lab, name) for name in (*dict.fromkeys(old), new)]
        refuse_mix(lab, [build.name for build in self.builds])
        self.sides, self.rate = Sides(lab, old, new, renamed), enough.rate / 100
        self.known = self.by_newest_names(known or {})
        self.devices_before = len({one.device for one in self.sides.captures.values() if not one.is_new})
        self.devices_now = self.builds[-1].devices
        self.enough_before, self.enough_now = enough.of(self.devices_before), enough.of(self.devices_now)
        self.times = Times(self.sides, self.rate)
        self.rows, self.timed = self.tested(self.sides.found)
        self.limit = chance.limit(self.all_tests(), self.rate)
        self.whats = {row.key: self.what(row) for row in self.rows}
        self.whats |= dict.fromkeys(self.first_seen(lab, enough.before), FIRST)

    def by_newest_names(self, known: dict[str, Known]) -> dict[str, Known]:
        """What is known, by the keys that defects have by their newest names."""
        newest = {key: new for new, keys in self.sides.keys.items() for key in keys}
        return {newest.get(key, key): one for key, one in known.items()}

    # -- tests

    def all_tests(self) -> Iterator[float]:
        """The p of each test, of defects and of methods."""
        yield from (p for row in self.rows for p in row.tests)
        yield from (row.p for row in self.timed)

    def may_tell(self, having: int) -> bool:
        """Whether a test of what so many captures have could tell anything, however they are shared out. Tests that
        could not do not count."""
        return chance.least_p(self.sides.old, self.sides.new, having) <= self.rate

    def rate_may_tell(self, found: list[Found]) -> bool:
        """The same of findings an hour. If each capture has one finding, captures say it all."""
        least = chance.least_order_p(self.sides.old, self.sides.new, len(found))
        return least <= self.rate and any(one.n > 1 for one in found)

    def tested(self, found: dict[tuple[str, Text], list[Found]]) -> tuple[list[Row], list[Timed]]:
        """The defects and the methods, with the p of each test: of most a short look says that they can't be told."""
        tests = sum(self.may_tell(len(some)) + self.rate_may_tell(some) for some in found.values())
        timed_tests = len(self.times.tested)
        orders = chance.orders_for((tests + timed_tests) * (COUNTS if timed_tests else 1), self.rate)
        looked = chance.FEW_ORDERS
        rows = [self.row(key, text, some) for (key, text), some in found.items()]
        timed = [self.times.row(method, self.times.p(method, looked, chance.FEW_MET))
                 for method in sorted(self.times.tested)]
        for enough in chance.FEW_MET, chance.MET:
            # No limit is larger than the one by the least that each p may be.
            limit = chance.limit([*(least for row in rows for least in row.least(looked)),
                                  *(row.least(looked) for row in timed)], self.rate)
            rows = [row if row.p_rate is None or chance.least_after(row.p_rate, looked) > limit
                    else row._replace(p_rate=self.rate_p(some, orders, enough))
                    for row, some in zip(rows, found.values())]
            timed = [row if row.least(looked) > limit
                     else row._replace(p=self.times.p(row.method, orders, enough)) for row in timed]
            looked = orders
        return rows, timed

    def rate_p(self, found: list[Found], orders: int, enough: int) -> float:
        place = self.sides.place
        return self.sides.orders.p(((place[one.capture], one.n) for one in found), orders, enough)

    def row(self, key: str, text: Text, found: list[Found]) -> Row:
        """A defect, by a short look at its findings."""
        before, now = self.sides.seen(found, False), self.sides.seen(found, True)
        p_captures = p_real = p_rate = None
        if self.may_tell(len(found)):
            p_captures = chance.fisher(before.captures, self.sides.old, now.captures, self.sides.new)
        # If one side has none, its captures say it all.
        if before.captures and now.captures and self.rate_may_tell(found):
            p_rate = self.rate_p(found, chance.FEW_ORDERS, chance.FEW_MET)
        real = before.real + now.real
        if real < len(found) and self.may_tell(real):
            p_real = chance.fisher(before.real, self.sides.old, now.real, self.sides.new)
        return Row(key, *text, before, now, p_captures, p_real, p_rate)

    def tells(self, p: float | None) -> bool:
        """Whether a test tells a difference."""
        return p is not None and p <= self.limit

    # -- what became of a defect

    def is_past(self, key: str) -> bool:
        """Whether a defect was known, until a build before the new one. A build that the lab lacks is still to come."""
        until = self.known[key].until if key in self.known else None
        return until in self.order and self.order[until] < self.order[self.builds[-1].name]

    def holds(self, key: str) -> bool:
        """Whether a defect is known in the new build."""
        return key in self.known and not self.is_past(key)

    def state(self, key: str) -> str | None:
        """What is known of a defect."""
        return str(self.known[key]) if key in self.known else None

    def what(self, row: Row) -> str:
        before, now = row.before, row.now
        if self.is_past(row.key) and now.devices >= self.enough_now:
            return BACK
        if not now.captures and before.devices >= self.enough_before and not self.sides.could_come(row.who, row.call):
            return NOT_MET
        if not self.tells(row.p):
            return SAME
        if not now.captures:
            return GONE if before.devices >= self.enough_before else SAME
        if now.devices < self.enough_now:
            return SAME
        if not before.captures:
            return NEW
        if self.is_worse(row):
            return WORSE
        return GROWN if self.growth(row) > 1 else SAME

    def is_worse(self, row: Row) -> bool:
        """Whether it is `real` on enough devices, and was not, in more captures than chance makes. Where all captures
        that have it have it as `real`, or too few for a test of their own, the test of captures is that of `real`."""
        before, now = row.before, row.now
        if before.real_devices >= self.enough_before or now.real_devices < self.enough_now:
            return False
        if row.p_real is None:
            return self.is_more(before.captures, now.captures) and self.tells(row.p_captures)
        return self.is_more(before.real, now.real) and self.tells(row.p_real)

    def is_more(self, before: int, now: int) -> bool:
        """Whether so many captures are a larger share of the new ones than so many are of the old ones."""
        return now * self.sides.old > before * self.sides.new

    def growth(self, row: Row) -> float:
        """How many times as many of the captures have it, or how many times as many findings an hour there are, if that
        is more than chance; 1 if neither is."""
        before, now = row.before, row.now
        grown = [1.0]
        if self.tells(row.p_captures):
            grown.append(now.captures * self.sides.old / (before.captures * self.sides.new))
        if self.tells(row.p_rate):
            findings = sum(before.n.values()) * self.sides.seconds_new
            grown.append(sum(now.n.values()) * self.sides.seconds_old / findings if findings else math.inf)
        return max(grown)

    def first_seen(self, lab: sqlite3.Connection, before: int) -> Iterator[str]:
        """What is `real` in the new build, not told as more than chance, and in no capture of so many builds before."""
        rows = [row for row in self.rows if self.whats[row.key] == SAME and row.now.real and not row.before.captures]
        there = seen_in(lab, (key for row in rows for key in self.sides.all_keys(row.key)),
                        builds_before(self.order, self.builds[-1].name, before))
        return (row.key for row in rows if there.isdisjoint(self.sides.all_keys(row.key)))

    def shown_by(self, row: Row) -> Best:
        """The capture of the new build that shows a defect best."""
        return best_capture(self.sides.lab, self.sides.all_keys(row.key), self.builds[-1].name)

    def of(self, what: str) -> list[Row]:
        """The defects that became this: what is first seen by how urgent it is, all else that is least likely by chance
        first."""
        return sorted((row for row in self.rows if self.whats[row.key] == what), key=lambda row: (
            (urgency(row.kind), -row.now.real) if what == FIRST else (row.p,),
            -max(row.now.devices, row.before.devices), row.kind, row.who, row.path))

    def slower(self, what: str) -> list[Timed]:
        """The methods that became this, on enough devices: those first that changed most."""
        some = [row for row in self.timed if self.became(row) == what]
        return sorted(some, key=lambda row: (-max(row.factor, 1 / max(row.factor, 1e-9)), row.method))

    def became(self, row: Timed) -> str | None:
        """What became of a method, if it is told."""
        is_there = row.now.devices >= self.enough_now and row.before.devices >= self.enough_before
        return row.what if is_there and self.tells(row.p) else None

    def by_reason(self, failed: list[str]) -> dict[str, list[str]]:
        """Keys that fail, by what is said of them."""
        reasons = {GROWN: GROWN, FIRST: "first seen"}
        found: dict[str, list[str]] = {}
        for key in failed:
            found.setdefault(reasons.get(self.whats[key], "new, worse or back") if key in self.whats else SLOWER,
                             []).append(key)
        return found

    # -- lines

    def line(self, what: str, row: Row) -> str:
        sides = (row.before, self.sides.old, self.devices_before), (row.now, self.sides.new, self.devices_now)
        return "\t".join(map(field_of, (
            what, row.verdict, row.kind, row.who, row.path,
            *(f"{seen.captures}/{captures}" for seen, captures, _ in sides),
            *(f"{seen.devices}/{devices}" for seen, _, devices in sides),
            *(rate_text(self.sides.rate(seen, is_new)) for seen, is_new in ((row.before, False), (row.now, True))),
            f"{row.p:.2g}", self.state(row.key), row.key))) + "\n"

    def time_line(self, what: str, row: Timed) -> str:
        sides = (row.before, self.sides.old, self.devices_before), (row.now, self.sides.new, self.devices_now)
        method = row.method
        return "\t".join(map(field_of, (
            what, None, method.part, method.server, method.call,
            *(f"{side.captures}/{captures}" for side, captures, _ in sides),
            *(f"{side.devices}/{devices}" for side, _, devices in sides),
            *(f"{milliseconds(side.ns)} ms, {counted(side.calls, 'call')}" for side, *_ in sides),
            f"{row.p:.2g}", self.state(method.key), method.key))) + "\n"

    def counts(self) -> dict[str, int]:
        return {**{what: len(self.of(what)) for what in (*TOLD, SAME, NOT_MET)},
                **{what: len(self.slower(what)) for what in TIMED}}

    def lines(self, also_same: bool) -> Iterator[str]:
        for what in (*TOLD, *((SAME, NOT_MET) if also_same else ())):
            yield from (self.line(what, row) for row in self.of(what))
        for what in TIMED:
            yield from (self.time_line(what, row) for row in self.slower(what))
        yield ", ".join(f"{count} {what}" for what, count in self.counts().items()) + "\n"
        yield from (f"{build}\n" for build in self.builds)

    def unseen_lines(self) -> Iterator[str]:
        """A line for each known defect that the new build does not have."""
        return unseen_lines({key: one.comment for key, one in self.known.items()},
                            {row.key for row in self.rows if row.now.captures} | self.times.keys)

    @property
    def tests(self) -> int:
        return sum(1 for _ in self.all_tests())

    def powers(self) -> list[Power]:
        """What the captures tell of a new defect in a part of the runs, if no other difference is told. Nothing, if
        each difference is told, or none."""
        if not 0 < self.rate < 1:
            return []
        return power.powers(self.sides.old, self.sides.new, self.rate / max(1, self.tests))

    def failed(self, fail_on: FailOn = FailOn()) -> list[str]:
        """The keys of what is not known, and is new, worse or back, and as strong as that; or has grown so much; or is
        first seen, if that fails; or is a method that is so much slower."""
        rows = [row for what in (NEW, WORSE, BACK) for row in self.of(what)]
        if fail_on.growth is not None:
            rows += [row for row in self.of(GROWN) if self.growth(row) >= fail_on.growth]
        rows = [row for row in rows if fail_on.verdict == "maybe" or row.now.real_devices >= self.enough_now]
        keys = [row.key for row in rows + self.of(FIRST) * fail_on.is_first]
        if fail_on.slower is not None:
            keys += [row.method.key for row in self.slower(SLOWER) if row.factor >= fail_on.slower]
        return [key for key in keys if not self.holds(key)]


def milliseconds(ns: float) -> str:
    return f"{ns / 1e6:.3g}"


def rate_text(rate: chance.Interval | None) -> str:
    """Findings an hour, with the interval."""
    return "-" if rate is None else f"{rate.value:.3g} ({rate.low:.3g} to {rate.high:.3g})"
