"""How many wait for each open call, directly or not.

A call waits for at most one other call, or for one full pool: so calls are trees, whose roots wait for nothing or for a
pool, or rings that trees lead to. A pool waits for what each of its threads is in. So calls are counted from the leaves
on, each from what was counted of those that wait for it alone: a capture may have a chain of very many. What is kept of
a call is a number and at most `POOLS` pools."""

import sqlite3
from collections import Counter, defaultdict, deque
from typing import Container, Iterable, Iterator, NamedTuple

# A call is its finding, and a full pool is its process with a minus.
Call = int
Pool = int


class Waits(NamedTuple):
    """What waits for what: the one call or pool that each call waits for, the pools of which a call keeps a thread
    busy, how many sends wait in each pool, which calls are among these, and which were delivered."""
    next: dict[Call, Call | Pool]
    keeps: dict[Call, list[Pool]]
    sends: dict[Pool, int]
    queued: Container[Call]
    delivered: Container[Call]


class Ring(NamedTuple):
    """Calls that wait for each other, or most often one call; and what they wait for, 0 if that is nothing else."""
    calls: list[Call]
    next: Call | Pool


def from_leaves(waits: Waits) -> Iterator[Ring]:
    """The calls, each after all that wait for it."""
    calls = {*waits.next, *waits.keeps, *(after for after in waits.next.values() if after > 0)}
    left = Counter(after for after in waits.next.values() if after > 0)
    ready = [call for call in calls if not left[call]]
    while ready:
        call = ready.pop()
        calls.remove(call)
        after = waits.next.get(call, 0)
        yield Ring([call], after)
        if after > 0:
            left[after] -= 1
            ready += [] if left[after] else [after]
    while calls:
        ring = [calls.pop()]
        while waits.next[ring[-1]] != ring[0]:
            ring.append(waits.next[ring[-1]])
        calls.difference_update(ring)
        yield Ring(ring, 0)


def delivered_to(waits: Waits, rings: list[Ring]) -> Counter:
    """How many delivered calls lead to each call, and to each pool, without a pool on the way."""
    led: Counter = Counter()
    for ring in rings:
        whole = sum(led[call] + (call in waits.delivered) for call in ring.calls)
        for call in ring.calls:
            led[call] = whole - (call in waits.delivered)
        led[ring.next] += whole
    return led


def pools_of(waits: Waits, rings: list[Ring]) -> dict[Call, Pool]:
    """The pool that each call leads to, if it does."""
    found: dict[Call, Pool] = {}
    for ring in reversed(rings):
        for call in ring.calls:
            found[call] = ring.next if ring.next <= 0 else found[ring.next]
    return found


def first(most: int, pools: Iterable[Pool]) -> set[Pool]:
    """So many of these pools at most."""
    taken: set[Pool] = set()
    for pool in pools:
        if len(taken) == most:
            break
        taken.add(pool)
    return taken


def behind(pool: Pool, waiting: dict[Pool, list[Pool]]) -> Iterator[Pool]:
    """A pool, and those that wait for it, the nearest ones first."""
    found, seen = deque([pool]), {pool}
    while found:
        yield found[0]
        more = [other for other in waiting[found.popleft()] if other not in seen]
        seen.update(more)
        found.extend(more)


def counts(waits: Waits, most: int) -> Iterator[tuple[Call, int]]:
    """For each call that something waits for how many that are: the calls that lead to it, and for each full pool that
    it keeps busy, directly or not, what waits there and what leads there. In a ring, no call waits for itself."""
    rings = list(from_leaves(waits))
    led, leads_to = delivered_to(waits, rings), pools_of(waits, rings)
    waiting: dict[Pool, list[Pool]] = defaultdict(list)
    for call, held_up in waits.keeps.items():
        waiting[leads_to[call]].extend(held_up)
    busy: dict[Call, set[Pool]] = defaultdict(set)
    for ring in rings:
        pools = first(most, (pool for call in ring.calls for of in (
            busy.pop(call, ()), *(behind(kept, waiting) for kept in waits.keeps.get(call, ()))) for pool in of))
        at_pools = sum(waits.sends[pool] + led[pool] for pool in pools)
        for call in ring.calls:
            if pools or led[call]:
                own = (call in waits.delivered) + (call in waits.queued)
                yield call, at_pools + (-own if leads_to[call] in pools else led[call])
        if pools and ring.next > 0:
            busy[ring.next] = first(most, (pool for of in (busy[ring.next], pools) for pool in of))


def count(database: sqlite3.Connection, most: int) -> None:
    """Fills the table `waited`. After waits.sql."""
    keeps: dict[Call, list[Pool]] = defaultdict(list)
    for pool, call in database.execute("SELECT id, next FROM step WHERE id < 0"):
        keeps[call].append(pool)
    waits = Waits(dict(database.execute("SELECT id, next FROM step WHERE id > 0")), keeps,
                  dict(database.execute("SELECT -upid, n FROM full_pool")),
                  {call for call, in database.execute("SELECT id FROM queued")},
                  {call for call, in database.execute("SELECT id FROM waits WHERE delivery NOTNULL")})
    database.executemany("INSERT INTO waited VALUES (?, ?)", counts(waits, most))
