"""Made-up waits: waiting.py of the rules must count what following each way from each call counts."""

import random
from typing import Iterator

from viewer.rules.waiting import Call, Pool, Waits, counts

WAITS, MANY = 300, 1000


def made(chance: random.Random) -> Waits:
    """Calls, of which one in three waits for a pool, and pools whose threads some of these calls keep busy."""
    calls, pools = range(1, chance.randrange(2, 26)), range(-1, -chance.randrange(1, 9), -1)
    delivered = {call for call in calls if chance.random() < 0.7}
    after = {call: chance.choice(calls if call in delivered else pools) for call in calls
             if (call in delivered or pools) and chance.random() < 0.8}
    queued = {call for call in after if call not in delivered and chance.random() < 0.8}
    keeps: dict[Call, list[Pool]] = {}
    for pool in pools:
        for call in chance.sample(calls, min(len(calls), chance.randrange(1, 4))):
            keeps.setdefault(call, []).append(pool)
    sends = {pool: chance.randrange(3) + sum(after[call] == pool for call in queued) for pool in pools}
    return Waits(after, keeps, sends, queued, delivered)


def reached(waits: Waits, begin: Call | Pool) -> set[Call | Pool]:
    """All that a call or a pool waits for, directly or not, and itself."""
    found, left = {begin}, [begin]
    while left:
        at = left.pop()
        steps = [call for call, pools in waits.keeps.items() if at in pools] if at < 0 else \
            [waits.next[at]] if at in waits.next else []
        left += [step for step in steps if step not in found]
        found.update(steps)
    return found


def by_each_way(waits: Waits) -> dict[Call, int]:
    """How many wait for each call."""
    found: dict[Call, int] = {}
    for begin in (*waits.delivered, *waits.sends):
        for call in reached(waits, begin) - {begin}:
            if call > 0:
                itself = call in waits.queued and waits.next[call] == begin
                found[call] = found.get(call, 0) + waits.sends.get(begin, 1) - itself
    return found


def faults_of_waits() -> Iterator[str]:
    """What is wrong with how waits are counted."""
    for seed in range(WAITS):
        waits = made(random.Random(seed))
        if (came := dict(counts(waits, MANY))) != (due := by_each_way(waits)):
            yield f"waits {seed}: {waits}: expected {due}, came {came}"
