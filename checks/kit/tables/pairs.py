"""Which delivery came from which send: delivery, certain and fits of raw_send, by viewer/database/schema.sql."""

from collections import Counter
from typing import NamedTuple

from checks.kit.tables.calls import ANSWERED, REPLIED, Call
from checks.kit.tables.cut import GOT_REPLY, Record
from checks.kit.tables.meanings import Meanings
from checks.kit.tables.messages import Delivery, Key, Node, Send
from checks.kit.tables.seen import Seen

WALKS, MOST_LOOKED_AT = 5, 64
# From this number on a process has no id of the system.
MADE_UP = 4_194_304


class Facts(NamedTuple):
    """What stays as it is on all walks. `missing` says how many frames are missing before a sequence, and `at_end`
    before the end; `numbers` are the numbers of the processes in the frames, by their upid."""
    sends: list[Send]
    deliveries: list[Delivery]
    seen: Seen
    missing: dict[int, int]
    at_end: int
    numbers: dict[int, int]
    sent_by: dict[Record, Send]
    received_by: dict[Record, Delivery]


class Found(NamedTuple):
    """A delivery's send. `fits` is how many it may have come from."""
    send: Send
    certain: bool
    fits: int


class Walk:
    """What is found on one walk, beside the sure pairs."""

    def __init__(self) -> None:
        self.guesses: dict[Delivery, Found] = {}
        self.guessed: set[Send] = set()
        # Of each key the sends in doubt, and how many of them came; and the sends that are no candidates any more.
        self.doubted: dict[Key, list[Send]] = {}
        self.came: Counter[Key] = Counter()
        self.all_came: set[Send] = set()
        # The deliveries that may have come from a send, with rank 0; and the keys of which not all were looked at.
        self.may_be_of: dict[Send, list[Delivery]] = {}
        self.crowded: set[Key] = set()

    def doubt(self, key: Key, sends: list[Send]) -> None:
        """One of these sends came."""
        doubted = self.doubted.setdefault(key, [])
        doubted += [it for it in sends if it not in doubted]
        self.came[key] += 1
        self.forget(key)

    def leave(self, send: Send, came: int) -> None:
        """A send is not in doubt any more; it is one of those that came, or none of them."""
        if send in self.doubted.get(send.key, ()):
            self.doubted[send.key].remove(send)
            self.came[send.key] = max(0, self.came[send.key] - came)
            self.forget(send.key)

    def forget(self, key: Key) -> None:
        if self.came[key] >= len(self.doubted[key]):
            self.all_came.update(self.doubted.pop(key))
            del self.came[key]

    def close_before(self, delivery: Delivery) -> None:
        """Takes the calls out of doubt that are closed before a delivery."""
        for it in list(self.doubted.get(delivery.key, ())):
            if it.is_closed_before(delivery.place):
                self.leave(it, 1)


class Pairs:
    def __init__(self, facts: Facts) -> None:
        self.facts = facts
        self.meanings = Meanings()
        self.sure: dict[Delivery, Send] = {}
        self.taken: set[Send] = set()
        self.news = False
        self.of_key: dict[Key, list[Send]] = {}
        for send in facts.sends:
            if send.is_transaction:
                self.of_key.setdefault(send.key, []).append(send)

    # ---- what may be the send of a delivery

    def is_whole(self, call: Call) -> bool:
        """Whether no frame is missing in a call, or after one that is open."""
        end = self.facts.missing[call.closer.seq] if call.closer else self.facts.at_end
        return end == self.facts.missing[call.opener.seq]

    def lie_as_they_should(self, made: Call, served: Call) -> bool:
        if not self.is_whole(made) or not self.is_whole(served):
            return True
        reply, answer = served.closer, made.closer
        if served.verdict != REPLIED or reply is None:
            return made.verdict != ANSWERED
        if answer is None:
            return True
        if made.verdict == ANSWERED and self.facts.sent_by[reply].key != self.facts.received_by[answer].key:
            return False
        return reply.place < answer.place

    def rank(self, send: Send, delivery: Delivery) -> int:
        if send.call is None or delivery.call is None:
            return 0
        pid, number = delivery.record.fields["sender_pid"], self.facts.numbers[send.process]
        is_its_own = pid in (0, number) or number >= MADE_UP
        return (0 if self.lie_as_they_should(send.call, delivery.call) else 1) + (0 if is_its_own else 2)

    def known(self, send: Send) -> Node | None:
        return self.meanings.node_of(send.target, send)

    def goes_elsewhere(self, send: Send, delivery: Delivery) -> bool:
        """Whether a send of which no node is known goes to another one than that of a delivery."""
        return send.process == delivery.process or self.meanings.has_other(send.target, send, delivery.node)

    def candidates(self, delivery: Delivery, walk: Walk) -> list[Send]:
        """The sends that are looked at, in this order."""
        found = [it for it in self.of_key.get(delivery.key, ())
                 if it.place < delivery.place and it not in self.taken and it not in walk.all_came
                 and not it.is_closed_before(delivery.place) and (it.refused is None or it.missing > 0)
                 and self.known(it) in (None, delivery.node)]
        return sorted(found, key=lambda it: (it in walk.guessed, self.known(it) is None))

    def may_be(self, send: Send, delivery: Delivery) -> bool:
        """Whether nothing speaks against a candidate but another one."""
        if self.facts.seen.all_are_there(delivery) and send.missing != delivery.missing:
            return False
        return self.known(send) is not None or not self.goes_elsewhere(send, delivery)

    # ---- a walk

    def walk(self, with_oneway: bool) -> Walk:
        walk = Walk()
        for it in self.facts.deliveries:
            if it.record.kind != GOT_REPLY and it not in self.sure and (with_oneway or not it.oneway):
                self.pair(it, walk)
        self.claim(walk)
        return walk

    def pair(self, delivery: Delivery, walk: Walk) -> None:
        walk.close_before(delivery)
        candidates = self.candidates(delivery, walk)
        left = [it for it in candidates[:MOST_LOOKED_AT] if self.may_be(it, delivery)]
        if len(candidates) > MOST_LOOKED_AT:
            walk.crowded.add(delivery.key)
        if not left:
            return
        ranks = {it: self.rank(it, delivery) for it in left}
        least = min(ranks.values())
        left = [it for it in left if ranks[it] == least]
        if least or len(candidates) > MOST_LOOKED_AT or not self.facts.seen.all_are_there(delivery):
            self.guess(delivery, left, least, walk, Found(left[0], False, len(left) + 1))
            return
        certain = len({it.target for it in left}) == 1
        if certain and delivery.oneway:
            left = next_ones(left, walk)
        if certain and len(left) == 1:
            self.news |= not is_fresh(left[0], walk)
            self.make_sure(delivery, left[0])
            walk.leave(left[0], 0)
            return
        if certain:
            self.meanings.learn(left[0].target, left[0], delivery.node)
        self.guess(delivery, left, least, walk, Found(left[0], certain, len(left)))
        walk.doubt(delivery.key, left)

    def guess(self, delivery: Delivery, left: list[Send], rank: int, walk: Walk, found: Found) -> None:
        if rank == 0:
            for it in left:
                walk.may_be_of.setdefault(it, []).append(delivery)
        if best := self.best(left, delivery, walk):
            walk.guesses[delivery] = found._replace(send=best)
            walk.guessed.add(best)

    def best(self, left: list[Send], delivery: Delivery, walk: Walk) -> Send | None:
        """The one that is taken by guess."""
        def order(it: Send) -> tuple[bool, float, int]:
            closer = it.call.closer if it.call else None
            end = 0 if it.call is None else closer.place if closer else float("inf")
            return self.meanings.once(it.target) is None, end, it.place
        free = [it for it in left if it not in walk.guessed and it.refused is None
                and self.meanings.once(it.target) in (None, delivery.node)]
        return min(free, key=order) if free else None

    def make_sure(self, delivery: Delivery, send: Send) -> None:
        self.sure[delivery] = send
        self.taken.add(send)
        self.meanings.learn(send.target, send, delivery.node)
        self.learn_objects(send, delivery)
        ends = self.reply_to(delivery, send)
        if ends and ends[1].missing == send.missing:
            self.learn_objects(*ends)

    def learn_objects(self, sent: Send, came: Delivery) -> None:
        """What the objects of a message mean on both sides."""
        for index, ours in sent.handles.items():
            if index in came.handles:
                self.meanings.learn_same(ours, sent, came.handles[index], came)
            elif index in came.nodes:
                self.meanings.learn(ours, sent, came.nodes[index])
        for index, node in sent.nodes.items():
            if index in came.handles:
                self.meanings.learn(came.handles[index], came, node)

    def claim(self, walk: Walk) -> None:
        """Makes the pairs sure of calls that must have come."""
        claimed: dict[Delivery, list[Send]] = {}
        for send, deliveries in walk.may_be_of.items():
            call = send.call
            if (len(deliveries) == 1 and call and call.verdict == ANSWERED and self.is_whole(call)
                    and send not in self.taken and send.key not in walk.crowded):
                claimed.setdefault(deliveries[0], []).append(send)
        for delivery, sends in claimed.items():
            if len(sends) == 1 and delivery not in self.sure:
                self.make_sure(delivery, sends[0])
                self.news = True

    # ---- replies, and the whole

    def reply_to(self, delivery: Delivery, send: Send) -> tuple[Send, Delivery] | None:
        """The reply to a call of which the delivery is found, as it was sent and as it came."""
        made, served = send.call, delivery.call
        if not made or not served or made.verdict != ANSWERED or served.verdict != REPLIED:
            return None
        if made.closer is None or served.closer is None:
            return None
        reply, answer = self.facts.sent_by[served.closer], self.facts.received_by[made.closer]
        return (reply, answer) if reply.key == answer.key else None

    def all_walks(self) -> None:
        for number in range(WALKS):
            self.news = False
            walk = self.walk(number > 0)
            self.news |= self.meanings.settle()
            if number and not self.news:
                break
        found = {it: guess for it, guess in walk.guesses.items()
                 if it not in self.sure and guess.send not in self.taken}
        found |= {it: Found(send, True, 1) for it, send in self.sure.items()}
        for delivery, (send, certain, fits) in found.items():
            couple(send, delivery, certain, fits)
            if ends := self.reply_to(delivery, send):
                is_whole = ends[1].missing == send.missing
                couple(*ends, certain and is_whole, fits + (0 if is_whole else 1))


def is_fresh(send: Send, walk: Walk) -> bool:
    """Whether a send is not refused, and no delivery before may have come from it."""
    return send.refused is None and send not in walk.guessed and send not in walk.may_be_of


def next_ones(left: list[Send], walk: Walk) -> list[Send]:
    """Of oneway sends of one generation those that may come next."""
    fresh = [it for it in left if is_fresh(it, walk)]
    first = min(fresh, key=lambda it: it.place, default=None)
    return left if first is None else [it for it in left if not was_taken_after(it, first)]


def was_taken_after(send: Send, first: Send) -> bool:
    """Whether the driver took a oneway send after another one."""
    if send.updates or send.place <= first.place:
        return False
    return send.thread == first.thread or first.confirmed is not None and first.confirmed.place < send.place


def couple(send: Send, delivery: Delivery, certain: bool, fits: int) -> None:
    delivery.send = send
    send.delivery, send.certain, send.fits = delivery, certain, fits
