"""Which node each generation of a handle is known to mean: viewer/database/schema.sql, above raw_send."""

from checks.kit.tables.handles import Generation
from checks.kit.tables.messages import Message, Node

# Of how many generations of a process that are known to mean one node it is asked whether they are there at a time.
MOST_ASKED = 16
# How often what was learnt is spread over the pairs of generations that mean the same.
MOST_SPREADS = 16


class Meanings:
    """What is known on this walk, and what was learnt for the next one."""

    def __init__(self) -> None:
        self.known: dict[Generation, set[Node]] = {}
        self.learnt: dict[Generation, set[Node]] = {}
        self.same: list[tuple[Generation, Generation]] = []
        # The generations of a process that were known to mean a node.
        self.of_node: dict[tuple[int, Node], list[Generation]] = {}

    def learn(self, generation: Generation, at: Message, node: Node) -> None:
        """A generation means a node, by what it was used for in a message."""
        if generation.missing == at.missing:
            self.learnt.setdefault(generation, set()).add(node)

    def learn_same(self, one: Generation, sent: Message, other: Generation, came: Message) -> None:
        if one.missing == sent.missing and other.missing == came.missing:
            self.same.append((one, other))

    def settle(self) -> bool:
        """Makes known what was learnt. Returns whether that is more than before."""
        for _ in range(MOST_SPREADS):
            if not self.spread():
                break
        before, self.known = self.known, {it: set(nodes) for it, nodes in self.learnt.items() if nodes}
        for generation in self.known:
            if node := self.once(generation):
                of_node = self.of_node.setdefault((generation.process, node), [])
                if generation not in of_node:
                    of_node.append(generation)
        return self.known != before

    def spread(self) -> bool:
        """What one of two generations means that mean the same, the other means too. Returns whether that is more."""
        more = False
        for one, other in self.same:
            either = self.learnt.get(one, set()), self.learnt.get(other, set())
            together = either[0] | either[1]
            more |= either != (together, together)
            self.learnt[one] = self.learnt[other] = together
        return more

    def once(self, generation: Generation) -> Node | None:
        """The node that a generation is known to mean before a frame is missing."""
        nodes = self.known.get(generation, ())
        return next(iter(nodes)) if len(nodes) == 1 else None

    def node_of(self, generation: Generation, at: Message) -> Node | None:
        """The node that a generation is known to mean at a message."""
        return self.once(generation) if generation.missing == at.missing else None

    def has_other(self, generation: Generation, at: Message, node: Node) -> bool:
        """Whether the process has at that time another generation that is known to mean the node."""
        others = sorted(self.of_node.get((generation.process, node), ()), key=lambda it: it.id)[:MOST_ASKED]
        return generation.missing == at.missing and any(
            other is not generation and self.node_of(other, at) == node and other.overlaps(generation)
            for other in others)
