"""The groups of findings, with what the page shows of each."""

from typing import Iterator, NamedTuple

from viewer.calls.tree import Tree
from viewer.defects.gate import Shown
from viewer.page.around_place import lane_of
from viewer.page.capture import ROWS, Capture
from viewer.page.no_space import filling_of
from viewer.page.plots import Plot, growth_of, marked
from viewer.page.stacks import GroupStacks, Stacks
from viewer.page.strip import Spans

# The most findings of a group, and lanes and trees of a page.
FINDINGS, LANES, TREES = 100, 300, 100


class Finding(NamedTuple):
    """A finding, as the page shows it. `row` is that of the proved report, and `longest` the longest of its path that
    came to a good end, of `good` ones; `lasted` is how long it has lasted, and `at` where it is on the strip."""
    section: str
    place: int | None
    lane: int | None
    lane_utid: int | None
    upid: int
    rule: str
    note: str | None
    row: str | None
    thread: int | None
    id: int
    good: int | None
    longest: int | None
    ts: int | None
    size: int | None
    lasted: int | None
    at: str
    says: str | None


class Group:
    """A group. It has no more findings than the page shows, and one."""

    def __init__(self, capture: Capture, stacks: Stacks, spans: Spans, shown: Shown, row: tuple):
        (self.number, self.verdict, self.title, self.path, self.n, self.n_all, self.first, self.last, self.waiting,
         rules, self.note) = row
        self.rules = rules.split(",")
        self.found = [Finding._make((*row, spans.lasted[row[9]], spans.word(row[9]), capture.says(row[1])))
                      for row in capture.asked("findings", self.number, FINDINGS + 1)]
        self.who = [upid for upid, in capture.asked("group_who", self.number)]
        keys = [key for key, in capture.asked("group_keys", self.number)]
        self.marks = list(dict.fromkeys(mark for key in keys for mark in shown.marks.get(key, ())))
        self.seen = list(dict.fromkeys(shown.seen[key] for key in keys if key in shown.seen))
        self.keys = keys
        self.begun, self.ended = capture.asked("group_times", self.number)[0]
        self.at, self.until = spans.of(self.number), spans.until(self.number)
        self.plot = self.plot_of(capture)
        self.filling = filling_of(capture, self.number)
        self.stacks = GroupStacks(stacks, self.number)
        self.lane: tuple | None = None
        self.tree: Tree | None = None

    @property
    def columns(self) -> dict[str, bool]:
        """The columns of its table that say something, each with whether it has numbers."""
        def some(name: str) -> bool:
            return any(getattr(one, name) is not None for one in self.found)
        has_age = some("lasted")
        said = {"place": True, "at": some("ts"), "held for": has_age, "others at most": has_age and some("good"),
                "size": some("size"), "thread": True, "arguments": some("says"), "rule": len(self.rules) > 1,
                "note": bool({one.note for one in self.found} - {None, "", self.note}), "row of the report": True}
        return {name: name in ("place", "at", "held for", "others at most", "size") for name in said if said[name]}

    def plot_of(self, capture: Capture) -> Plot | None:
        """How many findings it has over time or, of few, where they are."""
        if self.n >= 8:
            return growth_of(capture, self.number)
        places = [one.place for one in self.found if one.place is not None]
        return marked(places, capture.facts["bytes"]) if places else None


class Groups:
    """The groups of a capture. The first of a page have lanes, what the thread of the first finding did around it; and
    those that are calls have trees, where the time of the longest one went."""

    def __init__(self, capture: Capture, spans: Spans, shown: Shown):
        self.capture, self.stacks, self.spans, self.shown = capture, Stacks(capture), spans, shown
        self.lanes = self.trees = 0

    def of(self, *verdicts: str) -> Iterator[Group]:
        """The groups of some verdicts, one after another."""
        for verdict in verdicts:
            for row in self.rows(verdict)[:ROWS]:
                group = Group(self.capture, self.stacks, self.spans, self.shown, row)
                if verdict != "normal" and self.lanes < LANES:
                    self.give_lane(group)
                if verdict != "normal" and self.trees < TREES:
                    self.give_tree(group)
                yield group

    def left(self, *verdicts: str) -> int:
        """How many groups there are that `of` leaves out."""
        return sum(max(len(self.rows(verdict)) - ROWS, 0) for verdict in verdicts)

    def rows(self, verdict: str) -> list[tuple]:
        return [row for row in self.capture.asked("groups", verdict, -1) if row[0] in self.capture.groups]

    def give_tree(self, group: Group) -> None:
        """Gives a group of calls where the time of one went, if there are times."""
        for root, in self.capture.asked("group_call", group.number, FINDINGS):
            tree = Tree(self.capture.database, self.capture.names, root)
            if tree.hops and tree.root.dur is not None:
                self.trees += 1
                group.tree = tree

    def give_lane(self, group: Group) -> None:
        """Gives a group the place of its first finding that has a thread, and the lines around that."""
        for one in group.found:
            if one.lane is not None and one.lane_utid is not None:
                self.lanes += 1
                group.lane = one.lane, list(lane_of(self.capture, one.lane_utid, one.lane))
                return
