"""The thresholds of the rules, by the names that statements and sentences have for them: `:LONG` is 0.1 s. Times are in
nanoseconds. The page says what they are by `in_words`, and docs/RULES.md has those with a meaning."""

import re
from typing import NamedTuple


class Threshold(NamedTuple):
    """A threshold. `meaning` is for docs/RULES.md; one without it says how far statements look, since more says no
    more."""
    value: int | float
    meaning: str = ""
    is_time: bool = False


TABLE = {
    # Nothing younger is old or late (U2, U4, C1, H3); what is left undone so shortly before an end, or freed only then,
    # comes of that end (T1, W2); a thread that did something so shortly before it waits for no lock (C8, C9); and a
    # process that ends so shortly after another one does not end by itself (E9).
    "LONG": Threshold(100_000_000, "a younger finding is neither old nor late; one so short before an end comes of"
                      " that end", is_time=True),
    # Long even for a single send or handle after the news of a death (E1, E2, H3), and for what waits for a busy pool
    # (C6, Q1, Q2). Up to here a buffer is also under way if no more frames came over it than over others (U1). A
    # process that ends in this last time of the recording ends with it (E9).
    "VERY_LONG": Threshold(1_000_000_000, "long even for one send after the news of a death, or a wait for a pool",
                           is_time=True),
    # Old is what has lasted over so many times as long as the longest completed one of its path (U2, C8), or
    # what waits for a pool so many times as long as the median (Q1).
    "OLD": Threshold(10, "an old finding has lasted over {OLD} times as long as the longest of the path"),
    # For up to so many times as long, a call or a oneway send is under way (U1).
    "USUAL": Threshold(2, "a call or oneway send is under way up to {USUAL} times the longest of the path"),
    # So many must have completed before the longest of them says something (U1, U2), or how
    # those waited that came to a node (W4).
    "ENOUGH": Threshold(3, "the longest of a path counts from {ENOUGH} completed ones on"),
    # So many are no accident: of one path (U3, R1, C4, E9, E10), of one thread (E4) or process (H3), for one pool (Q1),
    # or times that a thread went on (U2).
    "OFTEN": Threshold(3, "so many are no accident"),
    # This share of a path is nearly all of it (U3, R1, H5); so is that of a time for which loopers were busy, and the
    # rest of it is enough for a method to be named (Q1, Q2).
    "NEARLY_ALL": Threshold(0.8, "this share of a path, or of a time, is nearly all of it"),
    # So many handles that one process handed over may be a leak (H5, H9), and so many that were let go of tell how long
    # one is needed (H8), or that the way is let go of still (H13, H14).
    "MANY": Threshold(4, "so many kept handles of a way may be a leak; so many released ones tell of the others"),
    # What was used in this last part of a time was used lately, and what grows does so in this last part (H5, H6, H8,
    # H9), by this share of what is held at its end.
    "LATELY": Threshold(0.5, "this last share of a time is lately"),
    "GROWTH": Threshold(0.1, "at least this share of what a growing process holds at the end came lately"),
    # So many are no design: sends of one thread to what has ended or is frozen (E11, E12), unused handles of one way
    # (H10, H14) and references to one object (H11) that become more to the end, and handles that their giver forgets
    # (H13).
    "TOO_MANY": Threshold(10, "so many are no design: sends to what has ended, unused handles, references to one"
                          " object"),
    # So often the same request at one period is no accident: it asks for what has not changed (V3).
    "AGAIN": Threshold(20, "the same request so often, at one period, is polling"),
    # Sends that are evenly spaced and faster than they are taken wait six times as long in the last quarter as in the
    # first one (W4, W12).
    "GROWN": Threshold(4, "sends that at last wait over {GROWN} times as long as the first ones wait longer and"
                       " longer"),
    # If more than this share of what is kept of a way is in use, it is a cache (H5, H6); and it is no leak if no more
    # than the rest of it is not in use (H10).
    "MOST": Threshold(0.5, "the kept handles of a way are a cache if more than this share is in use"),
    # What a process took in the first quarter of its time is kept by design if nothing came for so long since (H5, H6).
    "SETTLED": Threshold(10_000_000_000, "what a process took at its start is kept by design if nothing came for so"
                         " long", is_time=True),

    # -- How far statements look.
    # `later` of a finding rises up to here, and so many calls, or frames, after it are looked at.
    "MOST_LATER": Threshold(4), "CALLS_AHEAD": Threshold(64), "FRAMES_AHEAD": Threshold(2000),
    # Of some so many buffers, or calls, the median is taken.
    "SAMPLE": Threshold(10_000),
    # So many steps are taken from a handle that was passed on to its node, and from a call to those that it waits for.
    "STEPS": Threshold(8),
    # A process that has no more open calls than these may wait, with each of them, for each of another such process;
    # and what others wait for there may wait for each of these calls (C8, C9).
    "FEW": Threshold(16),
    # So many steps are taken in all to look for rings (C3, C8, C9), or if there are very many open calls, up to twice
    # STEPS from each, the shortest ways first. Of the full pools that a call keeps busy, so many count for what waits
    # for it.
    "MOST_STEPS": Threshold(100_000), "POOLS": Threshold(64),
    # The driver's log of failed transactions has so many entries: as many may have come to it after the last frame.
    "LOGGED": Threshold(32),
    # So many refused sends have a note of what was in the way, and so many others are named that keep handles, too.
    "NOTED": Threshold(16), "NAMED": Threshold(4),
}
THRESHOLDS = {name: threshold.value for name, threshold in TABLE.items()}

NUMBERS = ("no", "one", "two", "three", "four", "five", "six", "seven", "eight", "nine", "ten", "eleven", "twelve")


def value_of(name: str) -> str:
    """A threshold as a number: `0.1 s`, `10`, `0.8`."""
    value, _, is_time = TABLE[name]
    return f"{value / 1_000_000_000:g} s" if is_time else f"{value:g}"


def in_words(text: str) -> str:
    """A text with the values of thresholds in place of their names: `{OFTEN} or more` is `Three or more`."""
    def told(found: re.Match) -> str:
        value, is_time = TABLE[found[1]].value, TABLE[found[1]].is_time
        word = value_of(found[1]) if is_time or value not in range(len(NUMBERS)) else NUMBERS[int(value)]
        return word.capitalize() if found.start() == 0 else word
    return re.sub(r"\{([A-Z_]+)\}", told, text)
