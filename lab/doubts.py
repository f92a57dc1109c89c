"""Why a comparison tells less than there is, or more."""

from collections.abc import Iterator

from lab import chance
from lab.compare import Comparison
from lab.order import wrong_clocks
from lab.power import SURE
from lab.renamed import guesses, had
from lab.sides import versions_of
from lab.uncounted import uncounted
from viewer.defects.changes import GONE, NEW, NOT_MET
from viewer.defects.times import FACTOR, PARTS
from viewer.units import counted


def doubts(compared: Comparison) -> Iterator[str]:
    """A sentence for each reason."""
    yield from unknown_builds(compared)
    yield from (str(one) for one in uncounted(compared.builds) if one.counted < one.due)
    yield from too_few(compared)
    yield from unlike_captures(compared)
    yield from busier(compared)
    yield from several_versions(compared)
    yield from wrong_clocks(compared.sides.lab, [build.name for build in compared.builds])
    yield from other_names(compared)


def unknown_builds(compared: Comparison) -> Iterator[str]:
    for until in dict.fromkeys(one.until for one in compared.known.values()):
        if until is not None and until not in compared.order:
            yield f"the lab has no build {until}: what is known until then is taken as known"


def of_hundred(share: float) -> str:
    return f"{100 * share:.0f}"


def too_few(compared: Comparison) -> Iterator[str]:
    """What these captures would not tell, even if it were all that is new."""
    powers = compared.powers()
    weak = [one for one in powers if one.told < SURE]
    if not weak:
        return
    said = (f"of {compared.sides.old} and {counted(compared.sides.new, 'capture')}, beside"
            f" {counted(compared.tests, 'test')}, ")
    if not powers[0].told:
        said += "not even a new defect in all runs is told (--rate 100 tells all there are)"
    else:
        said += "a new defect in " + ", ".join(f"{of_hundred(one.share)} % of the runs is told in"
                                               f" {of_hundred(one.told)}" for one in weak) + " of 100 comparisons"
    needed = ", ".join(f"{one.needed} for {of_hundred(one.share)} %" for one in powers)
    yield f"{said}; {of_hundred(SURE)} of 100 take so many captures of each side: {needed}"


def unlike_captures(compared: Comparison) -> Iterator[str]:
    sides = compared.sides
    if without := sum(not one.has_side for one in sides.captures.values()) % (sides.old + sides.new):
        yield f"{counted(without, 'capture')} without a side list, whose keys and verdicts may differ"
    if parts := sum(one.is_of_part for one in sides.captures.values()) % (sides.old + sides.new):
        yield (f"{counted(parts, 'capture')} of a part of a system (--pid, --only, --device), whose keys and verdicts"
               " may differ")
    if sides.timed:
        lengths = sides.seconds_old / sides.old, sides.seconds_new / sides.new
        if max(lengths) > 2 * min(lengths):
            yield (f"captures are {lengths[0]:.0f} s long in the old builds and {lengths[1]:.0f} s in"
                   f" {compared.builds[-1].name}: the longer ones have a defect more often")


def busier(compared: Comparison) -> Iterator[str]:
    """Methods that all take longer or less long, of which no single one is told."""
    for part in PARTS:
        load, p = compared.times.load(part)
        if p <= compared.rate and not 1 / FACTOR < load < FACTOR:
            yield (f"the {part} of methods takes {load:.2g} times as long in {compared.builds[-1].name} as before: its"
                   " devices had other loads, or all is slower; only what differs by more than that is told")


def several_versions(compared: Comparison) -> Iterator[str]:
    versions = versions_of(compared.sides.lab, [build.name for build in compared.builds])
    if versions:
        yield f"results of several versions, whose rules may differ: {', '.join(versions)}"


# At most so many names are named that may have changed.
GUESSED = 5


def other_names(compared: Comparison) -> Iterator[str]:
    """Names that are gone beside new ones with defects that are alike: processes or interfaces may have been renamed.
    """
    sides = compared.sides
    gone = [had(row.kind, row.who, row.path, row.before.captures)
            for what in (GONE, NOT_MET) for row in compared.of(what)]
    new = [had(row.kind, row.who, row.path, row.now.captures) for row in compared.of(NEW)]
    found = guesses(gone, new, lambda before, now: chance.fisher(before, sides.old, now, sides.new) > compared.rate)
    there, before = sides.words_of(True) if found else set(), sides.words_of(False) if found else set()
    some = [one for one in found if one.old not in there and one.new not in before]
    # A name may stand for others that it begins, as an interface for its methods.
    for one in [one for one in some if not any(one.old.startswith(f"{other.old}.") for other in some)][:GUESSED]:
        yield (f"{one.old} is gone and {one.new} is new, with {counted(one.defects, 'defect')} alike: if it was"
               f" renamed, a file for --renamed has the line {one.old} = {one.new}")
