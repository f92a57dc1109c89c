"""Checks the page and the database that `view` makes of the stored captures, whole, cut, and with frames lost.

    checks/run view [-- CASE..]      plays these cases alone, as `sample/leaks`, or `sample`: all samples
    checks/run view -- --print ..    writes the groups of these samples anew, into checks/recorder/driver/verdicts.txt,
                                     and prints what changed

What must hold:

- For each capture in samples/driver and samples/: the database is whole, and its counts, calls, deliveries, handles and
  oneway sends are those of the report; the page has each row and each head of the report, word by word; every finding
  has a rule.
- For each scenario in samples/driver the groups of verdict real and maybe are those in
  checks/recorder/driver/verdicts.txt. So each fault that was made on purpose has a group, and a scenario without a
  fault has none.
- Captures without a fault, cut at 15 places, have no group of verdict real. They are cut from the end with the whole
  side list, and without a side list; and from the front without a side list, and with one that says which openings were
  met in mid-life.
- If frames of a scenario are lost, in seven ways, only what is real in the whole capture is real. The side list says
  for each lost frame whose it was, or only its number, or only that something without a number was missed.
- In the captures of clients on libgbinder each transaction has its interface and each registered object its service.
  The page has the methods of a table from sources, and captures without a fault have no verdict real and at most two
  maybe.

What `view` takes and says besides is checked by checks/run viewing. Both call the programs of the repository.
"""

import argparse
import contextlib
import itertools
import os
import pathlib
from concurrent.futures import ProcessPoolExecutor

from checks.kit.cases import Part, side_by_side
from checks.kit.checking import FLAG, Fail, check
from checks.kit.programs import DRIVER, ROOT, built_programs
from checks.viewer.page.common import groups_of, loaded, renew_groups
from checks.viewer.page.losses import CUTS, FAULTLESS, check_cuts, check_gaps
from checks.viewer.page.reports import check_sample
from checks.viewer.page.services import CAPTURES, check_libgbinder
from viewer.database import raw_tables


SAMPLES = {path.name: ([path / "capture-1.cap"], path / "capture.side")
           for path in sorted(DRIVER.iterdir()) if path.is_dir()}
SAMPLES |= {path.name: ([path], None) for path in sorted(ROOT.glob("samples/*.cap"))}
SAMPLES |= {"rotated": ([ROOT / "samples/rotated-1.cap", ROOT / "samples/rotated-2.cap"], None)}

PARTS = [
    *(Part(f"sample/{name}", check_sample, of) for name, of in SAMPLES.items()),
    *(Part(f"cut/{name}/{cut}", check_cuts, (name, cut)) for name in FAULTLESS for cut in range(CUTS)),
    *(Part(f"libgbinder/{name}", check_libgbinder, (name,)) for name in CAPTURES),
    *(Part(f"lost/{name}", check_gaps, (name,)) for name, (_, side) in SAMPLES.items() if side)]


def names() -> list[str]:
    return [part.name for part in PARTS]


def check_parts(named: list[str], auditor: pathlib.Path, room: pathlib.Path, fail: Fail) -> None:
    """Plays the parts of these names."""
    raw_tables.loader()
    with side_by_side([part for part in PARTS if part.name in named], built_programs(room, auditor), room, fail):
        pass


def groups_of_sample(folder: pathlib.Path, room: pathlib.Path, name: str) -> list[tuple[str, ...]]:
    with contextlib.closing(loaded(folder, room / f"{name}.db", *SAMPLES[name])) as database:
        return groups_of(database)


def renew_verdicts(named: list[str], folder: pathlib.Path, room: pathlib.Path) -> None:
    """Writes the stored groups of these samples anew, and prints what changed."""
    scenarios = [name for name, (_, side) in SAMPLES.items() if side and f"sample/{name}" in named]
    raw_tables.loader()
    with ProcessPoolExecutor(os.cpu_count()) as pool:
        groups = pool.map(groups_of_sample, itertools.repeat(folder), itertools.repeat(room), scenarios)
        renew_groups(dict(zip(scenarios, groups)))


def judge(given: argparse.Namespace, room: pathlib.Path, fail: Fail) -> None:
    if given.print:
        renew_verdicts(given.cases, built_programs(room, given.programs[0]), room)
    else:
        check_parts(given.cases, given.programs[0], room, fail)


if __name__ == "__main__":
    check(judge, names, print=FLAG)
