"""Labs of results that are made up from fixed seeds: of builds whose defects come by chance, as models say."""

import math
import pathlib
import random
import sqlite3
from collections.abc import Iterable, Iterator
from contextlib import closing
from typing import NamedTuple

from lab.store import FOLDER, open_lab, put
from viewer.units import defect_key

BUILDS, DEVICES, SESSIONS, SECONDS = ("a1", "a2", "b1", "b3"), 20, 50, 420.0


class Model(NamedTuple):
    """A defect: in which share of the captures it is, how many findings it has there on average, and the share of the
    captures that have it in which it is `real`."""
    name: str
    share: float
    n: float
    real: float = 0.0


# Those that are alike in all builds: many rare ones, some that all captures have, some in clumps.
ALIKE = [*(Model(f"rare{number}", 0.02 + number % 6 * 0.02, 1.2) for number in range(110)),
         *(Model(f"often{number}", 0.3 + number % 5 * 0.1, 2 + number % 4) for number in range(25)),
         *(Model(f"always{number}", 1.0, 3 + number, 0.5) for number in range(10)),
         *(Model(f"clump{number}", 0.2, 40) for number in range(5))]

# The planted ones, by build. In b1 one grows by half, and in b3 by three.
PLANTED = {build: (Model("new", 0.0 if build < "b" else 0.5, 1.5, 0.8), Model("gone", 0.5 if build < "b" else 0.0, 1.5),
                   Model("worse", 0.7, 2, 0.0 if build < "b" else 0.7),
                   Model("grown", 1.0, {"b1": 2.5, "b3": 5.0}.get(build, 1.65))) for build in BUILDS}


def drawn(random_: random.Random, mean: float) -> int:
    """A Poisson count."""
    count, left = 0, math.exp(-mean)
    product = random_.random()
    while product > left:
        count, product = count + 1, product * random_.random()
    return count


def finding(name: str, verdict: str = "maybe", n: int = 1, kind: str = "kept", path: str = "code 1 of it") -> dict:
    """A defect of a process, as a result has it."""
    who = f"{name} on binder"
    call = path.removeprefix("reply to ").removesuffix(" of server") if path.startswith("reply") else None
    return {"key": defect_key(kind, who, path), "kind": kind, "who": who, "path": path, "call": call, "n": n,
            "verdict": verdict}


def capture(random_: random.Random, build: str, number: int, **more: object) -> dict:
    """What a result of a build says of its capture, on the devices in turn."""
    return {"digest": f"{random_.getrandbits(128):032x}", "build": build, "device": f"d{number % DEVICES}", "made": 1.0,
            "left_out": 0, "seconds": SECONDS, "side": 1, "prints": 1, **more}


def found_in(random_: random.Random, models: list[Model]) -> Iterator[dict]:
    for model in models:
        mean = random_.choice((1, 5, 2 * model.n)) if model.name.startswith("clump") else model.n
        if random_.random() < model.share and (n := drawn(random_, mean)):
            yield finding(model.name, "real" if random_.random() < model.real else "maybe", n)


def results(seed: int, build: str, models: list[Model], sessions: int = SESSIONS) -> Iterator[dict]:
    """Results of sessions of a build. Each defect could come in each."""
    random_ = random.Random(f"{seed} {build}")
    for number in range(sessions):
        of = capture(random_, build, number)
        of["seconds"] = SECONDS * random_.uniform(0.8, 1.2)
        yield {"capture": of, "found": list(found_in(random_, models)), "talk": [],
               "held": [{"process": f"{model.name} on binder"} for model in models]}


def put_all(lab: sqlite3.Connection, given: Iterable[dict]) -> sqlite3.Connection:
    lab.execute("BEGIN")
    for result in given:
        put(lab, result)
    lab.execute("COMMIT")
    return lab


def lab_of(given: Iterable[dict]) -> sqlite3.Connection:
    """A lab of these results, in memory."""
    lab = sqlite3.connect(":memory:", isolation_level=None)
    for name in "lab.sql", "builds.sql":
        lab.executescript((FOLDER / name).read_text("utf-8"))
    return put_all(lab, given)


def made(path: pathlib.Path, seed: int, builds: dict[str, list[Model]]) -> None:
    with closing(open_lab(str(path), may_make=True)) as lab:
        put_all(lab, (result for build, models in builds.items() for result in results(seed, build, models)))


def alone(build: str, captures: list[list[dict]]) -> Iterator[dict]:
    """Results of captures that have these findings, and no other processes and calls."""
    random_ = random.Random(build)
    for number, found in enumerate(captures):
        talk = [{"caller": one["who"], "server": "server on binder", "call": one["call"]} for one in found]
        yield {"capture": capture(random_, build, number), "found": found, "talk": talk,
               "held": [{"process": one["who"]} for one in found]}


def small_lab(builds: dict[str, list[list[dict]]]) -> sqlite3.Connection:
    """A lab of captures that have these findings, by build. Every process is in every capture."""
    random_ = random.Random(str(builds))
    held = [{"process": who} for who in sorted({one["who"] for captures in builds.values() for found in captures
                                                for one in found})]
    return lab_of({"capture": capture(random_, build, number), "found": found, "talk": [], "held": held}
                  for build, captures in builds.items() for number, found in enumerate(captures))
