"""A lab of made-up sessions of four builds, by lab/Makefile and the real programs, and what `fleet compare` says of
each pair. Builds a1 and a2 are the same. In b1 a fault is new, another one is mended, and a third one comes half as
often again as before; in b3 it comes three times as often. By hand: prints a table."""

import os
import pathlib
import random
import subprocess
import time
from collections import Counter

from checks.kit.captures import ENTER
from checks.kit.checking import Fail, compare, row
from checks.kit.runs import answer
from checks.kit.tokens import marked
from checks.viewer.sessions.session import Session
from lab.first_seen import FIRST

BUILDS, DEVICES = ("a1", "a2", "b1", "b3"), 20
SERVERS = ("surfaceflinger", "audioserver", "system_server", "mediaserver")
CLIENTS = ("system_ui", "launcher", "camera")
CODES, CALLS = 10, 240

# How often the first client keeps a reply that it should free, by server and code, in each build. The new fault comes
# in some sessions.
FAULTS = {("surfaceflinger", 2): {"a1": 0.0, "a2": 0.0, "b1": 0.2, "b3": 0.2},
          ("audioserver", 4): {"a1": 0.2, "a2": 0.2, "b1": 0.0, "b3": 0.0},
          ("system_server", 2): {"a1": 0.2, "a2": 0.2, "b1": 0.3, "b3": 0.6},
          ("mediaserver", 3): dict.fromkeys(BUILDS, 0.2)}
SOMETIMES = ("surfaceflinger", 2), 0.6

# So many replies of other calls are kept in a session by chance, at most.
STRAY = 5


def session_of(build: str, number: int) -> Session:
    chance, s = random.Random(f"{build} {number}"), Session()
    first = 100 * chance.randrange(1, 50)
    manager = s.process(first, "servicemanager")
    manager.main.writes(ENTER)
    nodes = {name: 0x10000 * chance.randrange(1, 4000) for name in SERVERS}
    servers = {name: s.process(first + 10 * at, name) for at, name in enumerate(SERVERS, 1)}
    for at, (name, server) in enumerate(servers.items(), 3):
        server.main.gives(manager.main, at, node=nodes[name])
    clients = [s.process(first + 100 * at, name) for at, name in enumerate(CLIENTS, 1)]
    for client in clients:
        for at in range(len(SERVERS)):
            client.main.is_given(manager.main, at + 1, server_handle=at + 3)
    stray = {chance.randrange(CALLS) for _ in range(STRAY)}
    rates = {fault: rate[build] for fault, rate in FAULTS.items()}
    if chance.random() > SOMETIMES[1]:
        rates[SOMETIMES[0]] = 0.0
    for call in range(CALLS):
        client, at, code = chance.choice(clients), chance.randrange(len(SERVERS)), chance.randrange(1, CODES + 1)
        name = SERVERS[at]
        if (name, code) in FAULTS or call % 3 == 0:  # the calls of the faults are frequent
            client, (name, code) = clients[0], chance.choice(list(FAULTS)) if call % 3 == 0 else (name, code)
            at = SERVERS.index(name)
        is_fault = client is clients[0] and (name, code) in FAULTS
        kept = chance.random() < rates[name, code] if is_fault else call in stray
        client.main.asks(servers[name].main, code, at + 1, nodes[name], free=not kept, body=marked(f"android.I{name}"))
        s.wait(chance.uniform(500, 2500))
    return s


def make_captures(lab: pathlib.Path, count: int) -> None:
    for build in BUILDS:
        for number in range(count):
            at = lab / build / f"d{number % DEVICES}" / f"s{number}"
            at.parent.mkdir(parents=True, exist_ok=True)
            s = session_of(build, number)
            at.with_suffix(".cap").write_bytes(s.capture())
            at.with_suffix(".side").write_text(s.side(), "utf-8")


def told_by(lines: str) -> Counter:
    """Which changes are told as more than chance: what became of the fault of which code of which server."""
    told: Counter = Counter()
    for line in lines.splitlines():
        if len(fields := line.split("\t")) > 5 and fields[0] != FIRST:
            path = fields[4].removeprefix("reply to android.I").replace(" code ", " ").partition(" of ")[0]
            told[f"{fields[0]} {path}"] += 1
    return told


# What must be told of each pair of 50 captures a build: exactly this.
CHANGED = ("a1", "b1"), ("a2", "b1"), ("a1", "b3"), ("a1", "a2", "b1")
DUE = {("a1", "a2"): (), ("a2", "a1"): (), **dict.fromkeys(CHANGED, ("new", "gone", "grown"))}
OF = {"new": "new surfaceflinger 2", "gone": "gone audioserver 4", "grown": "grown system_server 2"}


def check_nightly(folder: pathlib.Path, room: pathlib.Path, count: int, fail: Fail) -> None:
    lab, begun = room / "lab", time.monotonic()
    make_captures(lab, count)
    print(f"{count * len(BUILDS)} captures: {time.monotonic() - begun:.0f} s", flush=True)
    begun = time.monotonic()
    made = subprocess.run(["make", "-k", "-j2", "-s", "-f", str(folder / "lab/Makefile"), f"LAB={lab}"],
                          capture_output=True, encoding="utf-8", env={**os.environ, "TMPDIR": str(room)})
    compare("make", (made.returncode, made.stdout), (0, f"{count * len(BUILDS)} added, 0 there already\n"), fail)
    sizes = sorted(path.stat().st_size for path in (lab / "results").rglob("*.json"))
    print(f"results: {time.monotonic() - begun:.0f} s; bytes of a result: {sizes[0]:,} to {sizes[-1]:,}, median"
          f" {sizes[len(sizes) // 2]:,}", flush=True)
    row("builds", "lines", "counts", "status", "seconds")
    for builds, due in DUE.items():
        begun = time.monotonic()
        status, out, _ = answer([folder / "fleet", "compare", lab / "LAB.db", *builds], encoding="utf-8")
        told = told_by(out)
        counts = next(line for line in out.splitlines() if line.endswith(" faster"))
        row(" ".join(builds), ", ".join(told) or "none", counts, status, f"{time.monotonic() - begun:.1f}")
        compare(f"{builds}", sorted(told), sorted(OF[one] for one in due), fail)
