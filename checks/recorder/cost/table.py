"""Prints what recording costs, from what guests left in a folder."""

import pathlib
import statistics
import sys
from collections import defaultdict
from typing import Iterator, NamedTuple, Sequence

HOW = ("bare", "recorded", "stacks", "no-data", "elsewhere")
BUSY = 10_000  # calls a second of a busy device


class Run(NamedTuple):
    """Some calls of a guest: what the kernel did for them in instructions, if they were counted, and how long."""

    kind: str
    how: str
    size: int
    count: int
    nanoseconds: int
    more: tuple[int, ...]  # of a run beside the loader: its time, that without calls, bytes of capture and side list
    instructions: int | None


def console(folder: pathlib.Path, guest: str) -> list[str]:
    return (folder / guest / "console").read_text("utf-8", errors="replace").splitlines()


def runs_of(folder: pathlib.Path, guest: str) -> Iterator[Run]:
    counts = folder / f"{guest}.counts"
    marks = [int(line.split()[0]) for line in counts.read_text("utf-8").splitlines()] if counts.exists() else None
    lines = [line.split()[1:] for line in console(folder, guest) if line.startswith("cost: ")]
    if marks is not None and len(marks) != 2 * len(lines):
        sys.exit(f"cost: {guest} has {len(lines)} runs and {len(marks)} counts")
    for index, (kind, how, *numbers) in enumerate(lines):
        size, count, nanoseconds, *more = map(int, numbers)
        instructions = marks[2 * index + 1] - marks[2 * index] if marks else None
        yield Run(kind, how, size, count, nanoseconds, tuple(more), instructions)


def longest_stack(folder: pathlib.Path, guests: tuple[str, ...]) -> int:
    lines = (line for guest in guests for line in console(folder, guest) if line.startswith("stack: "))
    return max((int(line.split()[1]) for line in lines), default=0)


def told(guest: str) -> str:
    machine, _, how = guest.partition("-")
    name = {"aarch64": "arm64", "x86_64": "x86-64"}[machine]
    return f"{name}, KVM" if how == "kvm" else f"{name}, {how} processor{'s' if how != '1' else ''}"


def by_size(runs: list[Run], kind: str) -> dict[int, dict[str, list[Run]]]:
    found: dict[int, dict[str, list[Run]]] = defaultdict(lambda: defaultdict(list))
    for run in runs:
        if run.kind == kind:
            found[run.size][run.how].append(run)
    return found


def print_counted(all_runs: dict[str, list[Run]], kind: str, ways: Sequence[str]) -> None:
    """The instructions for one of such a kind, made in each of the ways."""
    for guest, runs in all_runs.items():
        for size, found in by_size(runs, kind).items():
            if all(run.instructions is not None for run in found["bare"]):
                cells = [statistics.median((run.instructions or 0) / run.count for run in found[how]) for how in ways]
                print(f"    {told(guest):22} {size or '':>11}" + "".join(f"{cell:12,.0f}" for cell in cells))


def print_calls(all_runs: dict[str, list[Run]]) -> None:
    print("instructions of the kernel for a call, loader stopped; the median of three")
    print(f"    {'guest':22} {'data, bytes':>11}" + "".join(f"{how:>12}" for how in HOW))
    print_counted(all_runs, "calls", HOW)


def print_opens(all_runs: dict[str, list[Run]]) -> None:
    print("instructions of the kernel to open and close a file, bare and looked at; the median of three")
    print_counted(all_runs, "opens", HOW[:2])


def print_loader(all_runs: dict[str, list[Run]]) -> None:
    """On one processor whose clock counts instructions, a nanosecond of the loader is one."""
    print("the loader beside 1,000 calls a second: instructions for a call, and in a second without calls")
    print(f"    {'guest':22} {'data, bytes':>11}{'how':>12}{'for a call':>12}{'no calls':>12}")
    for guest, runs in all_runs.items():
        if guest.endswith("-1"):
            for run in (it for it in runs if it.kind == "rate"):
                loader, idle, *_ = run.more
                print(f"    {told(guest):22} {run.size:11}{run.how:>12}{(loader - idle) / run.count:12,.0f}"
                      f"{idle / (run.count / 1000 + 1):12,.0f}")


def print_bytes(all_runs: dict[str, list[Run]]) -> None:
    print(f"bytes for a call, and how many minutes of {BUSY:,} calls a second are 1 GiB of captures")
    print(f"    {'guest':22} {'data, bytes':>11}{'how':>12}{'capture':>12}{'side list':>12}{'minutes':>12}")
    guest, runs = next(iter(all_runs.items()))
    for run in (it for it in runs if it.kind == "rate" and it.how != "elsewhere"):
        capture, side = (size / run.count for size in run.more[2:])
        print(f"    {told(guest):22} {run.size:11}{run.how:>12}{capture:12,.0f}{side:12,.0f}"
              f"{(1 << 30) / (capture * BUSY * 60):12.2g}")


def print_times(all_runs: dict[str, list[Run]]) -> None:
    print("by the clock: microseconds for a call, the least of three; the loader's part of a processor beside 1,000"
          " calls a second")
    print(f"    {'guest':22} {'data, bytes':>11}" + "".join(f"{how:>12}" for how in HOW)
          + "".join(f"{f'loader, {how}':>20}" for how in HOW[1:]))
    for guest, runs in all_runs.items():
        if not guest.endswith("-kvm"):
            continue
        rates = by_size(runs, "rate")
        for size, found in by_size(runs, "calls").items():
            least = [min(run.nanoseconds / run.count for run in found[how]) / 1000 for how in HOW]
            parts = [rates[size][how][0] for how in HOW[1:]]
            print(f"    {told(guest):22} {size:11}" + "".join(f"{one:12.1f}" for one in least)
                  + "".join(f"{run.more[0] / run.nanoseconds:20.1%}" for run in parts))


def main(folder: pathlib.Path, *guests: str) -> None:
    all_runs = {guest: list(runs_of(folder, guest)) for guest in guests}
    print(f"stacks have up to {longest_stack(folder, guests)} functions\n")
    for printed in (print_calls, print_opens, print_loader, print_bytes, print_times):
        printed(all_runs)
        print()
