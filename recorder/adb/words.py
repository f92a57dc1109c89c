"""The command line of `record --adb`."""

import glob
import os
import re
from typing import NamedTuple

from connection import Stopped
from fetch import ENDING, refuse

WRONG_WORDS = 64  # the status
OWN = ("--detach", "--fetch", "--keep", "--check", "--no-names", "--view")  # what the device's recorder is not given


class Wrong(Stopped):
    """Ends the command with a line that names a wrong word."""

    def __init__(self, line: str):
        super().__init__(line, WRONG_WORDS)


class Words(NamedTuple):
    serial: str | None
    out: str
    detach: bool
    fetch: bool
    keep: bool  # asks a recording that goes on
    check: bool
    view: bool
    names: bool
    live: bool
    methods: list[str]  # tables that name them
    collect: str  # whose garbage is collected before the end: names with commas between, `apps`, or nobody's
    options: list[str]  # for the recorder on the device, with the program

    @property
    def whose_names(self) -> str:
        """Of what the device is asked for names. Which packages it has is nothing for a redacted recording."""
        options, _ = split_program(self.options)
        is_redacted = any(word.startswith("--re") for word in options)
        return "none" if not self.names else "services" if is_redacted else "all"


def split_program(words: list[str]) -> tuple[list[str], list[str]]:
    """The options, and the program with the `--` before it."""
    at = words.index("--") if "--" in words else len(words)
    return words[:at], words[at:]


class Named(NamedTuple):
    """What names a device and files here, and the other options."""

    serial: str | None
    out: str
    methods: list[str]
    others: list[str]


VALUED = (("-s", "", "the serial of a device"), ("-o", "--out", "the start of the files' names"),
          ("", "--methods", "a table of methods"))


def take_names(options: list[str]) -> Named:
    """Takes -s, -o and --methods out, whose values may begin with a dash. Of several -s or -o the last one counts."""
    values: dict[str, list[str]] = {short or long: [] for short, long, _ in VALUED}
    others, rest = [], iter(options)
    for word in rest:
        for short, long, _ in VALUED:
            if word in (short, long):
                values[short or long].append(next(rest, ""))
            elif long and word.startswith(f"{long}="):
                values[short or long].append(word.removeprefix(f"{long}="))
            elif short and word.startswith(short):
                values[short].append(word.removeprefix(short))
            else:
                continue
            break
        else:
            others.append(word)
    for short, long, what in VALUED:
        if "" in values[short or long]:
            raise Wrong(f"{short or long} takes {what}")
    return Named([None, *values["-s"]][-1], ["capture", *values["-o"]][-1], values["--methods"], others)


def take_collect(options: list[str]) -> tuple[str, list[str]]:
    """Whose garbage --collect asks for, and the other options."""
    asked = [word for word in options if word == "--collect" or word.startswith("--collect=")]
    names = [word.removeprefix("--collect").removeprefix("=") or "apps" for word in asked]
    if len(asked) > 1 or not all(re.fullmatch(r"[\w.:-]+(,[\w.:-]+)*", name, re.ASCII) for name in names):
        raise Wrong("--collect takes nothing, or names of processes: --collect=com.example.one,com.example.two")
    return "".join(names), [word for word in options if word not in asked]


def kept_few(options: list[str]) -> list[str]:
    """The options of a flight recorder, which keeps at most 512 MiB, with the side lists, if nothing else is said."""
    own = {"--files": "4", "--size": "67108864"}
    lacking = [name for name in own if not any(word.startswith(name[:4]) for word in options)]
    return [*(word for name in lacking for word in (name, own[name])), *options]


def refuse_beside(own: set[str], others: list[str]) -> None:
    """What is fetched has its options already."""
    what = "--fetch" if "--fetch" in own else "--keep"
    wrong = [*sorted(own - {what, "--view"}), *others]
    if wrong:
        raise Wrong(f"{what} takes no {wrong[0]}: the recording has begun with its options")


def read(given: list[str]) -> Words:
    first = [given.pop(0)] if given and not given[0].startswith("-") else []
    options, program = split_program(given)
    serial, out, methods, options = take_names(options)
    named = list(dict.fromkeys([*first, *([serial] if serial else [])]))
    if len(named) > 1:
        raise Wrong(f"two devices are named: {' and '.join(named)}")
    if "--help" in options:
        raise Wrong("record --help has the options of --adb, too")
    own = {word for word in options if word in OWN}
    collect, others = take_collect([word for word in options if word not in own])
    if own & {"--fetch", "--keep"}:
        refuse_beside(own, [*others, *program, *(["--collect"] if collect else [])])
    if "--view" in own and own & {"--detach", "--check"}:
        raise Wrong(f"--view shows what is fetched, and {min(own & {'--detach', '--check'})} fetches nothing")
    if methods and "--view" not in own and "--live" not in others:
        raise Wrong("--methods goes with --live or --view")
    if "--live" in others and own & {"--detach", "--check"}:
        raise Wrong(f"--live shows what is recorded meanwhile, and {min(own & {'--detach', '--check'})} does not wait")
    if "--detach" in own:
        others = kept_few(others)
    return Words(named[0] if named else None, out, "--detach" in own, "--fetch" in own, "--keep" in own,
                 "--check" in own, "--view" in own, "--no-names" not in own, "--live" in others, methods, collect,
                 others + program)


def refuse_files(asked: Words) -> None:
    """No file of a recording may be there: those of the recorder, by their endings. A set has a folder of its own."""
    if not asked.keep:
        refuse([path for path in sorted(glob.glob(glob.escape(asked.out) + "[-.]*"))
                if ENDING.fullmatch(path.removesuffix(".part"), len(asked.out))])
    folder = os.path.dirname(asked.out) or "."
    if not os.path.isdir(folder) or not os.access(folder, os.W_OK):
        raise Stopped(f"{folder} is not a folder in which files can be made")
