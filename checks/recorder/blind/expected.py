"""What expected.txt of a blind test set expects of each session, and what a line of groups is by that."""

import pathlib
import re
from typing import NamedTuple


class Line(NamedTuple):
    """A line of `./view --groups`."""
    text: str

    @property
    def verdict(self) -> str:
        return self.text.partition("\t")[0]

    @property
    def kind(self) -> str:
        return self.text.split("\t")[1]

    @property
    def rules(self) -> str:
        return self.text.split("\t")[7]

    @property
    def processes(self) -> set[str]:
        """The names of the group's processes."""
        return set(self.text.split("\t")[9].split(","))

    def has(self, pattern: str) -> bool:
        return bool(re.search(pattern, self.text))

    def names_of(self, names: list[str]) -> set[str]:
        """Which of these are in the line, as whole words."""
        return {name for name in names if self.has(rf"(?<![\w.-]){re.escape(name)}(?![\w-])")}


class Rule(NamedTuple):
    """By what a line is the fault, or something else that may be told."""
    least: int
    who: list[str]
    kind: str
    has: str
    method: list[str]

    def names_in(self, line: Line) -> bool:
        return len(line.names_of(self.who)) >= self.least

    def fits(self, line: Line) -> bool:
        return bool(re.search(self.kind, line.kind)) and line.has(self.has) and self.names_in(line)


class Expected(NamedTuple):
    """What is expected of a session. `faults` has its fault, and is empty if it is healthy."""
    name: str
    faults: list[Rule]
    more: list[Rule]
    true: list[Rule]
    spared: set[str]

    def part_of(self, line: Line) -> str:
        """What a line is: `fault`, `more`, `true`, or `wrong`. What is `real` is never excused as no fault."""
        for part, rules in (("fault", self.faults), ("more", self.more), ("true", self.true)):
            if any(rule.fits(line) for rule in rules):
                return "wrong" if part == "true" and line.verdict == "real" else part
        return "wrong"


def rule_of(who: str, patterns: dict[str, str]) -> Rule:
    least, _, names = who.rpartition(":")
    return Rule(int(least or 1), names.split(","), patterns.get("kind", ""), patterns.get("has", ""),
                [one for one in patterns.get("method", "").split("; ") if one])


def expected_of(name: str, lines: list[str]) -> Expected:
    """A session from the lines below its name."""
    found, spared, healthy = {"fault": [], "more": [], "true": []}, set(), False
    patterns: dict[str, str] = {}
    for line in reversed(lines):  # what is below a word comes before it so
        word, _, rest = line.strip().partition(" ")
        if line.startswith(" " * 8):
            patterns[word] = rest.strip()
        elif word == "healthy":
            healthy = True
        elif word == "spared":
            spared |= set(rest.split(","))
        else:
            found[word].insert(0, rule_of(rest, patterns))
            patterns = {}
    if healthy == bool(found["fault"]) or patterns:
        raise ValueError(f"expected.txt: {name}")
    return Expected(name, found["fault"], found["more"], found["true"], spared)


def blocks_of(file: pathlib.Path) -> dict[str, list[str]]:
    """The lines below each name of a file, which are indented. Comments and empty lines are left out."""
    blocks: dict[str, list[str]] = {}
    for line in file.read_text("utf-8").splitlines():
        if not line or line.lstrip().startswith("#"):
            continue
        if line.startswith(" "):
            blocks[list(blocks)[-1]].append(line)
        else:
            blocks[line] = []
    return blocks


def expectations(file: pathlib.Path) -> dict[str, Expected]:
    """All sessions of a set, by their names."""
    return {name: expected_of(name, lines) for name, lines in blocks_of(file).items()}
