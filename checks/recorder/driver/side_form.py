"""Whether a side list has today's form: the lines that the page on it has as templates."""

import re
from functools import cache

from checks.kit.programs import ROOT

FIRST_LINE = "binder side list 3"
NUMBER = "[0-9]+"
# What the words in capitals stand for; all others stand for a number.
KINDS = {
    **dict.fromkeys(("RELEASE", "MACHINE", "PARTS"), r"\S+"), **dict.fromkeys(("NAME", "COMMAND", "PATH"), ".*"),
    **dict.fromkeys(("WHEN", "WHICH", "WHAT", "WHY", "REASON", "MET"), "[a-z0-9-]+"),
    "DELTA": "-?[0-9]+", "DEVICES": rf"(?:{NUMBER}:{NUMBER}:(?:C|Rust)(?:,|(?= |$)))*", "ADDRESS": "(?:0x[0-9a-f]+|-)",
    "ID": "(?:[0-9a-f]+|-)"}


def page() -> str:
    """The page that says what the first line is."""
    found = [text for path in sorted((ROOT / "docs").glob("*.md"))
             if f"`{FIRST_LINE}`" in (text := path.read_text("utf-8"))]
    text, = found
    return text


def templates(text: str) -> list[str]:
    """The lines of the blocks that show a line of each kind: a word, and words in capitals for what differs."""
    blocks = re.findall(r"(?:^    [a-z].*\n)+", text, re.M)
    return [line.strip() for block in blocks if re.match(r"    [a-z ]+\b.*[A-Z]{2}", block)
            for line in block.splitlines()]


def pattern_of(template: str) -> str:
    """A line without its time. `A,A..` is one A or more, with commas between, and ` A A ..` none or more, with a space
    before each. What stands in brackets may be missing."""
    listed = re.sub(r"([A-Z]+),\1\.\.", r"\1(?:,\1)*", re.sub(r" ([A-Z]+) \1 \.\.", r"(?: \1)*", template))
    optional = re.sub(r" \[([^]]+)\]", r"(?: \1)?", listed)
    return re.sub(r"\b[A-Z]+\b", lambda found: KINDS.get(found[0], NUMBER), optional)


@cache
def line_pattern() -> re.Pattern[str]:
    """Any line but the first one."""
    return re.compile(f"{NUMBER} (?:" + "|".join(map(pattern_of, templates(page()))) + ")")


def begins(lines: list[str]) -> bool:
    """Before `begin` come only the first of files, and the processes that the recorder met."""
    before = re.compile(rf"{NUMBER} (?:file|met) ")
    first = next((line for line in lines if not before.match(line)), "")
    return re.match(rf"{NUMBER} begin ", first) is not None


def faults(text: str) -> list[str]:
    """The lines that are of another form. A last line that was cut is none."""
    first, *lines = text.split("\n")[:-1] or [""]
    wrong = [line for line in lines if not line_pattern().fullmatch(line)]
    if not begins(lines):
        wrong.insert(0, "no begin")
    return [first] * (first != FIRST_LINE) + wrong


def wrong_forms(text: str) -> tuple[str, ...]:
    """The list in two other forms: with `begin` as it was before, and under the first line of the form before."""
    return re.sub(r" drivers=\S*", "", text), text.replace(FIRST_LINE, "binder side list 2", 1)
