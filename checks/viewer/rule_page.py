"""docs/RULES.md: its rules and thresholds are those that the files of rules make. And the sessions that these files
name get their rules.

    checks/run rule_page                says which lines of the page are not those that the files of rules make
    checks/run rule_page -- --print     writes these lines anew, and prints what changed; what the page says of a rule
                                        besides its sentence stays"""

import argparse
import difflib
import re
import textwrap
from typing import Iterable, Iterator, NamedTuple

from checks.kit.checking import FLAG, check
from checks.kit.programs import DRIVER, ROOT
from checks.viewer.page.common import VERDICTS, verdicts
from checks.viewer.sessions.cases import Case
from viewer.rules.catalogue import FOLDER, Rule, catalogue_of
from viewer.rules.thresholds import TABLE, in_words, value_of
from viewer.rules.verdicts import RANKS

PAGE = ROOT / "docs/RULES.md"
# Real whatever is missing: one record shows it.
SHOWN_BY_ONE = {"O1"}
NAMED = re.compile(r"`([^`]+)`")
# A session, as the files of rules name it: a capture, or a small session.
SESSION = re.compile(r"`([\w-]+)(\(\))?`")

# ---- what the page has of them

# The items of what the line before them says: those of rules go on with what the page says besides.
MADE = re.compile(r"^(<!-- (rules|thresholds)((?: [A-Z])*) -->\n)((?:(?:- |  ).*\n)*)", re.MULTILINE)
OF_RULE = re.compile(r"- \*\*([A-Z]\d+)\*\* (\w+)(?: \(\w+\))?: \*([^*]*)\* ?(.*)")


class Item(NamedTuple):
    """What the page has of a rule: what is made, the text after it, and the lines of a list below."""
    id: str
    verdict: str
    sentence: str
    text: str
    lines: str


def items_in(text: str) -> Iterator[Item]:
    """The items of rules of a list, or of a page."""
    for item in re.findall(r"^- \*\*[A-Z]\d+\*\* .*\n(?:  .*\n)*", text, re.MULTILINE):
        paragraph, begin, lines = item.partition("\n  - ")
        if found := OF_RULE.fullmatch(" ".join(paragraph.split())):
            yield Item(*found.groups(), begin[1:] + lines)


def wrapped(text: str) -> str:
    return textwrap.fill(" ".join(text.split()), 120, subsequent_indent="  ", break_long_words=False,
                         break_on_hyphens=False) + "\n"


def rules_in(letters: Iterable[str]) -> list[Rule]:
    """The rules of these letters."""
    return [rule for letter in letters for rule in catalogue_of(FOLDER).rules if rule.letter == letter]


def rule_item(rule: Rule, text: str = "", lines: str = "") -> str:
    becomes = rule.fields.get("where frames are missing")
    return wrapped(f"- **{rule.id}** {rule.verdict}{f' ({becomes})' if becomes else ''}: *{rule.said}* {text}") + lines


def rule_items(letters: Iterable[str], there: str) -> str:
    """The items of the rules of these letters, with what is there besides."""
    items = {item.id: (item.text, item.lines) for item in items_in(there)}
    return "".join(rule_item(rule, *items.get(rule.id, ())) for rule in rules_in(letters))


def threshold_items() -> str:
    return "".join(wrapped(f"- `{name}`, {value_of(name)}: {in_words(threshold.meaning)}")
                   for name, threshold in TABLE.items() if threshold.meaning)


def made(text: str) -> str:
    """The page with the items that it has to have."""
    return MADE.sub(lambda found: found[1] + (
        rule_items(found[3].split(), found[4]) if found[2] == "rules" else threshold_items()), text)


def stale(text: str) -> Iterator[str]:
    """The first line of an item that is another one than the files of rules make, and rules that the page has not."""
    for number, (line, due) in enumerate(zip(text.splitlines(), [*made(text).splitlines(), ""]), 1):
        if line != due:
            yield f"{number}: checks/run rule_page -- --print writes {due!r}"
            break
    there = {letter for found in MADE.finditer(text) for letter in found[3].split()}
    yield from (f"no list has the rules {letter}" for letter in
                sorted({rule.letter for rule in catalogue_of(FOLDER).rules} - there))


# ---- what the files of rules say


def wrong_rules(rules: list[Rule]) -> Iterator[str]:
    """Rules that say too little, or name what there is not."""
    ids = [rule.id for rule in rules]
    for rule in rules:
        names = list(filter(None, rule.fields.get("rests on", "").split(", ")))
        told = re.findall(r"\{(\w+)\}", rule.sentence)
        becomes = rule.fields.get("where frames are missing")
        where = f"viewer/rules/{rule.file}: {rule.id}"
        yield from (f"{where}: no threshold {name}" for name in {*names, *told} - TABLE.keys())
        yield from (f"{where}: its sentence has {name}, on which it does not rest" for name in {*told} - {*names})
        if ids.count(rule.id) > 1:
            yield f"{where}: there is another rule of that name"
        if RANKS[rule.verdict] <= RANKS["maybe"] and "next" not in rule.fields:
            yield f"{where}: it does not say where to look next"
        if rule.verdict == "real" and becomes is None and rule.id not in SHOWN_BY_ONE:
            yield f"{where}: real, and it does not say what missing frames make of it"
        if becomes is not None and becomes not in ids:
            yield f"{where}: no rule {becomes}"


def wrong_thresholds(text: str) -> Iterator[str]:
    """Thresholds that the page does not name."""
    told = set(NAMED.findall(text))
    yield from (f"nothing of the threshold {name}" for name in TABLE if name not in told)


def wrong_orders(text: str) -> Iterator[str]:
    """Rules that the page gives no place in the order of their section. Those of all sections have several, or none."""
    placed = set(re.findall(r"\b[A-Z]\d+\b", "".join(re.findall(r"^    .*\n", text, re.MULTILINE))))
    yield from (f"{rule.id} has no place in the order of its section" for rule in catalogue_of(FOLDER).rules
                if rule.id not in placed and rule.file != "rule.sql")


def stored_rules() -> set[tuple[str, str]]:
    """The scenarios of samples/driver, each with its rules of verdict real or maybe."""
    return {(fields[0], rule) for fields in verdicts() for rule in fields[-1].split(",")}


def wrong_sessions(cases: Iterable[Case]) -> Iterator[str]:
    """Rules whose session is none, or does not get the rule."""
    small = {(one.name.split()[0], word.partition(":")[0]) for one in cases for word in one.due.split()}
    stored = stored_rules()
    for rule in catalogue_of(FOLDER).rules:
        session = rule.fields.get("met by", "")
        found = SESSION.match(session)
        if found is None or (found[1], rule.id) not in (small if found[2] else stored):
            yield f"viewer/rules/{rule.file}: {rule.id}: not the rule of {session or 'a session'}"
        elif not found[2] and not (DRIVER / found[1]).is_dir():
            yield f"viewer/rules/{rule.file}: {rule.id}: no capture {found[1]}"


def faults_of_page(cases: Iterable[Case]) -> Iterator[str]:
    """What is wrong with the page, with what the files of rules say, and with the stored groups that they name."""
    text = PAGE.read_text("utf-8")
    if wrong := list(wrong_rules(catalogue_of(FOLDER).rules)):
        yield from wrong
        return
    for what in (*stale(text), *wrong_thresholds(text), *wrong_orders(text)):
        yield f"docs/RULES.md: {what}"
    yield from wrong_sessions(cases)
    for scenario, why, *group in verdicts():
        if why not in ("fault", "more"):
            yield f"{VERDICTS.name}: {scenario}: {' '.join(group)}: it is neither a fault nor more, but {why}"


def judge(given: argparse.Namespace, *_: object) -> Iterator[str]:
    if given.print:
        text = PAGE.read_text("utf-8")
        new = made(text)
        PAGE.write_text(new, "utf-8")
        print("".join(difflib.unified_diff(text.splitlines(True), new.splitlines(True), "before", "docs/RULES.md")),
              end="")
    else:
        from checks.viewer.sessions.every import CASES
        yield from faults_of_page(CASES)


if __name__ == "__main__":
    check(judge, print=FLAG)
