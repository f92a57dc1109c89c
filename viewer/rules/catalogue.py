"""What the files of rules say of their rules, in comments before the statements:

    -- C1 maybe: The server replied over {LONG} before the calling thread ended, and the thread never read the reply.
    --   next: why the caller's thread went on without reading, and ended
    --   rests on: LONG
    --   met by: `unread`: a client never reads a reply

`C1` is the rule, `maybe` the verdict, and then comes the sentence that the page shows, with thresholds by their names.
Then come lines, which may go on in the next one, five spaces in:

    next                      where to look next; each rule that is real or maybe has it
    rests on                  the thresholds on which it depends
    met by                    a session that gets it, for docs/RULES.md
    fault                     what is wrong, if the rule tells more of that than the section of its findings does; this
                              is also the title of its groups, and in the keys of its defects
    title, title of SECTION   another title of its groups, `of its section` if that has a title for them
    where frames are missing  the rule that stands in its place there
    of a part                 what its note says where the other side was not recorded
    ring                      `yes` if its groups come before others for which as many wait

And what findings are called that no rule names otherwise, by their section and what they are there:

    -- calls open are called: calls without an answer

Of this the tables `rule`, `title`, `if_missing` and `if_part` are made, and docs/RULES.md. The order of the
files comes of their heads: of what they need of one another, and of lines `-- after: FILE, FILE`, where an order
matters that no name shows. `-- after: the rules` is after all files with rules."""

import functools
import graphlib
import pathlib
import re
from typing import Iterator, NamedTuple

from viewer.rules.thresholds import in_words

FOLDER = pathlib.Path(__file__).resolve().parent

# Both begin with a new line, which a search finds much faster than the beginning of a line.
SAID = re.compile(r"\n-- (?:([A-Z])(\d+) (real|maybe|explained|normal)|(\w+)(?: (\w+))? are called):"
                  r" (.*(?:\n--   .*)*)")
HEAD = {word: re.compile(rf"\n-- {word}: .*(?:\n--   .*)*") for word in ("needs", "after")}
FIELD = re.compile(r"\n--   (next|rests on|met by|fault|title(?: of \w+)?|where frames are missing|of a part|ring): ")
GOES_ON = re.compile(r"\n-- +")


class Rule(NamedTuple):
    """A rule. `fields` are the lines after its sentence, by their names."""
    letter: str
    number: int
    verdict: str
    sentence: str
    fields: dict[str, str]
    file: str

    @property
    def id(self) -> str:
        return f"{self.letter}{self.number}"

    @property
    def said(self) -> str:
        """The sentence, with the values of thresholds."""
        return in_words(self.sentence)

    def titles(self) -> Iterator[tuple[str | None, str]]:
        """The titles of its groups, each with the section for which it is, or None."""
        for field, title in self.fields.items():
            if field.startswith("title") and title != "of its section":
                yield field[len("title of "):] or None, title
        if "fault" in self.fields and not any(field.startswith("title") for field in self.fields):
            yield None, self.fields["fault"]


class Called(NamedTuple):
    """What findings of a section are called, or those that are `what` in it."""
    section: str
    what: str | None
    title: str


class Catalogue(NamedTuple):
    rules: list[Rule]
    called: list[Called]


def read(path: pathlib.Path) -> Iterator[Rule | Called]:
    """What a file says."""
    for found in SAID.finditer(f"\n{path.read_text('utf-8')}"):
        letter, number, verdict, section, what, text = found.groups()
        sentence, *fields = (GOES_ON.sub(" ", part) for part in FIELD.split(text))
        if letter:
            yield Rule(letter, int(number), verdict, sentence, dict(zip(fields[::2], fields[1::2])), path.name)
        else:
            yield Called(section, what, sentence)


@functools.cache
def catalogue_of(folder: pathlib.Path) -> Catalogue:
    """What the files of a folder say: the rules by letter and number."""
    said = [one for path in sorted(folder.glob("*.sql")) for one in read(path)]
    rules = sorted((one for one in said if isinstance(one, Rule)), key=lambda rule: (rule.letter, rule.number))
    return Catalogue(rules, [one for one in said if isinstance(one, Called)])


# ---- the order of the files

THE_RULES = "the rules"


def comes_after(text: str) -> set[str]:
    """The files after which a file runs, as its head says: those of which it needs a name, and those that it names in a
    line `-- after:`."""
    head, after = (GOES_ON.sub(" ", part[0][1:]) if part else "" for part in (
        HEAD[word].search(f"\n{text}") for word in ("needs", "after")))
    return {*re.findall(r" (\w+\.sql): ", head), *filter(None, after.removeprefix("-- after: ").split(", "))}


@functools.cache
def files_in_order(folder: pathlib.Path) -> tuple[str, ...]:
    """The files of a folder in their order. `after: the rules` is after each file that has rules."""
    texts = {path.name: path.read_text("utf-8") for path in sorted(folder.glob("*.sql"))}
    after = {name: comes_after(text) for name, text in texts.items()}
    rules = {rule.file for rule in catalogue_of(folder).rules}
    for files in after.values():
        if THE_RULES in files:
            files.remove(THE_RULES)
            files |= rules
    return tuple(graphlib.TopologicalSorter(after).static_order())


def rows_of(catalogue: Catalogue) -> dict[str, list[tuple]]:
    """The rows of the tables of rule.sql, for each table."""
    return {
        "rule": [(rule.id, rule.verdict, rule.said, rule.fields.get("fault"), rule.fields.get("next"),
                  int(rule.fields.get("ring") == "yes")) for rule in catalogue.rules],
        "title": [(None, *called) for called in catalogue.called] + [
            (rule.id, section, None, title) for rule in catalogue.rules for section, title in rule.titles()],
        "if_missing": [(rule.id, rule.fields["where frames are missing"]) for rule in catalogue.rules
                       if "where frames are missing" in rule.fields],
        "if_part": [(rule.id, rule.fields["of a part"]) for rule in catalogue.rules if "of a part" in rule.fields]}
