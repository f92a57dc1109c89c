"""How long the pages are, in words: those for each kind of reader, docs/MEASURED.md, each decision, and each sentence.

A page is as long as `wc -w` says: all that stands in the file counts, also code, numbers and the bars of tables.

Of a sentence the words count that have a letter, and of a link its text. Code does not: neither what is in backticks,
nor what ``` encloses, nor lines that begin with four spaces, as commands and what they print. A sentence ends with a
full stop, a sign of question or exclamation, or a colon. An item of a list and a cell of a table end one too.
"""

import pathlib
import re
from typing import Iterable, Iterator

from checks.kit.programs import ROOT

MEASURED, DECISIONS = ROOT / "docs/MEASURED.md", ROOT / "docs/DECISIONS.md"
# The pages that a check makes of the sources.
MADE = "docs/DEFINITIONS.md", "docs/TABLE-DEFINITIONS.md"
AUTHORS = tuple(f"docs/{name}.md" for name in ("REPORT", "ENVELOPE", "COMMANDS", "SIDE-LIST", "WRITING-A-RECORDER"))
INSIDERS = "CONTRIBUTING.md", *(f"docs/{name}.md" for name in ("ARCHITECTURE", "DECISIONS", "PROMISES", "MEASURED"))
# The most words of the pages for users, for authors of recorders, and for those who work on the repository; of those on
# the samples, and of those that stand beside the code.
MOST = {"users": 32_000, "authors": 13_000, "insiders": 18_000, "samples": 3_450, "crates and checks": 10_250}
MOST_MEASURED, MOST_DECISION, MOST_SENTENCE = 4_600, 120, 35


def length(text: str) -> int:
    """How many words `wc -w` finds."""
    return len(text.split())


def prose(text: str) -> list[str]:
    """The lines of a page without code, and with the texts of its links."""
    plain = re.sub(r"^```.*?^```$", "", text, flags=re.MULTILINE | re.DOTALL)
    lines = "\n".join("" if line.startswith("    ") else line for line in plain.splitlines())
    return re.sub(r"!?\[([^\]]*)\]\([^)]*\)", r"\1", lines).splitlines()


def words(text: str) -> int:
    """How many words of prose there are."""
    plain = re.sub(r"`[^`]*`", "", " ".join(prose(text)))
    return sum(1 for word in plain.split() if re.search(r"[^\W\d_]", word))


def readers(page: pathlib.Path) -> str:
    """For whom a page is; of one that is made, no word."""
    name = str(page.relative_to(ROOT))
    if name in MADE:
        return ""
    if name.startswith(("crates/", "checks/")):
        return "crates and checks"
    if name.startswith("samples/"):
        return "samples"
    return "authors" if name in AUTHORS else "insiders" if name in INSIDERS else "users"


def wrong_sums(pages: Iterable[pathlib.Path]) -> Iterator[str]:
    """The readers whose pages together are too long."""
    sums = dict.fromkeys(MOST, 0)
    for page in pages:
        if who := readers(page):
            sums[who] += length(page.read_text("utf-8"))
    for who, most in MOST.items():
        if sums[who] > most:
            yield f"the pages for {who} have {sums[who]:,} words, above {most:,}"


def decisions(text: str) -> Iterator[tuple[int, str]]:
    """Each decision with its line: from its first sentence, in bold, to the next one or to a heading."""
    for found in re.finditer(r"^\*\*.*?(?=^\*\*|^#|\Z)", text, re.MULTILINE | re.DOTALL):
        yield text.count("\n", 0, found.start()) + 1, found[0]


def pieces(text: str) -> Iterator[tuple[int, str]]:
    """The paragraphs, items of lists and cells of tables of a page, each with its line."""
    start, piece = 0, ""
    for number, line in enumerate([*prose(text), ""], 1):
        if not line or re.match(r"\s*([-*] |\d+\. |#|\|)", line):
            if piece:
                yield start, piece
            start, piece = number, ""
        if line.startswith("|"):
            yield from ((number, cell) for cell in line.split("|"))
        else:
            start, piece = start if piece else number, f"{piece} {line}".strip()


def long_sentences(text: str) -> Iterator[tuple[int, str]]:
    """The sentences that are too long, each with the line of its paragraph."""
    for number, piece in pieces(text):
        for sentence in re.split(r"(?<=[.?!:])[*)\"']*\s", re.sub(r"`[^`]*`", "_", piece)):
            if (count := words(sentence)) > MOST_SENTENCE:
                yield number, f"a sentence of {count} words: {sentence[:60]}.."


def wrong(page: pathlib.Path) -> Iterator[tuple[int, str]]:
    """What is too long in a page, with its line."""
    text = page.read_text("utf-8")
    if page == MEASURED and (count := length(text)) > MOST_MEASURED:
        yield 1, f"{count:,} words, above {MOST_MEASURED:,}"
    if page == DECISIONS:
        for number, decision in decisions(text):
            if (count := length(decision)) > MOST_DECISION:
                yield number, f"a decision of {count} words, above {MOST_DECISION}"
    if readers(page):
        yield from long_sentences(text)
