"""Facts that stand in several sources, of languages that share none: each has one value everywhere. And facts that
stand on one page, to which the others lead."""

import pathlib
import re
from typing import Iterable, Iterator

from checks.kit.programs import ROOT

# For each fact what it is, and its owners: a file, and where the value stands in the file.
FACTS = {
    "the most bytes of a capture": (
        ("crates/audit_join/src/limits.rt", r"CAPTURE_LIMIT: usize = ([\d_]+);"),
        ("crates/listing_fields/src/limit.rt", r"FILE_LIMIT: usize = ([\d_]+);"),
        ("recorder/parts.h", r"#define MOST_TOGETHER (\d+)u"),
        ("commands/record.py", r'"--size", "BYTES", .* 65536 to (\d+);'),
        ("recorder/adb/next_command.py", r"MOST_TOGETHER = ([\d_]+)")),
    "the layout of the raw tables": (
        ("crates/listing_tables/src/ending.rt", r"LAYOUT: u64 = (\d+);"),
        ("viewer/database/raw_tables.py", r"^LAYOUT = (\d+)$"),
        ("checks/kit/tables/reading.py", r"^LAYOUT = (\d+)$")),
    "the most files of a capture": (
        ("crates/audit_words/src/command_line.rt", r"MOST_FILES: usize = (\d+);"),
        ("recorder/parts.h", r"#define MOST_FILES_TOGETHER (\d+)u"),
        ("recorder/adb/next_command.py", r"MOST_FILES = (\d+)")),
}
# What stands on one page alone: the page, or the place on it to which another page must link, and words that no other
# page has.
ON_ONE_PAGE = {
    "the kernels that were tried": ("README.md#your-system", r"6\.1,\s+6\.12\s+and\s+7\.2\s+on\s+x86-64"),
    "the figures of the blind test": ("README.md#can-i-believe-it", r"\| \d+ of 30 \|"),
    "three groups, as printed": ("README.md", r"replies never freed +client 385"),
    "what explains the three groups": ("docs/PAGE.md#three-groups", r"^## Three groups$"),
    "the side list beside a capture": ("docs/PAGE.md#files-and-options", r"`OUT-N\.side`"),
    "which processes collect garbage": ("docs/RULES.md#garbage", r"`webview_zygote`"),
}


def values_of(owner: str, where: str) -> list[str]:
    return re.findall(where, (ROOT / owner).read_text("utf-8"), re.MULTILINE)


def wrong() -> Iterator[str]:
    """The facts of which two owners have two values, and the owners that have none."""
    for fact, owners in FACTS.items():
        found = {(owner, int(value)) for owner, where in owners for value in values_of(owner, where)}
        for owner in sorted({owner for owner, _ in owners} - {owner for owner, _ in found}):
            yield f"{owner}: no line for {fact}"
        if len({value for _, value in found}) > 1:
            yield f"{fact}: {', '.join(f'{value} in {owner}' for owner, value in sorted(found))}"


def wrong_pages(pages: Iterable[pathlib.Path]) -> Iterator[str]:
    """The facts of ON_ONE_PAGE that another page has, that their page has not, or to which no other page links."""
    texts = {str(page.relative_to(ROOT)): page.read_text("utf-8") for page in pages}
    for fact, (place, words) in ON_ONE_PAGE.items():
        owner, _, anchor = place.partition("#")
        found = {page for page, text in texts.items() if re.search(words, text, re.MULTILINE)}
        yield from (f"{page}: {fact} stands in {owner}" for page in sorted(found - {owner}))
        if owner not in found:
            yield f"{owner}: nothing of {fact}"
        link = f"{owner.rpartition('/')[2]}#{anchor})"
        if anchor and not any(link in text for page, text in texts.items() if page != owner):
            yield f"{owner}: no page links to {fact}, #{anchor}"
