"""Checks the pages by the sources, without a program: README.md, CONTRIBUTING.md, docs/, samples/, checks/README.md and
the READMEs of the crates.

    checks/run texts

What must hold:

- Each link to a file of the repository leads to a file, and the text after # to a heading in it.
- docs/DATABASE.md names the tables of `./listing --tables`.
- The code words, sorts and flags in docs/COMMANDS.md are those of the second reading, the recorder and the database.
- The files of sources that a page names are there, and docs/ARCHITECTURE.md names every crate.
- Each crate's page begins with a caller: lines of code that stand in a file of a crate above, or in a file of the crate
  itself if no other crate uses it.
- Each wrong body that is stored for a crate names the one goal at which it is refused.
- docs/PROMISES.md names each wrong body of each crate and no others, in its promises only names that the sources have,
  the libraries of the toolchain that the auditor stands on, and the sizes of what is trusted, up to a tenth.
  docs/TRUST.md has the number of wrong bodies.
- README.md has the figures that docs/MEASURED.md has on the blind test, and docs/TRUST.md those on the second recorder.
- The commits that a page names are in the repository's history.
- docs/DEFINITIONS.md and docs/TABLE-DEFINITIONS.md are the pages that checks/run definitions makes.
- What stands in several sources, as the most bytes of a capture, has one value in all of them; and what is told on one
  page, as which kernels were tried, stands on no other (owners.py).
- No page, decision or sentence is too long (lengths.py).
"""

import re

from checks.kit.checking import check
from checks.kit.programs import ROOT, edits_of
from checks.pages import callers, codes, commits, definitions, figures, lengths, owners, promises, sources, tables


def pages():
    """The pages, README.md first."""
    return [ROOT / "README.md", ROOT / "CONTRIBUTING.md", *sorted(ROOT.glob("docs/*.md")),
            *sorted(ROOT.glob("samples/**/*.md")), ROOT / "checks/README.md", *sorted(ROOT.glob("crates/*/README.md"))]


def anchors(page):
    """What a link can have after #: the headings in lower case, without signs, with - for each space."""
    found = set()
    for heading in re.findall(r"^#+ (.*)$", page.read_text("utf-8"), re.MULTILINE):
        plain = re.sub(r"[^\w\- ]", "", heading.strip().lower()).replace(" ", "-")
        # The second heading of the same text gets a number.
        found.add(plain if plain not in found else next(
            numbered for numbered in (f"{plain}-{n}" for n in range(1, 100)) if numbered not in found))
    return found


def wrong_links(page):
    """The links of a page that lead nowhere, each with its line. A link can span two lines."""
    text = page.read_text("utf-8")
    for link in re.finditer(r"\]\(([^)\s]+)\)", text):
        target = link.group(1)
        if re.match(r"[a-z]+:", target):
            continue
        name, _, anchor = target.partition("#")
        there = (page.parent / name).resolve() if name else page
        if not there.exists() or anchor and anchor not in anchors(there):
            yield text.count("\n", 0, link.start()) + 1, f"no {target}"


def goalless(page):
    """The wrong bodies of the crate of this page that name no goal, or several."""
    for edit in edits_of(page.parent):
        if len(re.findall(r"^# goal: \S+ of \S+$", edit.read_text("utf-8"), re.MULTILINE)) != 1:
            yield 1, f"{edit.name} does not name one goal: `checks/run wrong -- --fill` writes it"


def stale_lines(page):
    """The first line of docs/DEFINITIONS.md that is not as it is made, if there is one."""
    if page in definitions.PAGES:
        yield from definitions.stale(page)


def judge(*_):
    yield from owners.wrong()
    yield from owners.wrong_pages(pages())
    yield from lengths.wrong_sums(pages())
    for page in pages():
        for number, what in (*wrong_links(page), *goalless(page), *callers.wrong(page), *promises.wrong(page),
                             *sources.wrong(page), *tables.wrong(page), *codes.wrong(page), *figures.wrong(page),
                             *commits.wrong(page), *lengths.wrong(page), *stale_lines(page)):
            yield f"{page.relative_to(ROOT)}:{number}: {what}"


if __name__ == "__main__":
    check(judge)
