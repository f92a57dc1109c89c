"""The pages of the manual. Each is made from the table of a command, and from sections of docs/."""

import pathlib
import re
import textwrap
from typing import Iterator, NamedTuple

from commands.all import command as command_of
from commands.help import forms_of
from commands.option import Command
from viewer.program_names import as_packed

ROOT = pathlib.Path(__file__).resolve().parent.parent
DOCUMENTS = "/usr/share/doc/binder-audit"
WIDTH = 78


# The page that has the way from a capture to the cause of a leak.
FIRST = "binder-view"


class Page(NamedTuple):
    """A page: its name, section and title; and the sections of docs/, a file and the headings, or all without any."""

    name: str
    section: int
    title: str
    documents: dict[str, tuple[str, ...]]


PAGES = (
    Page("binder-audit", 1, "reports what the Binder traffic of a capture left open", {"REPORT": ()}),
    Page("binder-listing", 1, "lists the records of a capture of Binder traffic",
         {"REPORT": ("From a row to its record",)}),
    Page("binder-record", 1, "records the Binder traffic of a running system",
         {"RECORD": ("Recording by example", "On a device", "What a recording needs", "What a capture holds",
                     "The driver's books", "Stacks", "What recording costs", "How it works, and its bounds"),
          "SIDE-LIST": ()}),
    Page(FIRST, 1, "shows a capture as a page, a database or a timeline",
         {"PAGE": (), "RULES": (), "PERFETTO": (), "TRUST": ("How good the verdicts are", "Limits")}),
    Page("binder-fleet", 1, "keeps what is found in many captures, and compares builds", {"BUILDS": ()}),
    Page("binder-methods", 1, "makes a table of the methods of interfaces", {"PAGE": ("Names of methods",)}),
    Page("binder-capture", 5, "captures of Binder traffic", {"ENVELOPE": (), "COMMANDS": ()}),
)

# ---- text


def escaped(text: str) -> str:
    """A text for roff, sign by sign."""
    special = {"\\": r"\e", "-": r"\-", "'": r"\(aq", "`": r"\(ga", "^": r"\(ha", "~": r"\(ti", '"': r"\(dq"}
    return "".join(special.get(sign, sign if sign.isascii() else rf"\[u{ord(sign):04X}]") for sign in text)


def as_installed(text: str) -> str:
    """A text in which the programs, and what they bring, are called as in a package."""
    return re.sub(r"(?<![\w/])lab/Makefile\b", "/usr/share/binder-audit/lab/Makefile", as_packed(text))


def marked(text: str) -> str:
    """A text of docs/ for roff: what is set off there is bold or italic. Links are their texts."""
    plain = re.sub(r"!?\[([^\]]*)\]\([^)]*\)", r"\1", as_installed(text))
    found = ""
    for word in re.split(r"(\*\*.+?\*\*|`[^`]+`|\*[^*\s][^*]*\*)", plain):
        if len(word) > 2 and word[0] == word[-1] and word[0] in "`*":
            font = "I" if re.match(r"\*[^*]", word) else "B"
            found += rf"\f{font}{escaped(word.strip('*').replace('`', ''))}\fR"
        else:
            found += escaped(word)
    return found


def guarded(line: str) -> str:
    """A line that is no request of roff."""
    return rf"\&{line}" if line[:1] in (".", "'") else line


def filled(lines: list[str]) -> Iterator[str]:
    """A paragraph."""
    for line in textwrap.wrap(marked(" ".join(map(str.strip, lines))), WIDTH, break_long_words=False,
                              break_on_hyphens=False):
        yield guarded(line)


def literal(lines: list[str]) -> Iterator[str]:
    """Lines that stay as they are."""
    yield from (".PP", ".RS 4", ".nf")
    yield from (guarded(escaped(as_installed(line.removeprefix("    ")))) for line in lines)
    yield from (".fi", ".RE")


def tagged(tag: str, lines: list[str]) -> Iterator[str]:
    """A word or an option, and what is said of it."""
    yield from (".TP", rf"\fB{escaped(as_installed(tag))}\fR")
    yield from filled(lines)


# ---- blocks, which are separated by empty lines


def blocks_of(text: str) -> Iterator[list[str]]:
    for block in re.split(r"\n(?:[ \t]*\n)+", text.strip("\n")):
        yield block.split("\n")


def joined(blocks: Iterator[list[str]]) -> Iterator[list[str]]:
    """The blocks, and what is indented as one block, also if it has empty lines."""
    before: list[str] = []
    for block in blocks:
        if before and block[0].startswith("    ") and before[0].startswith("    "):
            before += ["", *block]
            continue
        if before:
            yield before
        before = block
    yield before


def items_of(lines: list[str]) -> Iterator[tuple[str, list[str]]]:
    """The items of a list: what each begins with, and its lines."""
    item: tuple[str, list[str]] | None = None
    for line in lines:
        if begun := re.match(r"(-|\d+\.) +(.*)", line):
            if item:
                yield item
            item = begun[1], [begun[2]]
        elif item:
            item[1].append(line)
    if item:
        yield item


def cells_of(line: str) -> list[str]:
    return [cell.strip() for cell in line.strip("|").split("|")]


def table(lines: list[str]) -> Iterator[str]:
    """A table: the first cell of each row, and the others with the names of their columns."""
    names = cells_of(lines[0])
    for line in lines[2:]:
        first, *others = cells_of(line)
        said = "; ".join(f"{name}: {cell}" for name, cell in zip(names[1:], others) if cell)
        yield from tagged(first.replace("`", ""), [said])


def block_lines(lines: list[str]) -> Iterator[str]:
    """A block as roff."""
    if lines[0].startswith("    "):
        yield from literal(lines)
    elif lines[0].startswith("|"):
        yield from table(lines)
    elif re.match(r"(- |\d+\. )", lines[0]):
        for begin, item in items_of(lines):
            yield r".IP \(bu 2" if begin == "-" else f".IP {begin} 4"
            yield from filled(item)
    elif body := list(filled(lines)):
        yield from (".PP", *body)


def all_lines(text: str) -> Iterator[str]:
    for block in joined(blocks_of(text)):
        yield from block_lines(block)


# ---- sections


class Section(NamedTuple):
    level: int
    heading: str
    text: str


def text_of(document: str) -> str:
    """A page of docs/, without comments."""
    return re.sub(r"^<!--.*-->\n", "", (ROOT / f"docs/{document}.md").read_text("utf-8"), flags=re.MULTILINE)


def begin_of(document: str) -> str:
    """What a page of docs/ has between its title and its first section."""
    return text_of(document).partition("\n")[2].partition("\n## ")[0]


def sections_of(document: str) -> list[Section]:
    """The sections of a page of docs/, without what is above the first."""
    found = re.split(r"^(##+) (.*)\n", text_of(document), flags=re.MULTILINE)
    return [Section(len(sharps), heading, text) for sharps, heading, text in zip(found[1::3], found[2::3], found[3::3])]


def sections_under(document: str, headings: tuple[str, ...]) -> Iterator[Section]:
    """The sections under these headings, as chapters with what is below them; without headings all."""
    level = 0
    for section in sections_of(document):
        if section.heading in headings or not headings and section.level == 2:
            level = section.level
        elif section.level <= level:
            level = 0
        if level:
            yield section._replace(level=2 + section.level - level)


def heading_lines(section: Section) -> Iterator[str]:
    heading = "Notes" if section.heading.startswith("./") else section.heading.replace("`", "")
    yield f".SH {escaped(heading.upper())}" if section.level == 2 else f".SS {escaped(heading)}"


def section_lines(section: Section) -> Iterator[str]:
    yield from heading_lines(section)
    # The command line is in the synopsis already.
    text = re.sub(r"^\s*    \./\w+ \[.*\n(    .*\n)*", "", section.text)
    if text.strip():
        # `.SH` and `.SS` begin a paragraph.
        lines = list(all_lines(text))
        yield from lines[1:] if lines[0] == ".PP" else lines


# ---- a command


def synopsis_of(command: Command) -> Iterator[str]:
    """The lines of a command line, which are broken before a bracket."""
    for form in forms_of(command):
        whole = re.sub(r"\[[^]]*\]", lambda found: found[0].replace(" ", "\0"), f"binder-{command.name} {form}")
        for part in textwrap.wrap(whole, WIDTH, subsequent_indent=8 * " ", break_on_hyphens=False):
            yield part.replace("\0", " ")


def described(head: str, told: str) -> Iterator[str]:
    """A word and what is said of it, whose further lines are items."""
    text, *items = told.split("\n")
    yield from tagged(head, [text])
    if items:
        yield ".RS"
        for item in items:
            yield from (r".IP \(bu 2", *filled([item]))
        yield ".RE"


def command_lines(command: Command) -> Iterator[str]:
    """The sections that the table of a command gives."""
    yield from (".SH SYNOPSIS", ".nf")
    yield from (escaped(line) for line in synopsis_of(command))
    yield from (".fi", ".SH DESCRIPTION", *filled([command.begin]), ".PP", *filled([command.about_words]))
    for verb in command.verbs:
        yield from described(verb.name, verb.told)
    yield ".SH OPTIONS"
    for part in command.parts:
        yield f".SS {escaped(part.heading)}"
        for option in part.options:
            yield from described(option.head, option.told)
    yield ".SH EXAMPLES"
    for words, what in command.examples:
        yield from tagged(words, [what])
    yield ".SH EXIT STATUS"
    for number, told in command.statuses:
        yield from tagged(number, [told])


# ---- pages


def place_lines() -> Iterator[str]:
    """Where the other pages and the samples are."""
    yield ".SH FILES"
    pages = ("The pages that are named here in capital letters. They call the programs as the repository does, from its"
             " folder and without `binder-`; `methods` is in the folder `viewer` there.")
    samples = (f"Captures. A line that begins with `$` is a command, after `ln -s {DOCUMENTS}/samples`, and below it is"
               " what it prints. What is in `crates` or `checks` is in the repository alone.")
    yield from tagged(f"{DOCUMENTS}/docs", [pages])
    yield from tagged(f"{DOCUMENTS}/samples", [samples])


def also_lines(page: Page) -> Iterator[str]:
    yield ".SH SEE ALSO"
    others = [it for it in PAGES if it != page]
    for at, it in enumerate(others, 1):
        yield f".BR {escaped(it.name)} ({it.section})" + ("" if at == len(others) else " ,")
    if page.name != FIRST:
        yield from (".PP", f".BR {escaped(FIRST)} (1)", "has the way from a capture to the cause of a leak.")


def made(page: Page, version: str, date: str) -> str:
    """A page."""
    lines = [f'.TH {escaped(page.name.upper())} {page.section} {date} "binder\\-audit {escaped(version)}"',
             ".SH NAME", rf"{escaped(page.name)} \- {escaped(page.title)}"]
    if page.section == 1:
        lines += command_lines(command_of(page.name.removeprefix("binder-")))
    else:
        lines += section_lines(Section(2, "Description", begin_of(next(iter(page.documents)))))
    lines += place_lines()
    for document, headings in page.documents.items():
        for section in sections_under(document, headings):
            lines += section_lines(section)
    lines += also_lines(page)
    return "\n".join(lines) + "\n"
