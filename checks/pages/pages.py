"""Checks what the pages say of the programs. texts.py, which takes no program, has the pages and checks all else.

    checks/run pages [-- PROGRAM]

What must hold:

- Each report that a page prints is one that the program writes for a capture of samples/ or of crates/audit_cases/data:
  whole, or without the heads that have no number above 0. In samples/README.md it is the report on the capture in the
  heading, or on the parts in the heading, which are separated by `and`.
- The changes of a sample in docs/ENVELOPE.md, in the columns under `change`, have the first faults that the page says.
- An indented line that begins with `$ ` is a command, and the indented lines below it are what it prints, both streams
  together. The commands of a page are run one after another in one folder, which has the repository's files and the
  program as `audit`.
- The options that a page names are those of `--help` of the programs, and of the checks.
"""

import os
import re
import shutil
import subprocess

from checks.kit.checking import check
from checks.kit.programs import ROOT, SMALL, folder_of, linked
from checks.kit.runs import answer
from checks.pages import named_options
from checks.pages.texts import pages

TITLE = "BINDER AUDIT "

# How many seconds a command of a page may take: on a loaded machine nine pages were seen to take over two minutes.
LONGEST = 600


def blocks(page):
    """The indented blocks of a page: the number of the first line, the lines, and the heading above them."""
    block, heading = [], ""
    for number, line in enumerate([*page.read_text("utf-8").splitlines(), ""], 1):
        if line.startswith("    "):
            block.append(line[4:])
        else:
            if block:
                yield number - len(block), block, heading
            block = []
        if line.startswith("#"):
            heading = line.strip("# ")


def commands_in(block):
    """The commands in an indented block: where each one is, the command, and the lines that it must print."""
    starts = [at for at, line in enumerate(block) if line.startswith("$ ")]
    for start, end in zip(starts, [*starts[1:], len(block)]):
        yield start, block[start][2:], block[start + 1:end]


def told(report):
    """A report without the heads that have no number above 0."""
    title, totals, *lines = report.splitlines()
    return "\n".join([title, totals, *(line for line in lines
                                       if line.startswith(" ") or any(map(int, re.findall(r" (\d+)", line))))]) + "\n"


def wrong_reports(page, reports):
    """The reports of a page that the program writes for no capture, each with its line."""
    for number, block, heading in blocks(page):
        if block[0].startswith(TITLE) and block[0] != TITLE + "..":
            of = [reports[heading]] if page.parent.name == "samples" else reports.values()
            if "\n".join(block) + "\n" not in {form for report in of for form in (report, told(report))}:
                yield number, "a report that no capture has"


SQLITE3 = """#!/usr/bin/env python3
import sqlite3, sys
for row in sqlite3.connect(sys.argv[1]).execute(sys.argv[2]):
    print("|".join("" if value is None else str(value) for value in row))
"""


def with_sqlite3(folder):
    """Puts a script that answers one query in place of the command sqlite3, if that is missing. Returns whether it
    did."""
    if shutil.which("sqlite3"):
        return False
    (folder / "bin").mkdir()
    (folder / "bin/sqlite3").write_text(SQLITE3, "utf-8")
    (folder / "bin/sqlite3").chmod(0o755)
    return True


def wrong_answers(page, program, room):
    """The commands of a page that print something else than the lines below them, each with its line."""
    folder = folder_of(room / "-".join(page.relative_to(ROOT).parts), program)
    linked(folder, {name: ROOT / name for name in ("samples", "checks", "docs")})
    path = f"{folder}/bin:{os.environ['PATH']}" if with_sqlite3(folder) else os.environ["PATH"]
    for number, block, _ in blocks(page):
        for at, command, due in commands_in(block):
            _, said, _ = answer(["bash", "-c", command], timeout=LONGEST, cwd=folder, encoding="utf-8",
                                env={**os.environ, "PATH": path, "TZ": "UTC", "COLUMNS": "100"},
                                stderr=subprocess.STDOUT)
            if said.splitlines() != due:
                yield number + at, f"it prints {said!r}"


def changes(words, sample):
    """The captures that these words of a column `change` make of a sample."""
    if words == "the frame's 48 bytes once more at the end":
        return [sample + sample[16:]]
    data, lengths = bytearray(sample), [len(sample)]
    for part in words.split(", "):
        if cut := re.fullmatch(r"cut after (\d+)(?: to (\d+))? bytes", part):
            lengths = range(int(cut[1]), int(cut[2] or cut[1]) + 1)
        elif put := re.fullmatch(r"places? (\d+)(?: (to|or) (\d+))?(?: from (\w+))? to (\w+)", part):
            first, last = int(put[1]), int(put[3] or put[1])
            if put[2] == "or":
                return [made for at in (first, last)
                        for made in changes(f"place {at} from {put[4]} to {put[5]}", sample)]
            if put[4] and data[first:last + 1].hex() != put[4]:
                return []
            data[first:last + 1] = bytes.fromhex(put[5])
        elif part == "and the entry once more":
            data += sample[116:]
            lengths = [len(data)]
        elif part == "or an empty file":
            lengths = [*lengths, 0]
        else:
            return []
    return [bytes(data[:length]) for length in lengths]


def wrong_changes(page, program):
    """The rows under `change` that have another first fault than the program names, each with its line."""
    sample = b""
    for number, block, heading in blocks(page):
        if block[0].startswith("place") and block[1].split()[1:3] == ["424e445243415031", "magic"]:
            name = "attachment" if "with an attachment" in heading else "acquire"
            sample = (ROOT / f"samples/{name}.cap").read_bytes()
        for at, row in enumerate(block[1:] if block[0].startswith("change ") else [], 1):
            words, due, *_ = re.split(r" {2,}", row)
            made = changes(words, sample)
            told = {answer([program, "first-fault", "/dev/stdin"], input=capture)[1].decode().strip()
                    for capture in made}
            if told != {"no malformed record" if due == "none" else f"malformed {due}"}:
                yield number + at, f"{words}: {told or 'no such change'}"


def judge(given, room, _):
    program, asked = given.programs[0], {capture.name: [capture] for capture in SMALL}
    for _, _, heading in blocks(ROOT / "samples/README.md"):
        if " and " in heading:
            asked[heading] = [ROOT / "samples" / name for name in heading.split(" and ")]
    answers = {name: answer([program, "report", *parts], encoding="utf-8")[1] for name, parts in asked.items()}
    reports = {name: text for name, text in answers.items() if text.startswith(TITLE)}
    options = named_options.Options()
    for page in pages():
        for number, what in (*wrong_reports(page, reports), *wrong_answers(page, program, room),
                             *wrong_changes(page, program), *named_options.wrong(page, options)):
            yield f"{page.relative_to(ROOT)}:{number}: {what}"


if __name__ == "__main__":
    check(judge)
