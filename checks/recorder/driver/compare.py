"""Compares the results of a guest.

Each folder is a scenario. The capture must be well formed and end at one moment, and what the recorder lost
must be in the side list. sections.py compares the report with the driver's books. If the witness recorded too, the two
recordings are compared frame by frame. The list explained.txt has the differences that are explained, with their
reasons. Any other difference is named. To test the comparison itself, one count of each section is changed in the
books: that must be found too.
"""

import re
import tempfile
from collections import Counter, defaultdict

from checks.recorder.driver import books as books_of
from checks.recorder.driver.kinds import CHANGED, GOES_ON, KINDS, OF_CHANGING, PARTIAL, lines_of, whole
from checks.recorder.driver.recording import Recording, Report, report_on
from checks.recorder.driver.sections import both


def explained():
    return {tuple(words): reason for words, reason in lines_of("explained.txt")}


def row_of(scenario, difference):
    """A difference as a row of the list: without spaces, and with names in place of the numbers of processes."""
    return (scenario, *(re.sub(r"[ ()']", "", str(part)).replace("byprocess", "-by-process") for part in difference))


# ---- one scenario

class Scenario:
    def __init__(self, auditor, folder):
        self.name, self.folder = folder.name.removesuffix("-rust"), folder  # as store.py calls some
        self.recording = Recording(folder)
        status = folder / "status"
        self.is_stored = not status.exists()
        self.status, self.how = ("0", "stored") if self.is_stored else status.read_text("utf-8").split()[:2]
        code, text = report_on(auditor, self.recording.captures)
        if code == 2 and self.how == "killed" and self.recording.captures:
            with tempfile.TemporaryDirectory() as room:
                code, text = report_on(auditor, self.recording.cut_off(room))
        self.text = text
        self.output = (folder / "output").read_text("utf-8", errors="replace") if (folder / "output").exists() else ""
        self.report = Report(text) if code == 0 else None
        self.has_stacks = (self.how in ("stacks", "frameless")
                           or bool(re.search(r"^\d+ stack ", self.recording.side, re.M)))
        self.program = next((path for path in (folder / "program", *folder.glob("symbols/*")) if path.exists()), None)
        if self.how == "stored" and self.recording.lost:
            self.how = "narrow"
        if self.how == "stored" and self.recording.met:
            self.how = "before"
        if self.how == "stored" and self.name in GOES_ON:
            self.how = "beyond"
        self.books = books_of.texts(folder) if (folder / "state").exists() else None

    @property
    def driver(self):
        """The language of the driver, by the words of its books; None without books."""
        if self.books is None:
            return None
        return "Rust" if "need_return false" in self.books["state"] else "C"

    def unreadable(self):
        """What keeps it from being compared."""
        if found := re.search("Sanitizer: [a-z-]*|runtime error", self.output):
            return "status", "all", found[0], 1, 0
        if self.report is None:
            return "capture", "all", self.text.strip(), 0, 0
        if whole(self) and self.books is None:
            return "status", "all", "no books", self.status, 0
        return None

    def differences(self, texts=None):
        """The differences, also from the driver's books or from other texts of these, and the sections that were looked
        at."""
        if wrong := self.unreadable():
            return [wrong], {wrong[0]}
        kinds = [kind for kind in KINDS if kind.of(self)]
        found = [it for kind in kinds for it in kind.found(self) if it[3] != it[4]]
        seen = {section for kind in kinds for section in kind.sections.split()}
        if whole(self):
            sides = both(self.recording, self.report, books_of.Books(texts or self.books))
            found += sides.differences()
            seen |= sides.seen
        if self.name in CHANGED:
            found = [item for item in found if item[:3] not in OF_CHANGING]
        return found, seen


# ---- wrong books

WRONG_IN_C = {  # for each section a count in a file of the books
    "codes": ("stats", r"^(BC_REPLY: )(\d+)"),
    "codes by process": ("stats", r"^(  BC_FREE_BUFFER: )(\d+)"),
    "handles": ("state", r"(  ref \d+: desc \d+ (?:dead )?node \d+ s )(\d+)"),
    "nodes": ("state", r"(  node \d+: u[0-9a-f]*[1-9a-f]0* c\w+ (?:pri \S+ )?hs )(\d+)"),
    "due": ("state", r"(  node \d+: u[0-9a-f]*[1-9a-f]0* .* ls )(\d+)"),
    "buffers": ("state", r"(  buffer \d+: [0-9a-f]+ size )(\d+)(?=.* delivered)"),
    "calls": ("state", r"(outgoing transaction .* code )(\d+)"),
    "served": ("state", r"(incoming transaction .* code )(\d+)"),
    "requests": ("state", r"(  ref \d+: .* d 0*)(0)$"),
    "deaths": ("state", r"^(  has )(delivered dead binder)"),
    "clears": ("state", r"^(  has )(cleared death notification)"),
    "refused": ("failed_transaction_log", r"^(\d+: async from \d+:)(\d+)"),
    "oneway": ("state", r"(pending async transaction .* flags )(\d+)"),
}
# The driver in Rust has other lines of these, ends no line of a handle, and has no counts of what is left out.
WRONG_IN_RUST = {
    **{section: where for section, where in WRONG_IN_C.items() if section not in ("due", "requests", "refused")},
    "nodes": ("state", r"(  node \d+: u[0-9a-f]*[1-9a-f]0* c\w+ hs )(true)"),
    "buffers": ("state", r"(  buffer(?: \d+)?: )(\d+)(?= size .* allocated)"),
    "deaths": ("state", r"(  has )(delivered dead binder)"),
    "clears": ("state", r"(  has )(cleared death notification)"),
}
WRONG = {"C": WRONG_IN_C, "Rust": WRONG_IN_RUST}  # where the books of each driver can be made wrong


def wrong(text, section, where):
    """The books with one count of the section changed; None if they have no such count."""
    name, pattern = where

    def change(found):
        return found[1] + (str(int(found[2], 16) + 1) if re.fullmatch(r"[0-9a-f]+", found[2]) else "lost")
    head, mark, rest = text[name].partition("\nproc ")  # nodes without a process come first, and have no row
    if section in ("nodes", "due"):
        rest, times = re.subn(pattern, change, rest, count=1, flags=re.M)
        changed = head + mark + rest
    else:
        old = set(text.get(name + ".before", "").splitlines())  # lines of earlier scenarios
        lines, times = text[name].splitlines(), 0
        for at, line in enumerate(lines):
            if line not in old and not times:
                lines[at], times = re.subn(pattern, change, line, count=1)
        changed = "\n".join(lines) + "\n"
    return {**text, name: changed} if times else None


def unfound(scenarios):
    """For each driver that has books here, and each section: in how many scenarios its books were made wrong, and in
    how many that was found."""
    for driver, sections in WRONG.items():
        here = [scenario for scenario in scenarios if scenario.driver == driver]
        for section, where in sections.items() if here else ():
            tried = found = 0
            for scenario in here:
                if tried == 3 or not scenario.report or scenario.how in PARTIAL:
                    continue
                texts = wrong(scenario.books, section, where)
                if texts is None:
                    continue
                right = scenario.differences()[0]
                tried += 1
                found += any(item[0] == section and item not in right for item in scenario.differences(texts)[0])
            yield driver, section, tried, found


# ---- the table

def compared(auditor, folder, all_sections):
    """Prints what differs, and a table. Returns whether nothing differs without a reason, and each change of the books
    was found; if all sections are wanted, some in each."""
    reasons, table, failed = explained(), defaultdict(Counter), False
    scenarios = [Scenario(auditor, path) for path in sorted(folder.iterdir()) if (path / "status").exists()]
    if not scenarios:
        print(f"{folder} has no scenario")
        return False
    for scenario in scenarios:
        found, seen = scenario.differences()
        verdicts = {section: "agree" for section in seen}
        for difference in found:
            row = row_of(scenario.name, difference)
            if row in reasons:
                verdicts[difference[0]] = max(verdicts.get(difference[0], "agree"), "explained")
                continue
            verdicts[difference[0]] = "unexplained"
            print("not explained:", *row)
            failed = True
        for section, verdict in verdicts.items():
            table[section][verdict] += 1
    kernel, words = ((folder / name).read_text("utf-8").strip() for name in ("kernel", "words"))
    print(f"kernel {kernel}{words and ', ' + words}, {len(scenarios)} captures")
    print(f"{'section':20}{'agree':>8}{'explained':>11}{'not':>6}{'wrong books found':>20}")
    wrong_books = defaultdict(Counter)
    for _, section, tried, found in unfound(scenarios):
        wrong_books[section].update(tried=tried, found=found)
    for section in sorted(set(table) | set(wrong_books)):
        counts, made = table[section], wrong_books.get(section)
        told = f"{made['found']} of {made['tried']}" if made else "-"
        print(f"{section:20}{counts['agree']:8}{counts['explained']:11}{counts['unexplained']:6}{told:>20}")
        if made and (made["found"] != made["tried"] or all_sections and not made["tried"]):
            print("wrong books were not found:", section)
            failed = True
    return not failed
