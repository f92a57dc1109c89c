"""The folded sections of the page that answer a question: who serves what, slow calls of main threads, the largest
transactions, senders, holders, death recipients, and descriptors; and in a group, what filled the space of a receiver.
"""

import contextlib
import pathlib
import re

from checks.kit.checking import Fail, compare
from checks.viewer.page.common import loaded, stored, view

SECTION = re.compile(r'<details class="fold" id="[a-z-]*"><summary><h3>([^<]*)</h3>.*?</summary>(.*?)</details>',
                     re.DOTALL)
BODY = re.compile(r"<tbody>(.*?)</tbody>", re.DOTALL)


FILLED = re.compile(r'aria-label="what filled the space">.*?<tbody>(.*?)</tbody>', re.DOTALL)


def text_of(cell: str) -> str:
    """The text of a cell, without what is said beside it."""
    return re.sub(r"<[^>]*>", "", re.sub(r'<span class="of">.*?</span>', "", cell)).partition(">")[2].strip()


def cells_in(body: str) -> list[list[str]]:
    """The rows of a table, each cell without markup and times of day."""
    return [[text_of(cell) for cell in row.split("<td")[1:]] for row in body.split("<tr")[1:]]


def sections_of(page: str) -> dict[str, list[list[str]]]:
    """The rows of each folded section, by the first words of its title."""
    found = {}
    for title, inner in SECTION.findall(page):
        body = BODY.search(inner)
        found[title] = cells_in(body[1]) if body else []
    return found


def page_of(folder: pathlib.Path, room: pathlib.Path, scenario: str, *words: str) -> dict[str, list[list[str]]]:
    path = room / f"{scenario}.html"
    status, _, said = view(folder, room, *stored(scenario), "-o", path, *words)
    return sections_of(path.read_text("utf-8")) if status == 0 else {said: []}


# Of some scenarios the first row of a section, or what it has of one.
DUE = {
    "hello-stuck": {
        "Threads that take calls, and what each serves at the end":
            ["hello 444", "binder#1 446", "2.288 s", "3.42 s", "IHello code 6", "client 451", ""],
        "Calls of main threads that took 30 ms or more":
            ["hello 444", "client 447", "ICallback code 1", "1", "45.9 ms", "45.9 ms", "6060", "1.496 s"],
        "The largest transactions":
            ["780", "0.614 s", "hello 444", "names 443", "IServiceManager.addService (code 3)", "call", "168", "4",
             "answered"],
        "Who sends most": ["client 447", "0", "8", "1", "0", "620", "1.58", "109"],
        "Death recipients: who asked to be notified of whose death":
            ["hello 444", "names 443", "android.os.IServiceManager", "1", "1", "0", "0", "0"]},
    "hello-sessions": {
        "Who holds whose objects":
            ["client 351", "hello 344", "org.example.ISession", "", "6", "6", "5.353 s"]},
    "objects": {"File descriptors that came": ["service 230", "client 231", "code 1", "2", "", "", ""]}}


def check_sections(folder: pathlib.Path, room: pathlib.Path, fail: Fail) -> None:
    for scenario, due in DUE.items():
        found = page_of(folder, room, scenario, "--slow", "30ms")
        came = {title: rows[0] for title, rows in found.items() if title in due and rows}
        compare(f"first rows of sections, {scenario}", came, due, fail)
    found = page_of(folder, room, "hello-stuck")
    compare("calls of main threads over 100 ms", [title for title in found if "main threads" in title], [], fail)


# What no_space has, as the page shows it.
FILLED_ROWS = """
SELECT f.place, r.who, s.who, 'code ' || m.code, iif(m.reply, 'reply', iif(m.oneway, 'oneway', 'call')), m.n, m.bytes,
  m.held, m.largest
FROM no_space m JOIN finding f ON f.id = m.finding JOIN who r ON r.upid = receiver_upid
  JOIN who s ON s.upid = sender_upid ORDER BY f.place, m.bytes DESC"""


def check_filled(folder: pathlib.Path, room: pathlib.Path, fail: Fail) -> None:
    """The page has the rows of no_space in the group of the send that found none, and no such table elsewhere."""
    for scenario, titles in ("oneway", ["sends that were refused"]), ("leaks", []):
        capture, _, side = stored(scenario)
        view(folder, room, capture, "--side", side, "-o", f"{scenario}.filled.html")
        page = (room / f"{scenario}.filled.html").read_text("utf-8")
        groups = [group for group in page.split('<details class="group')[1:] if FILLED.search(group)]
        compare(f"groups with a table of the space, {scenario}",
                [re.findall(r"<b>(.*?)</b>", group)[0] for group in groups], titles, fail)
        with contextlib.closing(loaded(folder, room / f"{scenario}.filled.db", [capture], side)) as database:
            rows = [[str(place), *texts, *(f"{value:,}" for value in numbers)]
                    for place, *texts, numbers in ((*row[:5], row[5:]) for row in database.execute(FILLED_ROWS))]
        came = [row for body in FILLED.findall(page) for row in cells_in(body)]
        compare(f"what filled the space, {scenario}", came, rows, fail)
        compare(f"whether no_space has rows, {scenario}", bool(rows), bool(titles), fail)
