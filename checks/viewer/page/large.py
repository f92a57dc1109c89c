"""Pages of large captures: how many bytes they have, and what of the processor it takes to open them in chromium."""

import pathlib
from typing import Callable

from checks.kit.browser import Browser
from checks.kit.checking import Fail, compare, row
from checks.kit.large_pages import Crowd, of_findings, of_processes
from checks.viewer.page.common import view

# The most bytes of a page, and the most seconds of the processor that its renderer takes until it is drawn: the least
# of so many times, since what else runs makes each longer.
MOST_BYTES, MOST_SECONDS, TIMES = 3_000_000, 2.0, 3

# What is large, and of what a page must have how much, in all.
LARGE: dict[str, tuple[Callable[[], Crowd], str, int]] = {
    "20,000 findings": (of_findings, "details.group .count", 20_000),
    "2,000 processes": (of_processes, "#all-processes tbody tr", 2000)}


def opened(page: pathlib.Path) -> tuple[float, float]:
    """The seconds of the processor that the renderer takes to open a page, in all, and in its main thread."""
    with Browser() as browser:
        browser.look(1280)
        before = browser.renderers()
        browser.show(page)
        return browser.renderers() - before, browser.seconds()


def check_whole(page: pathlib.Path, what: str, fail: Fail) -> None:
    """All that the page has is there when it is asked for."""
    _, counted, due = LARGE[what]
    with Browser() as browser:
        browser.look(1280)
        browser.show(page)
        browser.js("Promise.all(undrawn().map(draw))")
        texts = browser.js(f"[...document.querySelectorAll({counted!r})].map(one => one.textContent)")
        came = sum(int(text.split()[0].replace(",", "")) for text in texts) if "count" in counted else len(texts)
        compare(f"{what}: what is drawn in all", came >= due, True, fail)
        compare(f"{what}: errors of the script", browser.errors, [], fail)


def check_large(folder: pathlib.Path, room: pathlib.Path, fail: Fail) -> None:
    row("page of", "bytes", "s of the renderer", "s of its main thread")
    for what, (made, *_) in LARGE.items():
        page = room / f"{what.replace(' ', '-')}.html"
        words = made().write(room, page.stem)
        status, _, told = view(folder, room, *words, "-o", page.name)
        compare(f"{what}: status", (status, told), (0, ""), fail)
        size, (seconds, main) = page.stat().st_size, min(opened(page) for _ in range(TIMES))
        row(what, f"{size:,}", f"{seconds:.2f}", f"{main:.2f}")
        compare(f"{what}: at most {MOST_BYTES:,} bytes", size <= MOST_BYTES, True, fail)
        compare(f"{what}: opened in {MOST_SECONDS} s of the processor", seconds <= MOST_SECONDS, True, fail)
        check_whole(page, what, fail)
