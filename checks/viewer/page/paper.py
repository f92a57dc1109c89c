"""The page on paper: what chromium prints has all tabs, all folds open, all rows that are drawn, and all of each."""

import base64
import pathlib
import re
import shutil
import subprocess

from checks.kit.browser import Browser
from checks.kit.checking import Fail, compare

# What is to be read on paper: each text of its own, without spaces; of what a thread did each line. What only helps in
# a window is not: the filter, tabs and contents, buttons.
TEXTS = """[...document.querySelectorAll('h1, h2, h3, header > p, .counts > div, summary > .what, summary > .who, td,'
  + ' th, dd, dt, pre, li, main p:not(.actions, .contents, .rest)')]
  .filter(one => !one.closest('.filter, .strip, nav, dialog, caption') && !one.querySelector('td, p'))
  .flatMap(one => one.tagName === 'PRE' ? one.textContent.split('\\n')
    : [(one.tagName === 'TH' && one.querySelector('button') || one).textContent])
  .map(text => text.replace(/\\s+/g, '')).filter(Boolean)"""

# Signs that are not compared: those that the style writes, before what is proved and before what a colour means, and
# the hyphen, which pdftotext leaves out where a line ends in one.
SIGNS = re.compile("[\N{CHECK MARK}\N{BLACK SQUARE}-]")

# In inches.
PAPERS = {"A4": (8.27, 11.69), "Letter, on its side": (11, 8.5)}


def printed(browser: Browser, to: pathlib.Path, paper: tuple[float, float]) -> str:
    """The text of what chromium prints, in the order in which it is drawn, without spaces."""
    program = shutil.which("pdftotext")
    if program is None:
        raise SystemExit("checks: pdftotext is missing: apt-get install poppler-utils")
    got = browser.ask("Page.printToPDF", paperWidth=paper[0], paperHeight=paper[1])
    to.write_bytes(base64.b64decode(got["data"]))
    text = subprocess.run([program, "-raw", to, "-"], check=True, capture_output=True, encoding="utf-8").stdout
    return "".join(SIGNS.sub("", text).split())


def check_paper(browser: Browser, page: pathlib.Path, fail: Fail) -> None:
    """All that the page has is on paper, whichever tab is shown; and afterwards the window is as before."""
    browser.show(page)
    browser.show(page, browser.js("[...document.querySelectorAll('section.tab')].at(-1).id"))
    shown = "[...document.querySelectorAll('details[open], section.tab:not([hidden])')].map(one => one.id)"
    rows = "document.querySelectorAll('table.sorted > tbody > tr:not([hidden])').length"
    before = browser.js(f"[{shown}, {rows}]")
    texts = browser.js(TEXTS)
    compare(f"{page.name}: it has texts", len(texts) > 100, True, fail)
    for name, paper in PAPERS.items():
        text = printed(browser, page.with_suffix(".pdf"), paper)
        lost = [one for one in dict.fromkeys(texts) if SIGNS.sub("", one) not in text]
        compare(f"{page.name} on {name}: what is cut off, or not there", lost[:8], [], fail)
        browser.settle()
        compare(f"{page.name} after {name}: what is shown", browser.js(f"[{shown}, {rows}]"), before, fail)
