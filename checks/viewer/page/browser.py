"""The page in Debian's chromium, without a window: all that it offers is done with the mouse and with the keys alone,
at three widths, light and dark; it is accessible, and printed whole. Pages of names that mean harm run nothing."""

import json
import pathlib
import re
from typing import Callable

from checks.kit.browser import Browser
from checks.kit.checking import Fail, compare
from checks.viewer.page.accessible import check_accessible, check_focus
from checks.viewer.page.common import stored, view
from checks.viewer.page.drawn import kept_capture
from checks.viewer.page.harm import check_harm, check_harms
from checks.viewer.page.paper import check_paper
from checks.viewer.page.words import check_hostile

# Widths and colours. At others only the width is looked at.
LOOKS = ((420, False), (420, True), (1280, False), (1280, True), (1920, False), (1920, True))
WIDTHS = (360, 600, 901, 1001, 1400, 2560)

OPEN_ALL = "for (const one of document.querySelectorAll('section.tab:not([hidden]) details')) one.open = true"
TABS = "[...document.querySelectorAll('section.tab')].map(one => one.id)"
CARDS = "section.tab:not([hidden]) details.group"

# What is copied is kept, since a browser without a window has no clipboard of its own.
KEEP_COPIED = "navigator.clipboard.writeText = async text => { window.copied = text; }"


class Driven:
    """A page that is used, and what comes of it. `by_keys`: with the keys alone. It has a tab with a table to sort, and
    these words in the reports of cards, among them when it was."""

    sorted_tab, in_reports = "traffic", ("commit ", "./listing ", "./view ", "how many: ")
    when = r"^when and where: place [0-9,]+( to [0-9,]+)? [0-9.]+ s [0-9:.]+( to [0-9.]+ s [0-9:.]+)?$"

    def __init__(self, browser: Browser, page: pathlib.Path, by_keys: bool, what: str, fail: Fail):
        self.browser, self.page, self.by_keys, self.fail = browser, page, by_keys, fail
        self.what = f"{page.name}, {what}, by {'keys' if by_keys else 'mouse'}"

    def same(self, what: str, came: object, due: object) -> None:
        compare(f"{self.what}: {what}", came, due, self.fail)

    def show(self, name: str = "") -> None:
        self.browser.show(self.page, name)
        self.browser.js(KEEP_COPIED)

    def focus(self, selector: str) -> None:
        """Goes to an element by the key Tab, unless it is there already."""
        for _ in range(400):
            if self.browser.js(f"document.activeElement.matches({json.dumps(selector)})"):
                return
            self.browser.key("Tab")
        raise RuntimeError(f"{self.what}: Tab does not reach {selector}")

    def press(self, selector: str) -> None:
        if self.by_keys:
            self.focus(selector)
            self.browser.key("Enter")
        else:
            self.browser.click(selector)
        self.browser.settle()

    def narrow(self, words: str) -> None:
        if self.by_keys:
            self.browser.key("/")
        else:
            self.browser.click(".filter input")
        self.browser.type(words)
        self.browser.settle()
        self.browser.settle()

    def hash(self) -> str:
        return str(self.browser.js("location.hash"))

    def count(self, selector: str) -> int:
        return int(self.browser.js(f"[...document.querySelectorAll({json.dumps(selector)})].filter(one =>"
                                   " one.checkVisibility()).length"))


def check_tabs(it: Driven) -> None:
    """A tab is an address; the browser goes back; what an address names is shown, in whatever tab."""
    it.show()
    tabs = it.browser.js(TABS)
    for at, tab in enumerate(tabs[1:], 2):
        if it.by_keys:
            it.browser.key(str(at))
            it.browser.settle()
        else:
            it.press(f'nav a[href="#{tab}"]')
        it.same(f"the tab {tab}", (it.hash(), it.count("section.tab > h2"), it.count(f"#{tab} > h2"),
                                   it.browser.js("document.querySelector('nav [aria-current]').hash")),
                (f"#{tab}", 1, 1, f"#{tab}"))
    it.browser.js("history.back()")
    it.browser.settle()
    it.same("the tab before", it.count(f"#{tabs[-2]} > h2"), 1)
    last = it.browser.js("[...document.querySelectorAll('section.tab')].at(-1).querySelector('tr[id], .part').id")
    it.show(last)
    it.same("what an address names", it.count(f"[id='{last}'].named"), 1)


def check_cards(it: Driven) -> None:
    """Cards are opened, and their addresses and reports copied."""
    it.show()
    if it.by_keys:
        it.browser.key("j")
        it.browser.key("j")
        it.browser.key("k")
        it.browser.key("Enter")
        it.browser.settle()
    else:
        it.press(f"{CARDS} > summary b")  # in the middle may be the link of a rule
    card = it.browser.js(f"document.querySelector('{CARDS}').id")
    it.same("the first card is open", it.count(f"[id='{card}'][open] .inner"), 1)
    it.press(f"[id='{card}'] a.link")
    it.same("the address of a card", (it.browser.js("window.copied").rpartition("/")[2], it.hash()),
            (f"{it.page.name}#{card}", f"#{card}"))
    it.press(f"[id='{card}'] .report")
    report = it.browser.js("window.copied")
    title = it.browser.js(f"document.getElementById('{card}').querySelector('.what b').textContent")
    due = (title, "culprit: ", "why: ", "to see it again:", f"#{card}", *it.in_reports)
    it.same("the report of a card", [part for part in due if part not in report], [])
    it.same("the report of a card: when", bool(re.search(it.when, report, re.MULTILINE)), True)
    it.show(card)
    it.same("the address opens it again", it.count(f"[id='{card}'][open].named"), 1)


def check_places(it: Driven) -> None:
    it.show("group-" + it.browser.js(f"document.querySelector('{CARDS}').id.slice(6)"))
    place = it.browser.js("document.querySelector('details.group[open] .place').textContent")
    it.press("details.group[open] .place")
    it.same("a place is copied with its command, and a word says so", (
        it.browser.js("window.copied").endswith(f"--at {place}"), it.count(".told")), (True, 1))


def check_sorting(it: Driven) -> None:
    """Numbers from the largest, then from the least; with a sign."""
    it.show(it.sorted_tab)
    head = "section.tab:not([hidden]) .part table.sorted th.number"
    found = f"document.querySelector({json.dumps(head)})"
    keys = (f"[...{found}.closest('table').tBodies[0].rows].map(row => row.cells[{found}.cellIndex].dataset.key)"
            ".filter(Boolean).map(Number)")
    for due, rises in (("descending", False), ("ascending", True)):
        it.press(f"{head} button")
        came = it.browser.js(keys)
        sign = it.browser.js(f"getComputedStyle({found}.querySelector('button'), '::after').content")
        it.same(f"sorted, {due}", (came, it.browser.js(f"{found}.ariaSort"), sign),
                (sorted(came, reverse=not rises), due, '" ▲"' if rises else '" ▼"'))


def check_filter(it: Driven, words: str) -> None:
    """What has hits is opened, and counted; the address has the words; Escape ends it."""
    it.show()
    rows = it.browser.js("document.querySelectorAll('details.group, table.sorted tbody tr').length")
    it.narrow(words)
    told = it.browser.js("document.querySelector('.filter [role=status]').textContent")
    found = re.match(r" ([0-9,]+) of ([0-9,]+) groups and rows", told)
    it.same("hits are told", bool(found) and 0 < int(found[1].replace(",", "")) < rows, True)
    it.same("all that is shown has the words", it.browser.js(
        f"[...document.querySelectorAll('details.group, table.sorted > tbody > tr')].filter(one => !one.hidden &&"
        f" !one.textContent.toLowerCase().includes({json.dumps(words)})).length"), 0)
    it.same("the address has the words", it.hash().endswith(f"?words={words}"), True)
    it.same("hits of each tab", it.browser.js("[...document.querySelectorAll('.hits')].every(one => /hit/.test("
                                              "one.textContent))"), True)
    address = it.hash()[1:]
    it.show(address)
    again = it.browser.js("document.querySelector('.filter [role=status]').textContent")
    it.same("the address narrows again", again, told)
    it.narrow(" no-such-word")
    it.same("what has nothing is hidden", it.count("details.group"), 0)
    it.browser.key("Escape")
    it.browser.settle()
    it.same("Escape ends it", (it.browser.js("document.querySelectorAll('details.group:not([hidden])').length > 0"),
                               "words" in it.hash()), (True, False))


def check_strip(it: Driven) -> None:
    """A part of the time is chosen, which narrows the page and stands in the address."""
    it.show()
    shown = "document.querySelectorAll('details.group:not([hidden])').length"
    before = it.browser.js(shown)
    if it.by_keys:
        it.focus(".handle:nth-child(3)")
        for key in ("Home", "ArrowRight"):
            it.browser.key(key)
    else:
        it.browser.drag(".over", 0.0, 0.012)
    it.browser.settle()
    it.browser.settle()
    time = re.fullmatch(r"#\w*\?time=0-([0-9.]+)", it.hash())
    it.same("the address has the time", bool(time), True)
    it.same("groups are fewer", it.browser.js(shown) < before, True)
    it.same("the time is told", it.browser.js("document.querySelector('.chosen').textContent.slice(0, 6)"), "Shown:")
    address = it.hash()[1:]
    it.show(address)
    it.same("the address narrows again", it.browser.js(shown) < before, True)
    it.press(".strip button")
    it.same("all of the time again", (it.browser.js(shown), "time" in it.hash()), (before, False))
    if not it.by_keys:
        bar = ".lane rect:is(.real, .maybe, .explained, .new)"
        of = it.browser.js(f"document.querySelector({bar!r}).dataset.of")
        it.press(bar)
        it.same("what a bar opens", (it.hash(), it.count(f"[id='{of}'][open].named")), (f"#{of}", 1))


def check_moment(it: Driven) -> None:
    """A page of a kept capture opens at what it was kept for, and leads back there from anywhere."""
    it.show()
    opens = it.browser.js("document.querySelector('.strip').dataset.opens")
    card = f"[id='{opens}'][open].named"
    it.same("it opens at what it was kept for", (it.count(card), it.hash()), (1, ""))
    it.same("which is in the window", it.browser.js(
        f"(box => box.top >= 0 && box.top < innerHeight)(document.querySelector({card!r}).getBoundingClientRect())"),
        True)
    it.show("rules")
    it.same("another address opens nothing", it.count(card), 0)
    it.press(".to-kept")
    it.same("the way back", (it.count(card), it.hash()), (1, f"#{opens}"))


def check_keys(it: Driven) -> None:
    it.show()
    if it.by_keys:
        it.browser.key("?")
    else:
        it.browser.click(".filter .help")
    it.same("the list of keys", it.count("dialog[open] kbd") > 4, True)
    if it.by_keys:
        it.browser.key("Escape")
    else:
        it.browser.click("dialog button")
    it.same("it closes", it.count("dialog[open]"), 0)


def without_script(page: pathlib.Path) -> pathlib.Path:
    """The page with a policy that stops its own script, as if scripts were off."""
    plain = page.with_suffix(".plain.html")
    plain.write_text(re.sub("script-src 'sha256-[^']*'", "script-src 'none'", page.read_text("utf-8")), "utf-8")
    return plain


def check_plain(browser: Browser, page: pathlib.Path, fail: Fail) -> None:
    """Without its script the page has all its sections, and nothing that only the script does."""
    browser.show(without_script(page))
    compare(f"{page.name} without a script", browser.js(
        "[[...document.querySelectorAll('section.tab')].every(one => one.checkVisibility()),"
        " document.querySelectorAll('button, input').length,"
        " [...document.querySelectorAll('table.sorted tbody tr')].some(one => one.hidden)]"), [True, 0, False], fail)
    browser.errors.clear()  # the policy reports what it stopped


PARTS: tuple[Callable[[Driven], None], ...] = (check_tabs, check_cards, check_sorting, check_strip, check_keys)


def check_looks(browser: Browser, page: pathlib.Path, room: pathlib.Path, words: str, fail: Fail,
                driven: type[Driven] = Driven, parts: tuple[Callable[[Driven], None], ...] = (*PARTS, check_places)
                ) -> None:
    """All that is done with a page, at all widths, light and dark."""
    for width, is_dark in LOOKS:
        look = f"{width} {'dark' if is_dark else 'light'}"
        browser.look(width, 900, is_dark)
        for tab in browser_tabs(browser, page):
            browser.show(page, tab)
            browser.shot(room / f"{page.stem}-{tab}-{look.replace(' ', '-')}.png")
            browser.js(OPEN_ALL)
            browser.settle()
            check_accessible(browser, f"{page.name}, {look}, {tab}", fail)
        browser.show(page)
        check_focus(browser, f"{page.name}, {look}", fail)
        for by_keys in (False, True):
            it = driven(browser, page, by_keys, look, fail)
            for part in parts:
                part(it)
            check_filter(it, words)


def browser_tabs(browser: Browser, page: pathlib.Path) -> list[str]:
    browser.show(page)
    return list(browser.js(TABS))


def check_widths(browser: Browser, page: pathlib.Path, fail: Fail) -> None:
    for width in WIDTHS:
        browser.look(width)
        for tab in browser_tabs(browser, page):
            browser.show(page, tab)
            browser.js(OPEN_ALL)
            browser.settle()
            check_accessible(browser, f"{page.name}, {width}, {tab}", fail)


def check_kept(browser: Browser, folder: pathlib.Path, room: pathlib.Path, fail: Fail) -> None:
    """The page of a kept capture."""
    page = kept_capture(folder, room, "kept")
    for width, is_dark in LOOKS:
        browser.look(width, 900, is_dark)
        look = f"{width} {'dark' if is_dark else 'light'}"
        browser.show(page)
        browser.shot(room / f"kept-{look.replace(' ', '-')}.png")
        check_accessible(browser, f"{page.name}, {look}", fail)
        for by_keys in (False, True):
            check_moment(Driven(browser, page, by_keys, look, fail))


def check_browser(folder: pathlib.Path, room: pathlib.Path, fail: Fail) -> None:
    harmful = check_hostile(folder, room, fail)
    with Browser() as browser:
        check_harm(browser, harmful, fail)
        check_harms(browser, folder, room, fail)
        for name, words in (("leaks", "service"), ("hello-stuck", "manager")):
            view(folder, room, *stored(name), "-o", f"{name}.html")
            page = room / f"{name}.html"
            check_looks(browser, page, room, words, fail)
            check_widths(browser, page, fail)
            check_paper(browser, page, fail)
            check_plain(browser, page, fail)
        check_kept(browser, folder, room, fail)
        compare("errors of the script", browser.errors, [], fail)
    print(f"checks/viewing: pictures are in {room}")
