"""Makes the pictures of docs/PAGE.md anew."""

import pathlib
import shutil

from checks.kit.browser import Browser
from checks.kit.made_minute import minute
from checks.kit.programs import ROOT
from checks.viewer.page.common import stored, view

# How wide the window is, and how high for each picture.
WIDTH, OF_PAGE, OF_CALL = 1232, 1240, 600


def picture_of_page(browser: Browser, folder: pathlib.Path, room: pathlib.Path) -> None:
    """The page of a stored capture, with the group of the buffer that is never freed open."""
    capture, _, side = stored("leaks")
    shutil.copy(capture, room / "leaks.cap")
    shutil.copytree(side.parent, room / "leaks")
    view(folder, room, "leaks.cap", "--side", "leaks/capture.side", "-o", "leaks.html")
    browser.look(WIDTH, OF_PAGE)
    browser.show(room / "leaks.html")
    browser.js("document.getElementById('buffers-5060').closest('details').open = true")
    browser.settle()
    browser.shot(ROOT / "docs/view.png")


def picture_of_call(browser: Browser, folder: pathlib.Path, room: pathlib.Path) -> None:
    """The slow call of the made-up minute of a phone, as a waterfall."""
    capture, side = minute()
    (room / "minute.cap").write_bytes(capture)
    (room / "minute.side").write_text(side, "utf-8")
    view(folder, room, "minute.cap", "--side", "minute.side", "-o", "minute.html")
    browser.look(WIDTH, OF_CALL)
    browser.show(room / "minute.html", "time")
    browser.js("document.querySelector('details.tree').open = true")
    browser.settle()
    browser.js("document.querySelector('.strip').scrollIntoView()")
    browser.shot(ROOT / "docs/waterfall.png")


def make_pictures(folder: pathlib.Path, room: pathlib.Path) -> None:
    with Browser() as browser:
        picture_of_page(browser, folder, room)
        picture_of_call(browser, folder, room)
