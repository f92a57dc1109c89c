"""Makes the page of what was fetched, and opens it in the browser, if there is one that does not need the terminal."""

import contextlib
import os
import pathlib
import subprocess
import webbrowser

from next_command import view_beside, view_words
from told import tell


def has_browser() -> bool:
    """Without a desktop the module of Python would begin a browser for the terminal."""
    return any(os.environ.get(name) for name in ("BROWSER", "DISPLAY", "WAYLAND_DISPLAY"))


def show(record: str, paths: list[str], methods: list[str]) -> int:
    """Returns the status of `./view` if it made no page: with 2 it has made one of a capture that is malformed."""
    words = view_words(paths)
    tables = [word for table in methods for word in ("--methods", table)]
    status = subprocess.run([view_beside(record), *words, *tables], stdin=subprocess.DEVNULL).returncode
    if status not in (0, 2):
        return status
    page = pathlib.Path(f"{words[0]}.html").absolute()
    opened = False
    with contextlib.suppress(webbrowser.Error):
        opened = has_browser() and webbrowser.open_new_tab(page.as_uri())
    tell(f"the page is {page}" + ("" if opened else "; no browser was opened"))
    return 0
