"""The table of `record --live` on a terminal, by curses: it stays in place, and follows the size of the terminal."""

import curses
import time
from typing import Callable, NamedTuple

from recorder.live.methods import Names
from recorder.live.source import Source
from recorder.live.table import ORDERS, Line, Look, drawn

TURN = 100  # milliseconds without a key after which it looks for a new picture
ESCAPE, ENTER, ERASE = (27,), (10, 13, curses.KEY_ENTER), (8, 127, curses.KEY_BACKSPACE)
LONGEST_FILTER = 100


class Actions(NamedTuple):
    """What keys do beside changing the look. Each returns what is told of it."""

    keep: Callable[[], str]
    quit: Callable[[], str]


def is_known_terminal() -> bool:
    """Whether curses knows the terminal on standard output."""
    try:
        curses.setupterm()
    except curses.error:
        return False
    return bool(curses.tigetstr("cup"))  # it can move its cursor


def wait_for_picture(source: Source, tell: Callable[[], None]) -> bool:
    """Tells what is said until the first picture comes. Returns whether one came."""
    while not source.pictures and not source.has_ended():
        tell()
        time.sleep(0.05)
    return bool(source.pictures)


def typed(look: Look, key: int) -> Look:
    """A key that goes into the filter."""
    if key in ENTER:
        return look._replace(is_typing=False)
    if key in ESCAPE:
        return look._replace(is_typing=False, filter="")
    if key in ERASE:
        return look._replace(filter=look.filter[:-1])
    if 32 <= key < 127 and len(look.filter) < LONGEST_FILTER:
        return look._replace(filter=look.filter + chr(key))
    return look


def pressed(look: Look, key: int, actions: Actions) -> Look:
    if look.is_typing:
        return typed(look, key)
    if key == ord("s"):
        return look._replace(order=(look.order + 1) % len(ORDERS))
    if key == ord("/"):
        return look._replace(is_typing=True)
    if key in ESCAPE:
        return look._replace(filter="")
    if key == ord("k"):
        return look._replace(message=actions.keep())
    if key == ord("q"):
        return look._replace(message=actions.quit())
    return look


def put(window: "curses.window", lines: list[Line]) -> None:
    window.erase()
    for at, line in enumerate(lines):
        look = curses.A_REVERSE if line.is_head else curses.A_BOLD if line.is_strong else curses.A_NORMAL
        text = line.text.encode(window.encoding, "replace").decode(window.encoding)
        try:
            window.addstr(at, 0, text, look)
        except curses.error:  # the cursor can't go behind the last place of the screen; or it is smaller now
            pass
    window.refresh()


def last_said(source: Source, kept: list[tuple[int, bytes]], look: Look) -> Look:
    said = source.taken_said()
    kept += said
    texts = [line.decode(errors="backslashreplace").strip() for _, line in said]
    return look._replace(message=texts[-1]) if texts and texts[-1] else look


def show(window: "curses.window", source: Source, names: Names, actions: Actions) -> list[tuple[int, bytes]]:
    """Until the recorder has ended. Returns what was said meanwhile."""
    window.timeout(TURN)
    if curses.tigetstr("civis"):
        curses.curs_set(0)
    kept: list[tuple[int, bytes]] = []
    look, shown = Look(), -1
    while not source.has_ended():
        before = look
        key = window.getch()
        if key == curses.KEY_RESIZE:
            curses.update_lines_cols()
        elif key != -1:
            look = pressed(look, key, actions)
        look = last_said(source, kept, look)
        picture = source.picture
        if picture and (look != before or source.pictures != shown or key == curses.KEY_RESIZE):
            height, width = window.getmaxyx()
            put(window, drawn(picture, names, look, width, height))
            shown = source.pictures
    return kept


def watch(source: Source, names: Names, actions: Actions) -> list[tuple[int, bytes]]:
    return curses.wrapper(show, source, names, actions)
