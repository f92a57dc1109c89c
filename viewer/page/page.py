"""The page of a capture, as HTML that needs no network and no script. The files in templates/ say what it has, and all
markup is theirs: what they write of a capture stays text, since the engine escapes it."""

import base64
import functools
import hashlib
import html
import importlib.util
import os
import pathlib
import re
import sqlite3
import sys
from typing import TYPE_CHECKING, Iterator

from viewer.calls.page import Spent
from viewer.database.report import columns_of
from viewer.defects.gate import Shown
from viewer.files import Stopped, for_owner, shown_name, whole_file
from viewer.page.capture import ROWS, SLOW, Capture
from viewer.page.groups import FINDINGS, Groups
from viewer.page.head import head_of
from viewer.page.parts import Parts
from viewer.page.plots import axis_of, growths_of
from viewer.page.strip import Spans, Strip
from viewer.page.texts import pieces_of, title_of, user_name
from viewer.program_names import commit
from viewer.rules.verdicts import VERDICTS
from viewer.units import code_name, counted, duration_of
from viewer.window import Window

if TYPE_CHECKING:
    from viewer.arguments.recorded import Arguments

FOLDER = pathlib.Path(__file__).resolve().parent


def refuse_no_engine() -> None:
    """Stops before anything is made if there is no engine. It is among the modules that a system adds to Python."""
    if sys.flags.no_site:
        import site
        site.main()
    if importlib.util.find_spec("jinja2") is None:
        raise Stopped(1, "jinja2 is missing to make the page; this installs it: apt-get install python3-jinja2")


def number(value: int | None) -> str:
    return "" if value is None else f"{value:,}"


def address(value: int) -> str:
    """An address, which SQLite has in two's complement."""
    return f"0x{value % 2**64:x}"


FILTERS = {"pieces": pieces_of, "number": number, "hex": address, "counted": counted, "duration": duration_of,
           "code": code_name, "user_name": user_name}


def calls_of(capture: Capture) -> list[tuple]:
    """The calls that are not answered, and those that took longest."""
    return capture.asked("calls", ROWS, *capture.within)


def asked_of(capture: Capture, shown: Shown) -> dict[str, object]:
    """What templates ask. Sections ask when they are written, so that no two are in memory."""
    spans = Spans(capture)
    groups, calls = Groups(capture, spans, shown), functools.cache(lambda: calls_of(capture))
    return {"at": spans.axis.at, "between": spans.axis.between, "time": Strip(capture, spans, calls()),
            "parts": Parts(), "who": capture.who, "names": capture.names, "times": capture.times,
            "rules": capture.rules, "looks": capture.looks, "command": capture.command, "asked": capture.rows,
            "count": capture.count, "groups": groups.of, "left": groups.left, "most": FINDINGS,
            "all_verdicts": VERDICTS, "columns_of": columns_of, "growths": lambda: growths_of(capture),
            "axis": lambda: axis_of(capture), "has_stacks": groups.stacks.are_there, "gone": shown.gone,
            "calls": calls, "spent": Spent(capture), "slow": capture.slow, "says": capture.says,
            "slow_calls": capture.slow_calls,
            "waited": sum(call[5] != "answered" or (call[8] or 0) >= capture.slow for call in calls()),
            "groups_shown": len(capture.groups), "ruled": capture.count("rule", "id IN (SELECT rule FROM finding)"),
            "faults": sum(len(groups.rows(verdict)) for verdict in ("real", "maybe"))}


def script_of(folder: pathlib.Path) -> str:
    """The script of the page: its files, one after another, in the order in which order.txt names them."""
    names = (folder / "order.txt").read_text("utf-8").split()
    return "".join((folder / name).read_text("utf-8") for name in names)


def document(capture: Capture, shown: Shown) -> Iterator[str]:
    """The whole page, piece by piece. A name that a template does not have is an error, and None is no text."""
    import jinja2  # here, since all but the page is made without it
    engine = jinja2.Environment(loader=jinja2.FileSystemLoader(FOLDER / "templates"), autoescape=True,
                                undefined=jinja2.StrictUndefined, trim_blocks=True, lstrip_blocks=True,
                                finalize=lambda value: "" if value is None else value)
    engine.filters |= FILTERS
    engine.globals |= asked_of(capture, shown)
    style, script = (FOLDER / "page.css").read_text("utf-8"), script_of(FOLDER / "scripts")
    digest = base64.b64encode(hashlib.sha256(script.encode()).digest()).decode()
    heads = [text for text, in capture.ask("SELECT text FROM report WHERE section = 'head' ORDER BY id")]
    return engine.get_template("page.html").generate(
        head=head_of(capture), style=style, script=script, digest=digest, title=title_of(capture.facts["file"]),
        report=capture.report, heads=heads, commit=commit(is_change_told=False), again=capture.again)


# How a page begins: by its title it is known what it is a page of. It is matched, and made in the template alone.
BEGINNING = re.compile(r"<!doctype html>[^\0]*?[<]title>([^<]*): Binder capture[<]/title>")


def is_page_of(files: list[str], path: pathlib.Path) -> bool:
    """Whether a file is a page of a capture that is called so."""
    if path.is_symlink() or not path.is_file():
        return False
    with open(path, encoding="utf-8", errors="replace") as page:
        begun = BEGINNING.match(page.read(1 << 14))
    return begun is not None and html.unescape(begun[1]) == title_of(shown_name(files))


def refuse_other(files: list[str], path: pathlib.Path) -> None:
    """A page replaces an earlier one of the capture, and no other file."""
    if os.path.lexists(path) and not is_page_of(files, path):
        raise Stopped(1, f"{path} exists already, and is no page of {shown_name(files)}: name another file by -o")


def write(database: sqlite3.Connection, files: list[str], path: pathlib.Path, shown: Shown | None = None,
          window: Window | None = None, slow: int = SLOW, options: str = "", arguments: "Arguments | None" = None
          ) -> None:
    """Writes the page, for its owner only. `shown`: what it shows of another capture. `slow`: how long a call of a main
    thread takes at least that it lists. `options`: the words of the command beside the files. `arguments`: what
    transactions say, if the page shows that."""
    with whole_file(path, lambda: is_page_of(files, path)) as made:
        with open(made, "x", encoding="utf-8", errors="replace", opener=for_owner) as out:
            capture = Capture(database, files, window, slow, options, arguments)
            out.writelines(document(capture, shown or Shown({}, [], {})))
