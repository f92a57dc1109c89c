"""The page of a lab: one HTML file that needs no network and no server, in the style of the page of a capture."""

import base64
import hashlib
import html
import os
import pathlib
import re
import sqlite3
from collections.abc import Iterator

from lab import chance
from lab.shown_by import folder_of
from lab.compare import Enough, milliseconds
from lab.known_until import Known
from lab.page.builds import REFUSED
from lab.page.defects import BEFORE, NAMED, Lab, picture_of
from lab.page.strip import Strip, builds_with
from lab.renamed import Renamed
from viewer.files import Stopped, for_owner, whole_file, word_of
from viewer.page import page as of_capture
from viewer.page.parts import Parts
from viewer.page.texts import title_of
from viewer.program_names import called_anywhere

TEMPLATES = pathlib.Path(__file__).resolve().parent / "templates"

# How the page begins. It is matched, and made in the template alone.
BEGINNING = re.compile(r"<!doctype html>[^\0]*?[<]title>([^<]*): Binder lab[<]/title>")


def of_hundred(share: float) -> str:
    """A share, as of a hundred."""
    return f"{100 * share:.2g} %" if share < 0.995 else "100 %"


def interval(rate: chance.Interval | None) -> str | None:
    return rate and f"{rate.value:.3g} ({rate.low:.3g} to {rate.high:.3g})"


def small(p: float | None) -> str | None:
    return None if p is None else f"{p:.2g}"


def in_milliseconds(ns: float | None) -> str | None:
    return None if ns is None else milliseconds(ns)


FILTERS = {**of_capture.FILTERS, "of_hundred": of_hundred, "interval": interval, "small": small, "picture": picture_of,
           "builds_with": builds_with, "milliseconds": in_milliseconds}


def document(lab: sqlite3.Connection, path: str, enough: Enough, known: dict[str, Known], renamed: Renamed
             ) -> Iterator[str]:
    """The whole page, piece by piece."""
    import jinja2  # here, since all but pages is made without it
    shown = Lab(lab, folder_of(path), enough, known, renamed)
    engine = jinja2.Environment(loader=jinja2.FileSystemLoader([TEMPLATES, of_capture.FOLDER / "templates"]),
                                autoescape=True, undefined=jinja2.StrictUndefined, trim_blocks=True, lstrip_blocks=True,
                                finalize=lambda value: "" if value is None else value)
    engine.filters |= FILTERS
    ask = f"{word_of(called_anywhere('fleet'))} ask {word_of(os.path.basename(path))}"
    engine.globals |= {"who": {}, "names": None, "ask": ask, "parts": Parts()}
    style = "".join((folder / "page.css").read_text("utf-8") for folder in (of_capture.FOLDER, TEMPLATES.parent))
    script = of_capture.script_of(of_capture.FOLDER / "scripts")
    digest = base64.b64encode(hashlib.sha256(script.encode()).digest()).decode()
    return engine.get_template("lab.html").generate(
        title=title_of(name_of(path)), style=style, script=script, digest=digest, lab=shown,
        time=Strip(shown.builds, shown.defects), before=BEFORE, most=NAMED, first=enough.before,
        refused=lab.execute(REFUSED).fetchall(), rate=enough.rate)


def name_of(path: str) -> str:
    """What a lab is called: by its folder, as all are LAB.db."""
    return folder_of(path).name if os.path.basename(path) == "LAB.db" else os.path.basename(path)


def is_page_of(path: str, page: pathlib.Path) -> bool:
    """Whether a file is a page of a lab that is called so."""
    if page.is_symlink() or not page.is_file():
        return False
    with open(page, encoding="utf-8", errors="replace") as text:
        begun = BEGINNING.match(text.read(1 << 15))
    return begun is not None and html.unescape(begun[1]) == title_of(name_of(path))


def write(lab: sqlite3.Connection, path: str, to: pathlib.Path, enough: Enough, known: dict[str, Known],
          renamed: Renamed = Renamed({})) -> None:
    """Writes the page of the lab at `path`, for its owner only, in place of an earlier one and of no other file."""
    of_capture.refuse_no_engine()
    if os.path.lexists(to) and not is_page_of(path, to):
        raise Stopped(1, f"{to} exists already, and is no page of {name_of(path)}: name another file by -o")
    with whole_file(to, lambda: is_page_of(path, to)) as made:
        with open(made, "x", encoding="utf-8", errors="replace", opener=for_owner) as out:
            out.writelines(document(lab, path, enough, known, renamed))
