"""The page of a lab: what it says of planted changes, that names of strangers stay texts, and that its commands show
what they name; and by hand in chromium."""

import html
import pathlib
import re
import subprocess
from contextlib import closing
from html.parser import HTMLParser

from checks.kit.browser import Browser
from checks.kit.checking import Fail, compare
from checks.lab.models import ALIKE, PLANTED, Model, made
from checks.lab.played import played
from checks.viewer.page.browser import Driven, PARTS, check_looks, check_plain, check_widths
from checks.viewer.page.paper import check_paper
from lab.compare import Enough
from lab.known_until import Known
from lab.page import page
from lab.store import open_lab
from viewer.files import Stopped
from viewer.terminal import is_sign
from viewer.units import defect_key

# In the last build one is new, another is gone for the second time, and a third one came back in the build before.
LAST = {"b4": (Model("latest", 0.6, 2), Model("gone", 0.0, 1), Model("new", 0.5, 1.5, 0.8), Model("grown", 1.0, 4.5))}
BACK = {build: Model("came", share, 2.0) for build, share in
        (("a1", 0.5), ("a2", 0.0), ("b1", 0.0), ("b3", 0.5), ("b4", 0.5))}


class Read(HTMLParser):
    """The groups of a page under its headings, the tags that are open, and what is loaded from elsewhere."""

    def __init__(self, text: str):
        super().__init__()
        self.groups: dict[str, str] = {}
        self.strange: list[tuple] = []
        self.heading, self.open = "", ""
        self.feed(text)

    def handle_starttag(self, tag: str, given: list[tuple[str, str | None]]) -> None:
        attributes = dict(given)
        self.open = tag
        if tag == "details" and (attributes.get("class") or "").startswith("group"):
            self.groups[str(attributes["id"])] = self.heading
        elsewhere = not (attributes.get("href") or "#").startswith("#")
        loads = {"src", "onclick", "onload", "onerror"} & set(attributes) or elsewhere
        if loads or tag in ("img", "link", "iframe"):
            self.strange.append((tag, attributes))

    def handle_data(self, data: str) -> None:
        if self.open in ("h2", "summary") and data.strip():
            self.heading = data.split()[0] if self.open == "h2" or data.startswith("Rare") else self.heading


def key_of(name: str) -> str:
    return defect_key("kept", f"{name} on binder", "code 1 of it")


def planted(path: pathlib.Path) -> None:
    models = {build: [*ALIKE, *some] for build, some in {**PLANTED, **LAST}.items()}
    made(path, 7, {build: [*some, BACK[build]] for build, some in models.items()})


def state_in(text: str, name: str) -> str:
    """What the line of a defect says of its state."""
    found = re.search(rf"<code>{key_of(name)}</code> · ([^<]*)</span>", text)
    return found[1] if found else ""


def check_page(room: pathlib.Path, fail: Fail) -> None:
    room.mkdir()
    path, to = room / "LAB.db", room / "lab.html"
    planted(path)
    known = {key_of("always0"): Known(None, "why"), key_of("always1"): Known("a2", "mended")}
    with closing(open_lab(str(path))) as lab:
        page.write(lab, str(path), to, Enough(), known)
    text = to.read_text("utf-8")
    read = Read(text)
    changed = {key for key, heading in read.groups.items() if heading == "Changed"}
    compare("the page of a lab: what changed", changed, {key_of("latest"), key_of("always1")}, fail)
    states = {name: state_in(text, name) for name in ("latest", "gone", "new", "came", "always0", "always1", "often1")}
    compare("the page of a lab: states", states, {
        "latest": "new in b4", "gone": "gone since b1", "new": "new in b1", "came": "came back in b3",
        "always0": "known", "always1": "known until a2, and back", "often1": ""}, fail)
    compare("the page of a lab: rare ones", sum(heading == "Rare" for heading in read.groups.values()) > 50, True, fail)
    compare("the page of a lab: what it loads", read.strange, [], fail)
    picture = re.search(rf'id="{key_of("latest")}".*?aria-label="share of captures by build: ([^"]*)"', text, re.DOTALL)
    told = re.sub("b4 [1-9][0-9]", "b4 many", picture[1]) if picture else ""
    compare("the page of a lab: a picture", told,
            "a1 0 of 50, a2 0 of 50, b1 0 of 50, b3 0 of 50, b4 many of 50 new", fail)
    before = to.read_bytes()
    (room / "other.html").write_bytes(b"mine")
    with closing(open_lab(str(path))) as lab:
        page.write(lab, str(path), to, Enough(), known)
        for name in "other.html", "LAB.db":
            try:
                page.write(lab, str(path), room / name, Enough(), known)
                fail(f"{name} is taken for a page")
            except Stopped as stopped:
                compare(f"{name} as a page", (stopped.status, "exists already" in str(stopped)), (1, True), fail)
    compare("the page of a lab, again; another file", (to.read_bytes() == before, (room / "other.html").read_bytes()),
            (True, b"mine"), fail)


def check_page_of_strangers(folder: pathlib.Path, room: pathlib.Path, fail: Fail) -> None:
    """The lab of words.py, whose names move terminals, is shown as text."""
    came = played(folder / "fleet", "page", "stranger.db", "-o", "stranger.html", "--rate", "100", "--least", "1",
                  cwd=room)
    compare("a page of strangers: status, lines", came[::2], (0, ""), fail)
    text = (room / "stranger.html").read_text("utf-8")
    compare("a page of strangers: signs", {one for one in text if is_sign(one) and one != "\n"}, set(), fail)
    compare("a page of strangers: names, what it loads", ("клиент" in text, Read(text).strange), (True, []), fail)


def check_commands(folder: pathlib.Path, lab: pathlib.Path, room: pathlib.Path, fail: Fail) -> None:
    """The commands of the page of a lab that make made show what they name."""
    came = played(folder / "fleet", "page", lab, "-o", room / "made.html")
    compare("a page by the folder of a lab", came, (0, "", ""), fail)
    text = (room / "made.html").read_text("utf-8")
    commands = [html.unescape(one) for one in re.findall("<code>([^<]* [^<]*)</code>", text)]
    for program, has, more in ("listing", "--at", ""), ("view", "--side", " --groups"):
        command = next(one for one in commands if re.match(rf"\S*/{program} ", one) and has in one)
        ended = subprocess.run(command + more, shell=True, cwd=lab, capture_output=True, encoding="utf-8")
        shown = command.rpartition(" ")[2] if program == "listing" else "\t"
        compare(f"{command}: status, what it shows", (ended.returncode, shown in ended.stdout), (0, True), fail)


class DrivenLab(Driven):
    """The page of a lab that is used. Its defects have no places to copy."""

    sorted_tab, in_reports = "builds", ("defect=",)
    when = r"^when and where: first seen \S+ last seen \S+$"


def check_browser(room: pathlib.Path, fail: Fail) -> str:
    """Returns where pictures are."""
    room.mkdir()
    planted(room / "LAB.db")
    with closing(open_lab(str(room / "LAB.db"))) as lab:
        page.write(lab, str(room / "LAB.db"), room / "lab.html", Enough(), {})
    with Browser() as browser:
        check_looks(browser, room / "lab.html", room, "latest", fail, DrivenLab, PARTS)
        check_widths(browser, room / "lab.html", fail)
        check_paper(browser, room / "lab.html", fail)
        check_plain(browser, room / "lab.html", fail)
        compare("errors of the script", browser.errors, [], fail)
    return str(room)
