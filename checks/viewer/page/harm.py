"""Pages of captures in which all that a stranger can name means harm: processes, threads, the kernel, interfaces,
methods and the file. They run nothing in chromium, whatever of them is opened or pressed."""

import pathlib
import random
import re
import shutil

from checks.kit.browser import Browser
from checks.kit.checking import Fail, compare
from checks.viewer.page.common import texts_stored, view

DO = "document.documentElement.setAttribute('pwned',1)"
NAMES = (f"<script>{DO}</script>", f'"><img src=x onerror={DO}>', f"' onmouseover={DO} onfocus={DO} autofocus x='",
         f"</script><script>{DO}</script>", f"</title><script>{DO}</script>", f"</style><script>{DO}</script>",
         f"<svg onload={DO}>", f"{{{{{DO}}}}}", f"&lt;script&gt;{DO}&lt;/script&gt;", f"javascript:{DO}",
         f"<a href=javascript:{DO}>", f"</template><script>{DO}</script>",
         f'<iframe srcdoc="<script>parent.{DO}</script>">', "<meta http-equiv=refresh content=0;url=data:text/html,x>",
         f"<details open ontoggle={DO}>", f"<!--><script>{DO}</script>", f"${{{DO}}}",
         "#group-1?words=<b>", "\u202e\u2066</bdi>")

# Captures with findings, stacks, books, freezes, interfaces and slow calls, each with more words for its page.
SCENARIOS: dict[str, tuple[str, ...]] = {
    "hello-answers": (), "leaks": (), "deaths": (), "sessions": (), "freeze": (), "threads": ("--slow", "1ms"),
    "two": (), "hello-hidl": ()}
INTERFACES = "org.example.IHello", "android.os.IServiceManager", "org.example.IClock"


def harmful_side(side: str, chance: random.Random) -> str:
    """The side list, in which each name, each release of a kernel and why it was kept mean harm."""
    side = re.sub("name=.*", lambda _: f"name={chance.choice(NAMES)}", side)
    side = re.sub(r"kernel=\S+", lambda _: f"kernel={chance.choice(NAMES).replace(' ', '/')}", side)
    *lines, end = side.splitlines(keepends=True)
    return "".join((*lines, f"{end.split()[0]} kept file after=1 name={chance.choice(NAMES)}\n", end))


def harmful_capture(capture: bytes, chance: random.Random) -> bytes:
    """The capture, in which half of the texts in payloads are markup."""
    def harm(found: re.Match[bytes]) -> bytes:
        text = chance.choice(NAMES).encode("utf-16-le")[:len(found[0])]
        return text.ljust(len(found[0]), b"x") if chance.random() < 0.5 else found[0]
    return re.sub(rb"(?:[a-zA-Z.]\0){8,}", harm, capture)


def harmful_page(folder: pathlib.Path, room: pathlib.Path, scenario: str, fail: Fail) -> pathlib.Path:
    chance = random.Random(scenario)
    room.mkdir()
    capture, side = texts_stored(scenario)
    name = f"<img src=x onerror={DO.replace('/', '')}>.cap"
    (room / name).write_bytes(harmful_capture(capture, chance))
    (room / "harm.side").write_text(harmful_side(side, chance), "utf-8", errors="surrogateescape")
    (room / "harm.methods").write_text("".join(
        f"{interface}\t{code}\t{chance.choice(NAMES)}\t{chance.choice(NAMES)}\n"
        for interface in INTERFACES for code in range(1, 9)), "utf-8")
    for words in (("--database", "old.db", "--groups"), ("--against", "old.db", "-o", "harm.html")):
        status, _, told = view(folder, room, name, "--side", "harm.side", "--methods", "harm.methods", *words,
                               *(SCENARIOS[scenario] if "-o" in words else ()))
        compare(f"harm in {scenario}, {words}: status", (status, told), (0, told), fail)
    shutil.copy(room / "harm.html", room.parent / f"harm-{scenario}.html")
    return room.parent / f"harm-{scenario}.html"


# What ran; and how many strange elements there are, scripts, attributes that run something, and links that lead away.
HARMED = """(all => [Boolean(window.bad || document.documentElement.hasAttribute('pwned')),
  all('img, iframe, object, embed, base, form:not([method=dialog]), meta[http-equiv=refresh]').length,
  all('script').length, all('*').flatMap(one => one.getAttributeNames()).filter(name => name.startsWith('on')).length,
  all('[href]').filter(one => !one.getAttribute('href').startsWith('#')).length])(
  selector => [...document.querySelectorAll(selector)])"""
# All is opened and drawn, gets the mouse, the focus and a press.
USE_ALL = """for (const one of document.querySelectorAll('section.tab:not([hidden]) *')) {
  if (one.tagName === 'DETAILS') one.open = true;
  one.dispatchEvent(new MouseEvent('mouseover', {bubbles: true}));
  if (one.matches('[tabindex], button, summary')) one.focus();
  if (one.matches('.report, .place, a.link')) one.click();
}"""


def check_harm(browser: Browser, page: pathlib.Path, fail: Fail) -> None:
    """A page of names that mean harm runs nothing, whatever of it is used."""
    browser.look(1280)
    browser.show(page)
    for tab in browser.js("[...document.querySelectorAll('section.tab')].map(one => one.id)"):
        browser.show(page, tab)
        browser.js(USE_ALL)
        browser.key("f", 2)
        browser.settle()
        compare(f"{page.name}, {tab}: what ran, and strange elements", browser.js(HARMED), [False, 0, 1, 0, 0], fail)
    browser.show(page, "%3Cimg%20src=x%20onerror=x%3E?words=%3Cimg%20src=x%3E&time=%3Cb%3E")
    compare(f"{page.name} by a harmful address", browser.js(HARMED), [False, 0, 1, 0, 0], fail)


def check_harms(browser: Browser, folder: pathlib.Path, room: pathlib.Path, fail: Fail) -> None:
    for scenario in SCENARIOS:
        check_harm(browser, harmful_page(folder, room / scenario, scenario, fail), fail)
