"""What is on a page at once and what is packed, where the strip of time has bars, at what the page of a kept capture
opens, and what Growth draws."""

import base64
import contextlib
import pathlib
import re
import zlib

from markupsafe import Markup

from checks.kit.checking import Fail, compare
from checks.viewer.page.common import loaded, stored, texts_stored, view, written
from checks.viewer.sessions.session import Session
from viewer.page.axis import Span, merged
from viewer.page.bars import ROWS, Mark, bars_of
from viewer.page.capture import Capture
from viewer.page.parts import LEAST_ROWS, MOST, OF_TABLE, Parts
from viewer.page.plots import growths_of
from viewer.page.strip import WIDTH


def unpacked(text: str) -> str:
    return zlib.decompress(base64.b64decode(text)).decode()


def check_parts(_: pathlib.Path, __: pathlib.Path, fail: Fail) -> None:
    """Nothing of a large page is lost, its order stays, and what is there at once has a ceiling; all of a small one is
    there at once."""
    rows = Markup("".join(f"<tr><td>{at} {'é' * 90}\n" for at in range(3000)))  # as a template has them
    for left, text in ((MOST, rows), (1000, rows), (MOST, rows[:3000])):
        parts = Parts(left)
        made = parts.rows(text, "<tr")
        packed = unpacked(made.packed.text) if made.packed else ""
        what = f"{len(text)} characters of rows where {left} may be there"
        compare(f"{what}: they are all there", str(made.drawn) + packed == text, True, fail)
        compare(f"{what}: how many are packed", made.packed.amount if made.packed else 0, packed.count("<tr"), fail)
        compare(f"{what}: a row begins each part", [
            one.startswith("<tr") for one in (made.drawn, packed) if one], [True] * (1 + bool(packed)), fail)
        compare(f"{what}: some are there", made.drawn.count("<tr") >= min(LEAST_ROWS, text.count("<tr")), True, fail)
        compare(f"{what}: how many are there at once", len(made.drawn) <= max(OF_TABLE, LEAST_ROWS * 200), True, fail)
        compare(f"{what}: whether some are packed", bool(made.packed), len(text) > OF_TABLE, fail)
    parts, cards = Parts(10_000), [f"<details>{at} {'x' * 900}</details>" for at in range(2000)]
    pile = parts.pile()
    drawn = [card for card in cards if pile.is_drawn(card)]
    packs = list(pile.packs())
    compare("cards in their order", "".join(drawn) + "".join(unpacked(pack.text) for pack in packs) == "".join(cards),
            True, fail)
    compare("cards that are there at once", len(drawn), 10, fail)
    compare("packs, and how many cards they have", (len(packs) > 2, sum(pack.amount for pack in packs)),
            (True, len(cards) - len(drawn)), fail)


def check_strip(folder: pathlib.Path, room: pathlib.Path, fail: Fail) -> None:
    """A group is on the strip from its finding on, as long as that was held; without times by frames."""
    compare("spans that are near to one another", merged([Span(5, 7), Span(0, 2), Span(3, 4), Span(9, 9)], 1),
            [Span(0, 7), Span(9, 9)], fail)
    view(folder, room, *stored("hung"), "-o", "hung.html")
    page = (room / "hung.html").read_text("utf-8")
    group = re.search(r'<details class="group maybe" id="(group-\d+)" data-t="(\d+) (\d+)">', page)
    length = int(re.findall(r'data-length=(\d+)', page)[0])
    bar = re.search(r'<rect class="maybe" x="([0-9.]+)" width="([0-9.]+)" y=1 height="10" data-of="([^"]*)">', page)
    if group is None or bar is None:
        fail("hung: its page has no group, or no bar, with a time")
        return
    begin, end = int(group[2]), int(group[3])
    compare("hung: since when, and how long, in milliseconds", (begin // 1000, (end - begin) // 1000 in (576, 577)),
            (39, True), fail)
    compare("hung: its bar", (abs(float(bar[1]) - WIDTH * begin / length) < 1,
                              abs(float(bar[2]) - WIDTH * (end - begin) / length) < 1, bar[3]), (True, True, group[1]),
            fail)
    capture, _, _ = stored("hung")
    view(folder, room, capture, "--no-side", "-o", "bare.html")
    bare = (room / "bare.html").read_text("utf-8")
    compare("hung without a side list: the unit, the last tick", (re.findall('data-unit="([^"]*)"', bare), bool(
        re.search(r'<div class="ticks"><span>frame 1</span>', bare))), (["frames"], True), fail)


def check_bars(_: pathlib.Path, __: pathlib.Path, fail: Fail) -> None:
    """Bars at one time stand in rows, short ones near to one another are one, and none is lost."""
    for what, spans, due in (
            ("bars after one another", [(0, 100), (200, 300), (310, 400)], [(0, 0, 100), (0, 200, 300), (0, 310, 400)]),
            ("bars at one time", [(0, 100), (10, 300), (150, 200)], [(0, 0, 100), (0, 150, 200), (1, 10, 300)]),
            ("short ones", [(0, 0), (2, 2), (4, 4), (50, 51)], [(0, 0, 7), (0, 50, 53)]),
            ("a short one within a long one", [(0, 100), (40, 40), (42, 42)], [(0, 0, 100), (1, 40, 45)]),
            ("at the end", [(WIDTH, WIDTH)], [(0, WIDTH - 3, WIDTH)])):
        bars = bars_of([Mark(Span(*span), "a", None) for span in spans], 1.0, WIDTH)
        compare(what, [(bar.row, bar.x, bar.x + bar.width) for bar in bars], due, fail)
    marks = [Mark(Span(at, 900 - at), "one", None) for at in range(50)]
    many = list(bars_of(marks, 1.0, WIDTH))
    told = [int(found[1]) if (found := re.search(r"and (\d+) more", bar.label)) else 0 for bar in many]
    compare("more than there are rows", (max(bar.row for bar in many), sum(told) + len(many)), (ROWS - 1, 50), fail)


# Why a capture was kept, by its side list; and what its page and its bar open, by the begin of the name.
HANG = "hang after=103 frame={} at={} pid=1794 since=579110966248 limit=500000000 name="
KEPT = {HANG.format(41, 0): ("group", "group"), HANG.format(41, 4): (None, "process"),
        "death after=103 pid=1792 name=service": (None, "process"), "asked after=103 name=": (None, None),
        "hang after=103 frame=99999 at=0 name=": (None, None)}
FIRST_TS, KEPT_TS = 579071102838, 579610966248


def named(name: str | None) -> str | None:
    return name.partition("-")[0] if name else None


def kept_capture(folder: pathlib.Path, room: pathlib.Path, name: str, why: str = next(iter(KEPT))) -> pathlib.Path:
    """The page of a stored capture in which a call hangs, as if it had been kept for this reason."""
    capture, side = texts_stored("hung")
    (room / f"{name}.cap").write_bytes(capture)
    *lines, end = side.splitlines(keepends=True)
    (room / f"{name}.side").write_text("".join((*lines, f"{KEPT_TS} kept {why}\n", end)), "utf-8")
    view(folder, room, f"{name}.cap", "--side", f"{name}.side", "-o", f"{name}.html")
    return room / f"{name}.html"


def check_kept(folder: pathlib.Path, room: pathlib.Path, fail: Fail) -> None:
    """The strip has the moment at which a capture was kept, and since when there was why. The page opens at the group
    of that record, and at nothing where there is none."""
    for why, due in KEPT.items():
        page = kept_capture(folder, room, "kept", why).read_text("utf-8")
        bar = re.search(r'<rect class="kept" x="([0-9.]+)" width="([0-9.]+)"[^>]*?(?: data-of="([^"]*)")?>', page)
        if bar is None:
            fail(f"{why}: its strip has no moment")
            continue
        scale = WIDTH / int(re.findall("data-length=(\\d+)", page)[0])
        end_due, wide_due = scale * (KEPT_TS - FIRST_TS) / 1000, scale * 500_000 if "since" in why else 3
        compare(f"{why}: where it is, and how wide", (abs(float(bar[1]) + float(bar[2]) - end_due) < 4,
                                                      abs(float(bar[2]) - wide_due) < 1), (True, True), fail)
        compare(f"{why}: lines through all lanes", page.count('<path class="moment"'), page.count('<div class="lane"'),
                fail)
        opens = next(iter(re.findall(' data-opens="([^"]*)"', page)), None)
        compare(f"{why}: what it opens at, what its bar opens", (named(opens), named(bar[3])), due, fail)
        cards = re.findall('<details class="group[^>]* id="([^"]*)"[^>]*><summary><span class="state">[^<]*<span'
                           ' class="verdict maybe">maybe</span> ?<span class="mark kept">kept</span>', page)
        compare(f"{why}: the card that says so", cards, [opens] if opens else [], fail)
    view(folder, room, *stored("hung"), "-o", "not.html")
    page = (room / "not.html").read_text("utf-8")
    compare("what was not kept", re.findall('"moment"|"mark kept"|data-opens="|went on', page), [], fail)


def played() -> Session:
    """A client that keeps what it gets for a while and lets go of it, at the end of all; one that keeps one thing for
    long; and one that leaks."""
    session = Session()
    service, healthy = session.two()
    keeper, leaky = session.process(300, "keeper"), session.process(400, "leaky")
    kept = keeper.main.asks(service.main, free=False)
    for _ in range(40):
        held = [healthy.main.asks(service.main, free=False) for _ in range(3)]
        healthy.main.frees(*held)
        leaky.main.asks(service.main, free=False)
    session.stops()
    assert kept
    return session


def check_floors(folder: pathlib.Path, room: pathlib.Path, fail: Fail) -> None:
    """What is let go of again has no plot, what is kept once is level, and a leak rises."""
    capture, _, side = written(played(), room, "floors")
    with contextlib.closing(loaded(folder, room / "floors.db", [room / capture], room / side)) as database:
        who = {upid: name for upid, name in database.execute("SELECT upid, name FROM process")}
        plots = {who[upid]: held[0].plot.label if held[0].plot else None
                 for upid, _, _, _, held in growths_of(Capture(database, ["floors.cap"]))}
    steps = {name: [int(one) for one in label.split(", ")] if label else None for name, label in plots.items()}
    compare("what is let go of again", (steps["client"], steps["service"]), (None, None), fail)
    compare("what is kept once", sorted(set(steps["keeper"] or ())), [0, 1], fail)
    leak = steps["leaky"] or []
    compare("a leak rises", (leak == sorted(leak), len(set(leak)) > 10, 35 < max(leak, default=0) <= 40),
            (True, True, True), fail)
