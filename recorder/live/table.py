"""The table of `record --live`: what is in each line of a screen of so many columns and lines."""

import time
from typing import Callable, NamedTuple

from recorder.live.cells import Column, cut, laid_out, plain, shortened, width_of
from recorder.live.lines import Async, Head, Open, Picture, Pool, Rate
from recorder.live.methods import Names, called

KEYS = "s sort  / filter  k keep  q quit"
FEWEST = 1  # rows of a part that has some
GAP_OF_TITLE = 2  # columns
WIDE = 140  # columns, for names of threads


class Line(NamedTuple):
    text: str
    is_head: bool = False
    is_strong: bool = False


class Look(NamedTuple):
    """What somebody wants to see."""

    order: int = 0
    filter: str = ""
    is_typing: bool = False  # the filter
    message: str = ""


def process(number: int, name: str) -> str:
    return f"{plain(name)} {number}" if number else "?"


def thread(number: int, name: str, process_number: int, process_name: str, is_wide: bool) -> str:
    """On a narrow screen the thread has its number alone."""
    if not is_wide:
        return f"{plain(process_name)} {number}"
    return f"{process(process_number, process_name)} {plain(name)} {number}"


Order = tuple[str, Callable[[Rate], tuple[object, ...]]]
ORDERS: list[Order] = [
    ("calls", lambda rate: (-rate.times, -rate.all)),
    ("all", lambda rate: (-rate.all,)),
    ("sender", lambda rate: (rate.sender_name, rate.sender, -rate.times)),
    ("receiver", lambda rate: (rate.receiver_name, rate.receiver, -rate.times)),
    ("method", lambda rate: (rate.interface, rate.code, rate.sender_name, rate.sender)),
]


class Part(NamedTuple):
    """Rows below a head. `total` is how many there are in all, also of those that the recorder left out."""

    head: str
    total: int
    columns: list[Column]
    rows: list[list[str]]
    is_strong: bool = False

    def matching(self, text: str) -> "Part":
        if not text:
            return self
        rows = [row for row in self.rows if text.casefold() in " ".join(row).casefold()]
        return self._replace(rows=rows, total=len(rows))

    def lines(self, width: int, most: int) -> list[Line]:
        """At most so many lines."""
        if most <= 1 or not self.rows:
            return []
        rows = self.rows[:most - 2] if most > 2 else []
        more = f" ({len(rows)} of {self.total:,})" if len(rows) < self.total else ""
        heads, *texts = laid_out(self.columns, rows, width)
        return [Line(cut(f"{self.head}{more}", width), is_strong=True), Line(heads, is_head=True),
                *(Line(text, is_strong=self.is_strong) for text in texts)]


# ---- the parts


def rates_part(picture: Picture, names: Names, order: int) -> Part:
    each = picture.head.seconds
    rows = [[f"{rate.times / each:,.0f}", f"{rate.all:,}", process(rate.sender, rate.sender_name),
             process(rate.receiver, rate.receiver_name),
             plain(called(names, rate.interface, rate.code)) + " (oneway)" * rate.is_oneway]
            for rate in sorted(picture.rates, key=ORDERS[order][1])]
    columns = [Column("a second", True), Column("in all", True), Column("sender"), Column("receiver"),
               Column("method")]
    return Part(f"calls and oneways by {ORDERS[order][0]}", picture.totals.get("rates", 0), columns, rows)


def holder(call: Open, pools: dict[int, Pool], is_wide: bool) -> str:
    if call.in_process:
        return thread(call.in_thread, call.in_thread_name, call.in_process, call.in_name, is_wide)
    if not call.receiver:
        return "nobody"
    pool = pools.get(call.receiver)
    busy = f": {pool.serving} of {pool.threads} serve" if pool else ""
    where = f", {process(call.receiver, call.receiver_name)}" if is_wide or not busy else ""
    return f"nobody{busy}{where}"


def wait_of(call: Open, by_thread: dict[tuple[int, int], Open], names: Names, is_wide: bool) -> str:
    """What the thread that has the call waits for: an answer to its own call, or something in the kernel."""
    if not call.in_process:
        return "a thread"
    inner = by_thread.get((call.in_process, call.in_thread))
    if call.waits != "answer":
        return plain(call.waits)
    return f"answer to {plain(called(names, inner.interface, inner.code))}" if inner and is_wide else "answer"


def open_part(picture: Picture, names: Names, is_wide: bool) -> Part:
    pools = {pool.process: pool for pool in picture.pools}
    # The innermost call of a thread is its last one.
    by_thread = {(call.process, call.thread): call for call in sorted(picture.open, key=lambda it: -it.seconds)}
    rows = [[f"{call.seconds:,.1f}", thread(call.thread, call.thread_name, call.process, call.name, is_wide),
             plain(called(names, call.interface, call.code)), holder(call, pools, is_wide),
             wait_of(call, by_thread, names, is_wide)]
            for call in sorted(picture.open, key=lambda it: -it.seconds)]
    columns = [Column("seconds", True), Column("caller"), Column("method"), Column("who has it"),
               Column("which waits for")]
    return Part("open for over a second", picture.totals.get("open", 0), columns, rows, is_strong=True)


def pools_part(picture: Picture) -> Part:
    rows = [[f"{pool.serving} of {pool.threads}", f"{pool.waiting:,}" if pool.waiting else "",
             f"{pool.full:,.1f} s" if pool.full else "", process(pool.process, pool.name)] for pool in picture.pools]
    columns = [Column("serve", True), Column("calls wait", True), Column("all for", True), Column("process")]
    return Part("threads in use", picture.totals.get("pools", 0), columns, rows)


def async_part(asyncs: list[Async], total: int) -> Part:
    rows = [[f"{it.calls:,}", f"{it.bytes:,}", process(it.process, it.name)] for it in asyncs]
    return Part("async space", total, [Column("oneways", True), Column("bytes", True), Column("process")], rows)


# ---- the screen


def title(head: Head, width: int) -> str:
    """As much as has room, what matters most first."""
    said = time.strftime("%H:%M:%S UTC", time.gmtime(min(head.time, 1e11)))
    each = head.seconds
    parts = [f"{head.calls / each:,.0f} calls", f"{head.oneways / each:,.0f} oneways a second",
             f"{head.lost_in_all:,} lost", f"{head.refused:,} refused", f"{head.bytes / 1e6:,.1f} MB/s"]
    if head.reach != "-":
        parts.append(f"files reach {plain(head.reach)} s back")
    if head.unknown:
        parts.append(f"{head.unknown:,} oneways wait, for whom is not known")
    for part in parts:
        if width_of(said) + GAP_OF_TITLE + width_of(part) <= width:
            said += " " * GAP_OF_TITLE + part
    return cut(said, width)


def bottom(look: Look, width: int) -> str:
    if look.is_typing:
        return cut(f"filter: {plain(look.filter)}_  Enter takes it, Escape clears it", width)
    said = KEYS + (f"  filter: {plain(look.filter)}" if look.filter else "")
    room = width - width_of(said) - GAP_OF_TITLE
    message = shortened(plain(look.message), room) if room > 10 else ""
    return cut(f"{said}{' ' * (width - width_of(said) - width_of(message))}{message}" if message else said, width)


def shares(parts: list[Part], height: int) -> list[int]:
    """How many lines each part gets: as many as it has; if these are too many, the longest one gets fewer first."""
    wanted = [len(part.rows) + 2 if part.rows else 0 for part in parts]
    least = [min(want, 2 + FEWEST) for want in wanted]
    while sum(wanted) > height:
        larger = [at for at in range(len(wanted)) if wanted[at] > least[at]]
        if not larger:
            break
        wanted[max(larger, key=lambda at: wanted[at])] -= 1
    return wanted


def drawn(picture: Picture, names: Names, look: Look, width: int, height: int) -> list[Line]:
    """The lines of a screen, at most `height`, each of at most `width` columns."""
    parts = [open_part(picture, names, width >= WIDE), pools_part(picture),
             async_part(picture.asyncs, picture.totals.get("async", 0)), rates_part(picture, names, look.order)]
    parts = [part.matching(look.filter) for part in parts]
    room = max(height - 2, 0)
    lines = [Line(title(picture.head, width), is_head=True)]
    left = room
    for part, share in zip(parts, shares(parts, room)):
        some = part.lines(width, min(share, left))
        left -= len(some)
        lines += some
    lines += [Line("")] * left
    return [*lines, Line(bottom(look, width), is_head=True)][:height]
