"""A database and a page against the report of their capture."""

import html.parser
import pathlib
import re
import sqlite3
import subprocess
import unicodedata
from collections import Counter, defaultdict
from typing import Iterator, NamedTuple

from checks.kit.checking import Fail, compare
from checks.kit.programs import ROOT
from checks.kit.second_reading import NEWER
from checks.viewer.page.common import groups_due, groups_of, loaded
from viewer.page import page
from viewer.units import signed


def rows_of(report: str, section: str) -> list[list[str]]:
    found, rows = False, []
    for line in report.splitlines():
        if not line.startswith("  "):
            found = line.split()[0] == section
        elif found:
            rows.append(line.split())
    return rows


def head_of(report: str, section: str) -> list[int]:
    line = next(line for line in report.splitlines() if line.split()[0] == section)
    return [int(word) for word in line.split() if word.isdigit()]


def place_of(word: str) -> int | None:
    return None if word == "-" else int(word)


class Claim(NamedTuple):
    """What a query over the database must answer, by the report."""
    name: str
    query: str
    due: list[tuple]


def claims(report: str) -> Iterator[Claim]:
    frames, records, opaque, missing = head_of(report, "frames")
    named = ("OPAQUE", *NEWER.values())
    yield Claim("totals", f"SELECT frames, records, (SELECT count(*) FROM record WHERE kind IN {named}), missing"
                " FROM raw_capture", [(frames, records, opaque, signed(missing))])
    yield Claim("codes", "SELECT kind, count(*) FROM record WHERE kind <> 'OPAQUE' GROUP BY 1 ORDER BY 1",
                sorted((NEWER.get(int(word, 16), name), int(count)) for word, name, count in rows_of(report, "codes")
                       if name != "OPAQUE" or int(word, 16) in NEWER))
    calls, answered, failed, _ = head_of(report, "calls")
    yield Claim("calls", "SELECT count(*), sum(verdict = 'answered'), sum(verdict = 'failed') FROM call"
                " WHERE side = 'made' HAVING count(*)", [(calls, answered, failed)] if calls else [])
    served, replied, crossed, open_ = head_of(report, "served")
    yield Claim("served", "SELECT count(*), sum(verdict = 'replied'), sum(verdict = 'crossed'), sum(verdict = 'open')"
                " FROM call WHERE side = 'served' HAVING count(*)",
                [(served, replied, crossed, open_)] if served else [])
    yield Claim("rows of calls", "SELECT place, handle, code, verdict, closer FROM call WHERE side = 'made' AND"
                " verdict <> 'answered' ORDER BY place",
                [(int(w[0]), int(w[4]), int(w[5]), w[6], place_of(w[7])) for w in rows_of(report, "calls")])
    yield Claim("rows of served", "SELECT place, sender_pid, code, verdict, closer FROM call WHERE side = 'served' AND"
                " verdict <> 'replied' ORDER BY place",
                [(int(w[0]), int(w[4]), int(w[5]), w[6], place_of(w[7])) for w in rows_of(report, "served")])
    yield Claim("deliveries", "SELECT count(*) FROM delivery", [(head_of(report, "buffers")[0],)])
    yield Claim("rows of buffers", "SELECT place, printf('0x%x', address), data_size, kind FROM delivery"
                " WHERE freed_by IS NULL ORDER BY place",
                [(int(w[0]), w[3], int(w[4]), w[5]) for w in rows_of(report, "buffers")])
    yield Claim("rows of frees", "SELECT r.place, device, process, printf('0x%x', address) FROM record r"
                " JOIN process USING (upid) WHERE kind = 'BC_FREE_BUFFER' AND r.place NOT IN"
                " (SELECT freed_by FROM delivery WHERE freed_by NOTNULL) ORDER BY 1",
                [(*map(int, w[:3]), w[3]) for w in rows_of(report, "frees")])
    yield Claim("handles", "SELECT device, process, h.handle, sum(acquired - released), sum(increfs - decrefs),"
                " sum(held_strong), sum(held_weak) FROM handle h JOIN process USING (upid) GROUP BY upid, h.handle"
                " HAVING sum(acquired + released + increfs + decrefs + held_strong + held_weak)"
                " ORDER BY upid, h.handle",
                [tuple(int(w[at]) for at in (0, 1, 2, 3, 5, 7, 8)) for w in rows_of(report, "handles")])
    handles = [tuple(map(int, w)) for w in rows_of(report, "handles")]
    yield Claim("lows of handles", "SELECT device, process, handle, min(0, min(strong)) AS s, min(0, min(weak)) AS w"
                " FROM reference JOIN process USING (upid) GROUP BY upid, handle HAVING s < 0 OR w < 0"
                " ORDER BY upid, handle", [(*w[:3], w[4], w[6]) for w in handles if w[4] or w[6]])
    yield Claim("rows of nodes", "SELECT device, process, printf('0x%x', ptr), printf('0x%x', cookie),"
                " sum((kind = 'BR_ACQUIRE') - (kind = 'BR_RELEASE')),"
                " sum((kind = 'BR_INCREFS') - (kind = 'BR_DECREFS')),"
                " sum((kind = 'BR_ACQUIRE') - (kind = 'BC_ACQUIRE_DONE')),"
                " sum((kind = 'BR_INCREFS') - (kind = 'BC_INCREFS_DONE')) FROM record JOIN process USING (upid)"
                " WHERE kind IN ('BR_ACQUIRE', 'BR_RELEASE', 'BC_ACQUIRE_DONE', 'BR_INCREFS', 'BR_DECREFS',"
                " 'BC_INCREFS_DONE') GROUP BY upid, ptr, cookie ORDER BY 1, 2, 3, 4",
                sorted((int(w[0]), int(w[1]), w[2], w[3], *(int(w[at]) for at in (4, 6, 8, 9)))
                       for w in rows_of(report, "nodes")))
    oneway = rows_of(report, "oneway")
    yield Claim("oneway", "SELECT device, process, handle, count(*), sum(data_size) FROM send JOIN process USING (upid)"
                " WHERE oneway AND kind LIKE 'BC_TRANSACTION%' GROUP BY upid, handle ORDER BY upid, handle",
                [(int(w[0]), int(w[1]), *map(int, w[3:])) for w in oneway if w[2] == "sent"])
    yield Claim("oneway, received", "SELECT device, process, count(*), sum(data_size) FROM delivery"
                " JOIN process USING (upid) WHERE oneway GROUP BY upid ORDER BY upid",
                [(int(w[0]), int(w[1]), *map(int, w[3:])) for w in oneway if w[2] == "received"])
    closers = [(int(w[0]), int(w[3]), w[4]) for section in ("strays", "refused") for w in rows_of(report, section)]
    yield Claim("rows of strays and refused", "SELECT r.place, thread, kind FROM record r JOIN thread USING (utid)"
                " WHERE kind IN ('BC_REPLY', 'BC_REPLY_SG', 'BR_REPLY', 'BR_DEAD_REPLY', 'BR_FAILED_REPLY',"
                " 'BR_FROZEN_REPLY') AND r.place NOT IN (SELECT closer FROM call WHERE closer NOTNULL) ORDER BY 1",
                sorted(closers))
    lost = {verdict: [w for w in rows_of(report, "calls") if w[6] == verdict] for verdict in ("failed", "open")}
    yield Claim("failed sends", "SELECT place FROM send JOIN call USING (place) WHERE NOT send.oneway"
                " AND (verdict = 'failed' OR refused NOTNULL) ORDER BY place", [(int(w[0]),) for w in lost["failed"]])
    for verdict, rows in lost.items():
        paths = Counter(tuple(int(w[at]) for at in (1, 2, 4, 5)) for w in rows)
        yield Claim(f"traffic, {verdict}", f"SELECT device, process, handle, code, sum({verdict}) FROM traffic"
                    " JOIN process USING (upid) WHERE NOT oneway GROUP BY 1, 2, 3, 4"
                    f" HAVING sum({verdict}) ORDER BY 1, 2, 3, 4",
                    sorted((*path, count) for path, count in paths.items()))
    yield Claim("traffic", "SELECT total(sends), sum(failed > sends OR refused > failed) FROM traffic WHERE NOT oneway"
                " HAVING count(*)", [(calls, 0)] if calls else [])
    sorts = next(line.split() for line in report.splitlines() if line.startswith("objects "))[1:]
    yield Claim("sorts of objects", "SELECT lower(coalesce(sort, 'bad')), count(*) FROM object GROUP BY 1 ORDER BY 1",
                sorted((name, int(count)) for name, count in zip(sorts[::2], sorts[1::2]) if count != "0"))
    yield Claim("rows of objects", "SELECT place, device, process, idx, offset, bad FROM object"
                " JOIN record USING (place) JOIN process USING (upid) WHERE bad NOTNULL ORDER BY 1",
                [(*map(int, w[:4]), signed(int(w[4])), w[5]) for w in rows_of(report, "objects")])
    yield Claim("rows of flags", "SELECT r.place, device, process, printf('0x%08x', flags & ~0x7d) FROM record r"
                " JOIN process USING (upid) WHERE flags & ~0x7d ORDER BY 1",
                [(*map(int, w[:3]), w[3]) for w in rows_of(report, "flags")])
    yield Claim("sends", "SELECT count(*) FROM send",
                [(sum(int(count) for _, name, count in rows_of(report, "codes")
                      if name.startswith(("BC_TRANSACTION", "BC_REPLY"))),)])
    yield Claim("rows without a rule", "SELECT count(*) FROM finding WHERE rule IS NULL", [(0,)])
    yield Claim("groups", "SELECT (SELECT count(*) FROM finding) = (SELECT count(*) FROM finding_head)", [(1,)])
    yield Claim("integrity", "PRAGMA integrity_check", [("ok",)])
    yield Claim("deliveries at another node than the certain one", "SELECT count(*) FROM raw_send s JOIN node_of n"
                " USING (generation) JOIN record r ON r.place = s.delivery WHERE n.certain"
                " AND (r.upid, r.ptr, r.cookie) <> (n.upid, n.ptr, n.cookie)", [(0,)])
    yield Claim("foreign places", "SELECT count(*) FROM raw_send WHERE delivery IS NOT NULL AND delivery NOT IN"
                " (SELECT place FROM raw_delivery)", [(0,)])


def joined_claims(report: str) -> Iterator[Claim]:
    """What the views of whole transactions, descriptors and requests must have."""
    calls, answered, *_ = head_of(report, "calls")
    oneway = sum(int(w[4]) for w in rows_of(report, "oneway") if w[2] == "sent")
    yield Claim("transactions", "SELECT total(NOT oneway), total(outcome = 'answered'), total(oneway) FROM txn",
                [(calls, answered, oneway)])
    yield Claim("senders", "SELECT total(calls), total(oneway) FROM sender", [(calls, oneway)])
    yield Claim("transactions without an answer", "SELECT place, code FROM txn WHERE outcome IN ('failed', 'refused')"
                " AND NOT oneway ORDER BY 1",
                [(int(w[0]), int(w[5])) for w in rows_of(report, "calls") if w[6] == "failed"])
    codes = {name: int(count) for _, name, count in rows_of(report, "codes")}
    yield Claim("requests for deaths", "SELECT count(*) FROM death_request",
                [(codes.get("BC_REQUEST_DEATH_NOTIFICATION", 0),)])
    sorts = next(line.split() for line in report.splitlines() if line.startswith("objects "))[1:]
    yield Claim("descriptors, at both ends", "SELECT total((sent NOTNULL) + (received NOTNULL)) FROM fd_sent",
                [(sum(int(count) for name, count in zip(sorts[::2], sorts[1::2]) if name in ("fd", "fda")),)])
    yield Claim("handles that nobody holds", "SELECT count(*) FROM handle h JOIN process p USING (upid), raw_capture c"
                " WHERE h.strong > 0 AND coalesce(p.ended_after >= c.last_seq, 1)"
                " AND (h.upid, h.handle) NOT IN (SELECT upid, handle FROM holder)", [(0,)])


def held_at_end(database: sqlite3.Connection) -> dict[tuple, tuple]:
    """The buffers, their bytes and the strong references that each process holds at the end, as on the page."""
    who = {upid: rest for upid, *rest in database.execute("SELECT upid, device, process FROM process")}
    rows = database.execute((ROOT / "viewer/page/queries/growth.sql").read_text("utf-8"), (-1,)).fetchall()
    return {tuple(who[row[0]]): (row[5], row[7], row[9]) for row in rows if row[5] or row[9]}


def held_due(report: str) -> dict[tuple, tuple]:
    """The same from the report. It counts below 0 a handle that was let go too often, and its low makes up for that."""
    due: dict[tuple, list[int]] = defaultdict(lambda: [0, 0, 0])
    for w in rows_of(report, "buffers"):
        held = due[int(w[1]), int(w[2])]
        held[0] += 1
        held[1] += int(w[4])
    for w in rows_of(report, "handles"):
        due[int(w[0]), int(w[1])][2] += int(w[3]) - min(int(w[4]), 0)
    return {who: tuple(held) for who, held in due.items() if held[0] or held[2]}


# The numbers of a row that are all 0 if nothing is held: for a handle its references and those that buffers hold, for a
# node also what is due.
HOLDING = {"handles": (3, 5, 7, 8), "nodes": (4, 6, 8, 9)}


def check_in_use(name: str, database: sqlite3.Connection, fail: Fail) -> None:
    """Checks that what a process let go of is not said to be in use. If it held some before, more counts than the
    row."""
    for section, text, rule in database.execute("SELECT f.section, r.text, rule FROM finding f JOIN report r"
                                                " ON r.id = f.report WHERE rule IN ('H6', 'H7')"
                                                " AND coalesce(f.note, '') NOT LIKE 'before the recording: %'"
                                                ).fetchall():
        words = text.split()
        held = any(words[at] != "0" for at in HOLDING[section])
        compare(f"{name}, the rule of {section} {text}", rule, "H6" if held else "H7", fail)


class Shown(html.parser.HTMLParser):
    """What is on a page: the texts of the proved rows, scripts and what is in them, attributes that would run
    something, and texts with letters from right to left that are not set apart."""

    def __init__(self) -> None:
        super().__init__()
        self.proved: list[str] = []
        self.scripts, self.bad, self.turned = 0, [], []
        self.apart, self.script = 0, ""
        self.inside, self.depth, self.text = False, 0, ""

    def handle_starttag(self, tag: str, attributes: list[tuple[str, str | None]]) -> None:
        given = dict(attributes)
        self.scripts += tag == "script"
        self.apart += tag == "bdi"
        self.bad += [name for name, value in attributes if name.startswith("on") or name == "src"
                     or name == "href" and not re.fullmatch(r"#(rule-[A-Z][0-9]+|[a-z][a-z0-9-]*)", value or "")]
        if tag in ("iframe", "img", "object", "embed", "base", "link", "form"):
            self.bad.append(tag)
        if tag in ("td", "div", "tr", "span") and not self.inside and given.get("class") == "proved":
            self.inside, self.text = True, ""

    def handle_data(self, data: str) -> None:
        if self.cdata_elem == "script":
            self.script += data
        if not self.apart and any(unicodedata.bidirectional(one) == "R" for one in data):
            self.turned.append(data)
        if self.inside:
            self.text += data

    def handle_endtag(self, tag: str) -> None:
        self.apart -= tag == "bdi"
        if self.inside and tag in ("td", "div", "tr", "span", "table"):
            self.proved.append(self.text.strip())
            self.inside = False


def shown_of(text: str) -> Shown:
    """Reads a page. A cell of its tables has no end tag, so one is put in before the page is read."""
    shown = Shown()
    shown.feed(re.sub(r'(<td class="proved">[^<\n]*)', r"\1</td>", text))
    return shown


def check_harmless(what: str, text: str, fail: Fail) -> None:
    """Names on a page run nothing, and change no direction of text."""
    shown, marks = shown_of(text), [one for one in text if one in "\u202a\u202b\u202d\u202e\u2066\u2067"]
    compare(f"{what}: scripts, what would run, and marks of direction", (shown.scripts, shown.bad, marks), (1, [], []),
            fail)


def proved_due(report: str) -> set[str]:
    """The texts of a report that its page must show: heads, and the rows that are findings."""
    due, section = set(), ""
    for line in report.splitlines():
        if line.startswith("  "):
            if section not in ("codes", "oneway"):
                due.add(f"{section}: {line.strip()}")
        else:
            section = line.split()[0]
            due.add(line)
    return due


def check_sample(folder: pathlib.Path, room: pathlib.Path, files: list[pathlib.Path], side: pathlib.Path | None,
                 fail: Fail) -> None:
    """Checks the database and the page of a good capture."""
    name = " ".join(str(path.relative_to(ROOT)) for path in files)
    made, shown = room / "made.db", room / "made.html"
    report = subprocess.run([folder / "audit", "report", *files], capture_output=True, encoding="utf-8").stdout
    if not report.startswith("BINDER AUDIT "):
        return
    database = loaded(folder, made, files, side)
    for claim in (*claims(report), *joined_claims(report)):
        compare(f"{name}, {claim.name}", database.execute(claim.query).fetchall(), claim.due, fail)
    compare(f"{name}, what is held at the end", held_at_end(database), held_due(report), fail)
    check_in_use(name, database, fail)
    kept = [text for text, in database.execute("SELECT text FROM report ORDER BY id")]
    compare(f"{name}, the report in the database", kept, [line.strip() for line in report.splitlines()], fail)
    page.write(database, list(map(str, files)), shown)
    text = shown.read_text("utf-8")
    proved = shown_of(text).proved
    compare(f"{name}, rows that are not on its page", sorted(proved_due(report) - set(proved)), [], fail)
    compare(f"{name}, what has the mark of a proved row, and no text", proved.count(""), 0, fail)
    compare(f"{name}, names without a space between", re.findall("</bdi><bdi>[^<]+", text), [], fail)
    rules = {rule for rule, in database.execute("SELECT DISTINCT rule FROM finding")}
    compare(f"{name}, the rules of its page", set(re.findall(' id="rule-([^"]*)"', text)), rules, fail)
    linked = set(re.findall('href="#rule-([^"]*)"', text))
    compare(f"{name}, rules that a link names and the page lacks", linked - rules, set(), fail)
    if side is not None:
        compare(f"{name}, groups", groups_of(database), groups_due(files[0].parent.name), fail)
    database.close()
