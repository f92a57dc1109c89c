"""The table of docs/MEASURED.md on the stored recordings of blind tests."""

from typing import NamedTuple

from checks.kit.programs import ROOT
from checks.recorder.blind.judged import Judged
from checks.recorder.blind.recordings import Recording

MEASURED = ROOT / "docs/MEASURED.md"
# The table is the first one below this heading.
HEADING = "### The recordings that are kept"


class Column(NamedTuple):
    """A column of the table: what it counts, and the counts in this order."""
    title: str
    counts: tuple[int, ...]


def columns_of(judged: list[Judged]) -> list[Column]:
    """What the row of a recording has."""
    healthy, faulty = ([one for one in judged if one.is_healthy is is_healthy] for is_healthy in (True, False))

    def wrong(of: list[Judged], verdict: str) -> int:
        return sum(len(one.of("wrong", verdict)) for one in of)

    return [
        Column("healthy sessions; with a `real` line; wrong `maybe` lines",
               (len(healthy), sum(any(line.verdict == "real" for line in one.session.told) for one in healthy),
                wrong(healthy, "maybe"))),
        Column("sessions with a fault; found as `real`; as `maybe`; missed",
               (len(faulty), sum(one.found == "real" for one in faulty), sum(one.found == "maybe" for one in faulty),
                sum(not one.found for one in faulty))),
        Column("culprit named on the first line; also as its process; method or object named",
               (sum(one.named for one in faulty), sum(one.as_process for one in faulty),
                sum(one.has_method for one in faulty))),
        Column("others blamed with the culprit; wrong `real` lines beside a fault; wrong `maybe` lines; "
               "true, but no fault",
               (sum(bool(one.unspared) for one in faulty), wrong(faulty, "real"), wrong(faulty, "maybe"),
                sum(len(one.of("true")) for one in judged))),
        Column("openings compared with the books; differences; sessions without a page; frames lost, events missed",
               (sum(int(one.session.facts.get("books_compared") or 0) for one in judged),
                sum(len(one.session.differences) for one in judged),
                sum(bool(one.session.failure) for one in judged), sum(one.session.lost or 0 for one in judged))),
    ]


def row_of(*cells: str) -> str:
    return "| " + " | ".join(cells) + " |"


def title_of(recording: Recording) -> str:
    return f"{recording.home.name}, {'driver in Rust' if recording.series == 'rust' else recording.kernel}"


def table_of(judged: list[tuple[Recording, list[Judged]]]) -> list[str]:
    """The lines of the table, with a row for each recording."""
    rows = [(title_of(recording), columns_of(sessions)) for recording, sessions in judged]
    titles = [column.title for column in rows[0][1]]
    return [row_of("set", *titles), "|" + "---|" * (len(titles) + 1),
            *(row_of(title, *("; ".join(map(str, column.counts)) for column in columns)) for title, columns in rows)]


def span_in(lines: list[str]) -> tuple[int, int]:
    """Where the table is in the lines of the page. It may be missing."""
    begin = lines.index(HEADING) + 1
    while begin < len(lines) and not lines[begin].startswith(("|", "#")):
        begin += 1
    end = begin
    while end < len(lines) and lines[end].startswith("|"):
        end += 1
    return begin, end


def table_in_measured() -> list[str]:
    lines = MEASURED.read_text("utf-8").splitlines()
    begin, end = span_in(lines)
    return lines[begin:end]


def with_table(table: list[str]) -> str:
    """The page with this table."""
    lines = MEASURED.read_text("utf-8").splitlines()
    begin, end = span_in(lines)
    lines[begin:end] = table
    return "".join(f"{line}\n" for line in lines)
