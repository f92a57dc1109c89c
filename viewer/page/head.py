"""What the head of the page says: what the capture has, and what is not known of it."""

from collections import Counter

from viewer.page import why_kept
from viewer.page.capture import Capture
from viewer.page.texts import user_name
from viewer.page.within import counts_of
from viewer.rules import agreement

# Rows of the side list, if they count between two frames of the capture.
WITHIN = "raw_capture c WHERE after >= c.first_seq - 1 AND from_seq <= c.last_seq GROUP BY 1 ORDER BY 1"


def filler_of(capture: Capture) -> tuple[str, int] | None:
    """Who wrote over half of the files of a flight recorder, for which it removed others, and how many hundredths of
    them: a process, or the processes of an app. None if nobody did, or no file was removed."""
    if capture.facts.get("first_file", 1) < 2:
        return None
    rows, of_app = capture.asked("written"), Counter[str]()
    for who, uid, count in rows:
        if app := user_name(uid):
            of_app[f"{app} (user {uid})"] += count
    whole = sum(count for *_, count in rows)
    for who, count in [*((who, count) for who, _, count in rows[:1]), *of_app.most_common(1)]:
        if 2 * count > whole:
            return who, 100 * count // whole
    return None


def head_of(capture: Capture) -> dict[str, object]:
    """The facts of the capture, and of its side list. Of lists that are cut the page shows 20, and here is one more."""
    ask = capture.ask
    return {
        "first_ts": None, "until_ts": None, "payloads": None, "zeros_doubt": None, "narrowed": None,
        "narrowed_processes": 0, **capture.facts,
        "kept": why_kept.kept_of(capture.database, capture.groups), "has_end": "end_ts" in capture.facts,
        "fault": capture.fault,
        "kernel": capture.facts.get("kernel"), "machine": capture.facts.get("machine"),
        "begin_ts": capture.facts.get("begin_ts"),
        "devices": ask("SELECT name, driver FROM device WHERE name NOTNULL ORDER BY device LIMIT 21"),
        "agreed": agreement.line_of(capture.database), "differs": capture.count("disagreement") > 0,
        "met": ask("SELECT who FROM who JOIN process USING (upid) WHERE met IS NOT 'from-start' AND upid NOT IN (SELECT"
                   " upid FROM book_opening WHERE moment = 'begin' UNION SELECT upid FROM book_process) ORDER BY upid"
                   " LIMIT 21"),
        "held": capture.rows("held_before", 21),
        "calls": ask("SELECT coalesce(sum(made + served), 0) FROM side_calls")[0][0],
        "handles": capture.count("side_handle"),
        "going_on": capture.rows("calls_before", 21),
        "filler": filler_of(capture),
        "lost": capture.asked("lost"),
        "missed": ask(f"SELECT what, sum(count) FROM side_missed, {WITHIN}"),
        "unstacked": ask(f"SELECT what, sum(count) FROM side_unstacked, {WITHIN}"),
        "shown": counts_of(capture.database, capture.window), "window": capture.window,
        "of": [capture.who[upid] for upid in capture.window.upids or ()] if capture.window else [],
        "all_groups": capture.count("finding_group")}
