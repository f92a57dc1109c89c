"""Checks the rules of `view` on small sessions, one on either side of each threshold and order; that the head of
each SQL file of `view` says what its statements need and make; that nothing changes what is in a raw table; that
docs/RULES.md has the thresholds and, for each rule, a session that gets it; and that all that wait for a call are
counted, on made-up waits; and that wrong rules are told from the right ones.

    checks/run rules                    plays the sessions of sessions/*cases.py, and compares the rules that they get
    checks/run rules -- CASE..          plays these alone: `heads`, `page`, `waits`, or sessions, as `never_answered` in
                                        all its forms, or "never_answered wait=200"
    checks/run rules -- --show CASE..   also prints the findings of these sessions
    checks/run rules -- --wrong [WORD..] [--kept FOLDER]
                                        plays all wrong forms of the rules, or those of these subjects, as `W2`: each
                                        must change what a session or a scenario of samples/driver gets, or
                                        wrong_rules/untold.txt must say why it changes nothing. What it finds is kept in
                                        FOLDER: if it is ended, the same command goes on from there

Wrong forms are made of the statements of the rules (wrong_rules/forms.py). Without a CASE those are played too that a
change brings, by git: what is not committed, or else the last commit.
"""

import argparse
import os
import pathlib
import sqlite3
import subprocess
from collections import Counter
from concurrent.futures import ThreadPoolExecutor
from itertools import repeat
from typing import Callable, Iterable, Iterator

from checks.kit.checking import FLAG, Fail, check
from checks.kit.programs import DRIVER, ROOT, TABLES
from checks.viewer.heads import faults_of_heads
from checks.viewer.rule_page import faults_of_page
from checks.viewer.sessions.every import CASES, Case
from checks.viewer.sessions.played import base_of, judged
from checks.viewer.waits import faults_of_waits
from checks.viewer.wrong_rules.example import faults_of_maker
from checks.viewer.wrong_rules.guarded import faults_of_guards
from checks.viewer.wrong_rules.judge import Judged, rows_of
from checks.viewer.wrong_rules.play import Wrong, all_forms
from checks.viewer.wrong_rules.tried import Cases, forms_of_change, play_all, said_of, tried, unexplained
from viewer.database import loading, raw_tables
from viewer.database.programs import build_programs
from viewer.database.sqlite import open_database
from viewer.rules.thresholds import THRESHOLDS


def made(room: pathlib.Path, one: Case) -> bytes:
    """The database of a case before it is judged."""
    try:
        return base_of(room, one.played())
    except ValueError as error:
        raise SystemExit(f"checks/rules: {one.name}: {error}") from error


def rules_of(database: sqlite3.Connection) -> Counter:
    return Counter(dict(database.execute("SELECT rule, count(*) FROM finding GROUP BY 1")))


def due_of(one: Case) -> Counter:
    return Counter({rule: int(count) for rule, count in (word.split(":") for word in one.due.split())})


# What is said of a judged case, as queries of one column each.
TEXTS = (
    # Paths and notes of the findings; where those of pools are, and in which call; of what is slow, late or throws too
    # whose it is, and where; how many of each rule a process causes; and how many took the path of each finding, how
    # many of these well, and how long that took at most.
    "SELECT coalesce(path, '') || ' (' || coalesce(note, '') || ')' FROM finding",
    "SELECT rule || ' at ' || place || ': code ' || code || ' in thread ' || thread"
    " FROM finding JOIN raw_thread USING (utid) WHERE section = 'pools'",
    "SELECT rule || ' of ' || w.who || ', ' || f.section || ' ' || f.what || ': frame ' || f.seq || ' at ' || f.place"
    " || ', thread ' || coalesce(t.thread, '-') FROM finding f JOIN who w USING (upid)"
    " LEFT JOIN raw_thread t USING (utid) WHERE f.section IN ('pools', 'queues', 'slow', 'exceptions')",
    "SELECT rule || ' by ' || who || ': ' || count(*) FROM finding f"
    " JOIN who w ON w.upid = coalesce(f.culprit, f.upid) GROUP BY rule, w.upid",
    "SELECT rule || ' at ' || coalesce(place, '-') || ': ' || coalesce(n_good, '-') || ' of ' || coalesce(n_all, '-')"
    " || ', ' || coalesce(longest_seq, '-') || ' frames, ' || coalesce(longest, '-') || ' ns' FROM finding",
    # Who sent how many of which code to whom, and how many of these came; and what else is summed of these.
    "SELECT a.who || ' to ' || b.who || ' code ' || code || ': ' || delivered || ' of ' || sends"
    " FROM traffic t JOIN who a USING (upid) JOIN who b ON b.upid = t.node_upid",
    "SELECT 'handle ' || handle || ' of ' || who || iif(oneway, ', oneway code ', ', code ') || code || ': ' || sends"
    " || ' sends, ' || bytes || ' bytes, ' || failed || ' failed, ' || refused || ' refused, ' || open || ' open, '"
    " || delivered || ' delivered, ' || one_fits || ' fit, ' || buffers || ' kept, ' || coalesce(buffers_peak, '-')"
    " || ' at most, ' || coalesce(longest_seq, '-') || ' frames, ' || coalesce(longest, '-') || ' ns, node '"
    " || coalesce(ptr || ' ' || cookie, '-') FROM traffic JOIN who USING (upid)",
    "SELECT '(' || count(*) || ' codes of handles)' FROM traffic",
    # The nodes that handles were seen to lead to, and the interfaces that calls name.
    "SELECT 'handle ' || handle || ' of ' || a.who || ' at ' || b.who || ' node ' || ptr || ' ' || cookie || ': '"
    " || certain || ' certain of ' || deliveries FROM peer p JOIN raw_generation g ON g.id = p.generation"
    " JOIN who a USING (upid) JOIN who b ON b.upid = p.node_upid",
    "SELECT 'code ' || code || iif(c.upid < 0, ' to handle ', ' at node ') || coalesce(ptr, '-') || ' of ' || who"
    " || ' names ' || name || ', ' || others || ' others' FROM call_interface c JOIN who w ON w.upid = abs(c.upid)"
    " JOIN interface i ON i.id = c.interface",
    "SELECT iif(o.upid < 0, 'handle ', 'node ') || ptr || ' of ' || who || ' names ' || name || ' ' || n || ' times, '"
    " || others || ' others' FROM object_interface o JOIN who w ON w.upid = abs(o.upid)"
    " JOIN interface i ON i.id = o.interface",
    "SELECT '(' || count(*) || ' codes of nodes name an interface)' FROM call_interface",
    # The groups, and how many each verdict has; stacks; and the defects with their keys and calls.
    "SELECT verdict || ' ' || title || ': ' || n || ' of ' || coalesce(n_all, '-') || ' ' || path || ' ' || rules"
    " || ' (' || coalesce(note, '') || ')' FROM finding_group",
    "SELECT 'groups that are ' || v.verdict || ': ' || count(g.grp) FROM (SELECT DISTINCT verdict FROM rule) v"
    " LEFT JOIN finding_group g USING (verdict) GROUP BY v.verdict",
    "SELECT 'finding_stack ' || n || ': ' || stack || ', ' || whose FROM finding_stack",
    "SELECT 'finding_stack 2: -' WHERE NOT EXISTS (SELECT 1 FROM finding_stack WHERE n = 2)",
    "SELECT 'defect: ' || kind || ' | ' || who || ' | ' || path || '; key ' || id || '; '"
    " || coalesce(call, 'no call') FROM defect",
    "SELECT '(' || count(*) || ' defects)' FROM defect")


def texts_of(database: sqlite3.Connection) -> str:
    return "\n".join(text for text, in database.execute(" UNION ALL ".join(TEXTS)))


# Deliveries at another node than the one that is certain of their sends.
ASTRAY = ("SELECT count(*) FROM raw_send s JOIN node_of n USING (generation) JOIN raw_record r ON r.place = s.delivery"
          " JOIN raw_thread t ON t.utid = r.utid WHERE n.certain AND (t.upid, r.ptr, r.cookie) <> (n.upid, n.ptr,"
          " n.cookie)")


def faults_of(one: Case, database: sqlite3.Connection) -> list[str]:
    """What is wrong with a judged case. References that are held or were let go, and requests, count only if the case
    names such a rule."""
    came, due = rules_of(database), due_of(one)
    came = Counter({rule: count for rule, count in came.items() if rule not in ("H6", "H7", "D5") or rule in due})
    faults = [] if came == due else [f"expected {shown(due)}, came {shown(came)}"]
    astray, = database.execute(ASTRAY).fetchone()
    faults += [f"{astray} deliveries at another node"] if astray else []
    left, = database.execute("SELECT count(*) FROM finding WHERE id NOT IN (SELECT id FROM finding_head)").fetchone()
    faults += [f"{left} findings in no group"] if left else []
    texts = texts_of(database)
    return faults + [f"no finding says: {word}" for word in one.words if word not in texts]


def shown(counts: Counter) -> str:
    return " ".join(f"{rule}:{count}" for rule, count in sorted(counts.items(), key=str))


# ---- scenarios


def scenario(room: pathlib.Path, folder: pathlib.Path) -> bytes:
    """The database of a scenario before it is judged."""
    rows, base = room / f"{folder.name}.rows", room / f"{folder.name}.db"
    rows.mkdir()
    capture, side = folder / "capture-1.cap", folder / "capture.side"
    subprocess.run([TABLES, "--tables", rows, capture], check=True, stdout=subprocess.DEVNULL)
    raw_tables.load_rows(base, rows, str(side))
    database = open_database(base)
    loading.fill(database, [str(capture)], str(side), folder / "report.txt", None)
    database.close()
    return base.read_bytes()


def groups_of(database: sqlite3.Connection) -> list[tuple]:
    return database.execute("SELECT verdict, title, path, n, n_all, rules FROM finding_group"
                            " WHERE verdict IN ('real', 'maybe') UNION ALL SELECT 'defect', kind, who, path, id, call"
                            " FROM defect ORDER BY 1, 2, 3, 4").fetchall()


def show(one: Case, database: sqlite3.Connection) -> None:
    """Prints the findings of a judged case."""
    print(f"== {one.name}: {one.due}")
    for row in database.execute("SELECT section, what, place, rule, path, note, n_all, n_good, age, later, waiting"
                                " FROM finding ORDER BY id"):
        print("  ", *row)


# What is checked beside the sessions, by name.
BESIDE: dict[str, Callable[[], Iterable[str]]] = {
    "heads": faults_of_heads, "page": lambda: faults_of_page(CASES), "waits": faults_of_waits,
    "wrong-forms": faults_of_maker, "guards": faults_of_guards}


def bases_of(sessions: list[Case], room: pathlib.Path) -> Iterator[bytes]:
    with ThreadPoolExecutor(os.cpu_count()) as pool:
        yield from pool.map(made, repeat(room), sessions)


def play_named(given: argparse.Namespace, room: pathlib.Path, fail: Fail) -> None:
    """Plays the sessions that the command line names."""
    sessions = [one for one in CASES if one.name in given.cases]
    for one, base in zip(sessions, bases_of(sessions, room)):
        database = judged(base)
        if given.show:
            show(one, database)
        for fault in faults_of(one, database):
            fail(f"{one.name}: {fault}")


def all_sessions(room: pathlib.Path) -> tuple[bytes, Cases]:
    """All sessions, and the database of one of them."""
    bases = bases_of(CASES, room)
    first = next(bases)
    return first, Cases([one.name for one in CASES], [rows_of(first), *map(rows_of, bases)],
                        lambda number, database: faults_of(CASES[number], database))


# ---- wrong rules


def play_sessions(room: pathlib.Path, fail: Fail) -> None:
    """Plays all sessions, and the wrong forms that a change brings."""
    base, cases = all_sessions(room)
    forms, said = forms_of_change(list(Judged(base).statements), THRESHOLDS)
    which = tried(forms, cases)
    for fault in play_all(base, cases, which):
        fail(fault)
    if said:
        untold = len(which.untold())
        print(f"{said}; sessions tell {which.are_statements() - untold} of these, and {untold} not")
    for what in unexplained(which):
        fail(what)


def scenarios(room: pathlib.Path) -> Cases:
    """The stored captures; a form is told by other groups than those of the right rules."""
    folders = [path for path in sorted(DRIVER.iterdir()) if path.is_dir()]
    with ThreadPoolExecutor(os.cpu_count()) as pool:
        bases = list(pool.map(scenario, repeat(room), folders))
    right = [groups_of(judged(base)) for base in bases]
    return Cases([path.name for path in folders], list(map(rows_of, bases)),
                 lambda number, database: [] if groups_of(database) == right[number] else ["other groups"])


def is_about(form: Wrong, words: list[str]) -> bool:
    return not words or any(form.subject == word or form.subject.startswith(f"{word} (") for word in words)


def play_wrong(given: argparse.Namespace, room: pathlib.Path, fail: Fail) -> None:
    """Plays all wrong forms, or those of some subjects: on the sessions, and what no session tells on the scenarios."""
    base, cases = all_sessions(room)
    forms = [form for form in all_forms(list(Judged(base).statements), THRESHOLDS) if is_about(form, given.wrong)]
    if not forms:
        fail(f"no rule, and no table of the rules, {' '.join(given.wrong)}")
    if given.kept:
        given.kept.mkdir(parents=True, exist_ok=True)
    by_sessions = tried(forms, cases, given.kept and given.kept / "sessions")
    for fault in play_all(base, cases, by_sessions):
        fail(fault)
    of_driver = scenarios(room)
    by_scenarios = tried([forms[number] for number in by_sessions.untold()], of_driver,
                         given.kept and given.kept / "scenarios")
    for fault in play_all(base, of_driver, by_scenarios):
        fail(fault)
    for line in said_of(forms, by_sessions, by_scenarios, of_driver, whole=not given.wrong):
        fail(line)


def judge(given: argparse.Namespace, room: pathlib.Path, fail: Fail) -> None:
    build_programs(ROOT)
    raw_tables.loader()
    if given.wrong is not None:
        play_wrong(given, room, fail)
        return
    for name, faults in BESIDE.items():
        if name in given.cases:
            for fault in faults():
                fail(fault)
    if given.named:
        play_named(given, room, fail)
    else:
        play_sessions(room, fail)


if __name__ == "__main__":
    check(judge, lambda: [*BESIDE, *(one.name for one in CASES)], show=FLAG, wrong={"nargs": "*"},
          kept={"type": pathlib.Path, "metavar": "FOLDER"})
