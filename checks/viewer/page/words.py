"""The words of `view`, what it writes, and captures and names that mean harm."""

import base64
import hashlib
import os
import pathlib
import re
import shutil
import signal
import sqlite3
import subprocess
import sys
import time

from checks.kit.checking import Fail, compare
from checks.kit.programs import DRIVER, ROOT
from checks.kit.runs import answer
from checks.recorder.driver.kinds import SECRETS, TO_CLEAR
from checks.viewer.page.columns import check_columns
from checks.viewer.page.common import AT_END, stored, texts_of, view
from checks.viewer.page.reports import check_harmless, shown_of
from checks.viewer.rule_page import items_in
from viewer.page.page import script_of


def check_rules(made: pathlib.Path, fail: Fail) -> None:
    """Checks that the rules in docs/RULES.md are those of the database."""
    rows = sqlite3.connect(made).execute("SELECT id, verdict, text FROM rule").fetchall()
    told = [(item.id, item.verdict, item.sentence) for item in items_in((ROOT / "docs/RULES.md").read_text("utf-8"))]
    compare("the rules of docs/RULES.md", sorted(told), sorted(rows), fail)


def check_words(folder: pathlib.Path, room: pathlib.Path, fail: Fail) -> None:
    capture, side = DRIVER / "leaks/capture-1.cap", DRIVER / "leaks/capture.side"
    for words in ((), ("--frames", capture), (capture, "--groups", "-o", "a.html"), (capture, "--side")):
        compare(f"words {words}", view(folder, room, *words)[0], 64, fail)
    compare("--help", view(folder, room, "--help")[0], 0, fail)
    status, _, told = view(folder, room, capture, "no-such.cap", "-o", "n.html")
    compare("a file that is not there", (status, told),
            (4, "view: no-such.cap: No such file or directory\n"), fail)
    compare("a side list that is not there", view(folder, room, capture, "--side", "no", "--groups")[0], 4, fail)
    compare("a file that is not a side list", view(folder, room, capture, "--side", capture, "--groups")[0], 4, fail)
    compare("a page", view(folder, room, capture, "--side", side, "-o", "p.html", "--database", "d.db")[:2], (0, ""),
            fail)
    compare("d.db exists", view(folder, room, capture, "-o", "q.html", "--database", "d.db"),
            (1, "", "view: d.db exists already\n"), fail)
    compare("what is left", sorted(path.name for path in room.iterdir() if path.name not in ("programs",)),
            ["d.db", "p.html"], fail)
    shutil.copy(capture, room / "own.cap")
    view(folder, room, "own.cap")
    compare("a page beside the capture", (room / "own.cap.html").exists(), True, fail)
    status, lines, _ = view(folder, room, capture, "--side", side, "--groups")
    database = sqlite3.connect(room / "d.db")
    count, = database.execute("SELECT count(*) FROM finding_group").fetchone()
    compare("--groups", (status, len(lines.splitlines())), (0, count), fail)
    check_rules(room / "d.db", fail)
    check_columns(room / "d.db", fail)


def check_templates(_: pathlib.Path, __: pathlib.Path, fail: Fail) -> None:
    """All markup of the page is in its templates, and what they show is escaped but for its style and script."""
    page = ROOT / "viewer/page"
    made = [f"{path.name}: {line.strip()}" for path in page.glob("*.py")
            for line in path.read_text("utf-8").splitlines() if re.search("</?[a-z]|Markup", line)]
    compare("markup that Python makes", made, [], fail)
    raw = [(path.name, found) for path in page.glob("templates/*") for found in
           re.findall(r"\|\s*safe\b|autoescape false", path.read_text("utf-8"))]
    compare("what templates do not escape", raw, [("page.html", "autoescape false")] * 2, fail)


# Runs a program, which does not find a module.
WITHOUT = """
import runpy, sys
sys.modules[sys.argv[1]] = None
sys.argv = sys.argv[2:]
runpy.run_path(sys.argv[0], run_name="__main__")
"""


def check_no_engine(folder: pathlib.Path, room: pathlib.Path, fail: Fail) -> None:
    """Without the engine there is no page, and all else is made."""
    here = DRIVER / "gaps"
    words = [sys.executable, "-c", WITHOUT, "jinja2", folder / "view", here / "capture-1.cap", "--side",
             here / "capture.side"]
    missing = "view: jinja2 is missing to make the page; this installs it: apt-get install python3-jinja2\n"
    for more, due, made in ((("-o", "none.html", "--database", "none.db"), (1, missing), []),
                            (("--groups", "--database", "some.db", "--trace", "some.json.gz"), (0, ""),
                             ["some.db", "some.json.gz"])):
        ended = subprocess.run([*words, *more], cwd=room, capture_output=True, encoding="utf-8")
        compare(f"no engine, {more}", (ended.returncode, AT_END.sub("", ended.stderr)), due, fail)
        compare(f"no engine, {more}: what is made", [one for one in more if (room / one).exists()], made, fail)


def check_python(folder: pathlib.Path, room: pathlib.Path, fail: Fail) -> None:
    """Where a part of Python's library is missing, a line names it and its package."""
    for program, name in ((folder / "view", "view"), (folder / "viewer/methods/table.py", "viewer/methods/table.py")):
        due = (f"{name}: the module sqlite3 is missing in {sys.executable}; on Debian this installs it: apt-get install"
               " python3\n")
        came = answer([sys.executable, "-c", WITHOUT, "sqlite3", program, "x"], cwd=room, encoding="utf-8")
        compare(f"{name} without sqlite3", came, (1, "", due), fail)


def check_version(folder: pathlib.Path, room: pathlib.Path, fail: Fail) -> None:
    """`--version` says the commit of a repository, or what a package was made of."""
    head = answer(["git", "-C", ROOT, "rev-parse", "HEAD"], encoding="utf-8")[1].strip()
    for program in folder / "view", folder / "viewer/methods/table.py":
        status, said, told = answer([program, "--version"], cwd=room, encoding="utf-8")
        compare(f"{program.name} --version", (status, said.split()[:1], said.split()[8:10], told),
                (0, ["binder-audit"], ["commit", head], ""), fail)
    (room / "viewer").mkdir()
    shutil.copy(ROOT / "viewer/version.sh", room / "viewer")
    (room / "version").write_text("binder-audit 1\n", "utf-8")
    compare("--version of a package", answer([room / "viewer/version.sh"], encoding="utf-8"),
            (0, "binder-audit 1\n", ""), fail)


# Runs ./view, which gets SIGTERM with each call of a function of `os` that makes or removes a file in TMPDIR.
STOPPED_AT = """
import os, runpy, shutil, signal, sys, tempfile
called = getattr(os, sys.argv[1])
def stopped(path, *words, **more):
    made = called(path, *words, **more)
    if os.environ["TMPDIR"] in str(path) or more.get("dir_fd") is not None:
        os.kill(os.getpid(), signal.SIGTERM)
    return made
setattr(os, sys.argv[1], stopped)
sys.argv = sys.argv[2:]
runpy.run_path(sys.argv[0], run_name="__main__")
"""


def check_stopped(folder: pathlib.Path, room: pathlib.Path, fail: Fail) -> None:
    """After SIGTERM nothing is left in TMPDIR."""
    kept, words = room / "tmp", [folder / "view", *stored("gaps"), "--groups"]
    kept.mkdir()
    run = {"cwd": room, "env": {**os.environ, "TMPDIR": str(kept)}, "stdout": subprocess.DEVNULL}
    for wait in (0.1, 0.2, 0.4):
        running = subprocess.Popen(words, **run)
        time.sleep(wait)
        running.terminate()
        status = running.wait(60)
        compare(f"stopped after {wait} s", (status in (0, 143, -15), list(kept.iterdir())), (True, []), fail)
    check_killed(words, run, kept, fail)
    for called in ("open", "mkdir", "unlink", "rmdir"):
        ended = subprocess.run([sys.executable, "-c", STOPPED_AT, called, *words], **run)
        compare(f"stopped at {called}", (ended.returncode, list(kept.iterdir())), (143, []), fail)


def stopped_midway(words: list, run: dict, kept: pathlib.Path) -> subprocess.Popen:
    """A run that is stopped while its scratch is there. On a busy machine a run may end before this sees the scratch;
    then it is the next one."""
    for _ in range(20):
        running = subprocess.Popen(words, **run)
        while not list(kept.glob("view-*/capture.rows")) and running.poll() is None:
            time.sleep(0.001)
        running.send_signal(signal.SIGSTOP)
        if list(kept.glob("view-*/capture.rows")):
            break
        running.kill()
        running.wait()
    return running


def check_killed(words: list, run: dict, kept: pathlib.Path, fail: Fail) -> None:
    """What SIGKILL leaves is removed by the next one, and not what is no scratch, or is in use."""
    (kept / "view-of-mine").mkdir()
    running = stopped_midway(words, run, kept)
    begun = set(kept.glob("view-*"))
    subprocess.run(words, **run)
    compare("beside one that runs", set(kept.glob("view-*")), begun, fail)
    running.kill()
    running.wait()
    compare("killed", (len(begun), set(kept.glob("view-*"))), (2, begun), fail)
    subprocess.run(words, **run)
    compare("after one that was killed", list(kept.iterdir()), [kept / "view-of-mine"], fail)
    (kept / "view-of-mine").rmdir()


# The tabs, and in each the sections.
SECTIONS = ["Faults", "Look at these", "Explained",
            "Normal rows: references that are held or were let go, and requests that wait",
            "Time", "Methods by time", "Calls without an answer, and those that took longest",
            "Traffic", "Who talks to whom, by method", "Who talks to whom, object by object", "Who sends most",
            "The largest transactions",
            "Processes", "Growth: what stays", "Processes", "Threads that take calls, and what each serves at the end",
            "Who holds whose objects",
            "Rules", "Rules that findings have", "The heads of the proved report"]


def check_told(folder: pathlib.Path, room: pathlib.Path, fail: Fail) -> None:
    """What a page says besides its findings: how long they lasted, the heads, who served; and the singular of one
    thing."""
    due = {"hung": ("1 maybe · 1 row ",
                    "calls: place device process thread handle code verdict closer (docs/REPORT.md#calls)",
                    f"./audit report {DRIVER}/hung/capture-1.cap writes the whole report",
                    "place at held for others at most size thread row of the report",
                    "3208 0.039 s 577 ms none ended 0 client 1794 thread 1795 calls: 3208", "0.613 s /scenarios",
                    "client 1794 0 service 1792 handle 1, node 0x1000 0 1 call 13 0 0 0 0 1 1.96 ms all",
                    "Look at what the server&#39;s thread has done since it got the call.",
                    "C4 maybe It was delivered, and not replied. what the server&#39;s thread has done",
                    "most 2, ended with 1"),
           "quarter": ("5 of 20", "U2 Look at what the thread did after it", "3172 0.036 s 527 ms 1.54 ms 0 service",
                       "Nothing was cut off by an end or by the recording."),
           "hello-11": ("No group is real or maybe: no rule found a fault. This does not show that nothing is",),
           "dead-user": ("client 1857 thread 1857 short-lived 1856 1 failed",
                         "client 1857 0 short-lived 1856 handle 1, node 0x1000 0 1 call 6 3 0 ")}
    for name, texts in due.items():
        shown = room / f"{name}.html"
        view(folder, room, *stored(name), "-o", shown.name)
        text = re.sub(r" \d\d:\d\d:\d\d\.\d{3}", "", texts_of(shown))
        compare(f"{name}: what its page does not say", [one for one in texts if one not in text], [], fail)
        if name == "hung":
            # The second one is in the list of rules.
            compare("hung: how often its page has a sentence", text.count("It was delivered, and not replied."), 2,
                    fail)
            heads = re.findall("<h[23][^>]*>([^<]*)", shown.read_text("utf-8"))
            compare("hung: its sections", [one.strip() for one in heads], SECTIONS, fail)
            wrong = re.findall(r"(?<![\d,.])1 (?:rows|frames|processes|records|bytes)\b", text)
            compare("hung: some of one", wrong, [], fail)


def check_untimed(folder: pathlib.Path, room: pathlib.Path, fail: Fail) -> None:
    """Without a side list nothing says since when it has lasted."""
    status, said, _ = view(folder, room, DRIVER / "hello-stuck/capture-1.cap", "--no-side", "--groups")
    compare("hello-stuck without a side list", (status, re.findall(r".*since [;,)\t].*", said)), (0, []), fail)


def secrets_in(data: bytes) -> set[int]:
    """The secrets of the scenario of which eight bytes are in the data."""
    return {which for which, secret in SECRETS.items()
            if any(secret[at:at + 8] in data for at in range(len(secret) - 7))}


def check_secrets(folder: pathlib.Path, room: pathlib.Path, fail: Fail) -> None:
    """Of a redacted capture no file has a secret. Others have all but the one that was sent with TF_CLEAR_BUF. Only the
    owner can read what is made of a capture."""
    for name, due in (("secret", set(SECRETS) - {TO_CLEAR}), ("secret-redacted", set())):
        here, made, shown = DRIVER / name, room / f"{name}.db", room / f"{name}.html"
        view(folder, room, *stored(name), "-o", shown, "--database", made)
        compare(f"{name}: secrets in the capture", secrets_in((here / "capture-1.cap").read_bytes()), due, fail)
        for path in (here / "capture.side", made, shown):
            compare(f"{name}: secrets in {path.name}", secrets_in(path.read_bytes()), set(), fail)
        for path in (made, shown):
            compare(f"{name}: who can read {path.name}", path.stat().st_mode & 0o777, 0o600, fail)
        compare(f"{name}: the page says it", "Payloads are redacted" in texts_of(shown), not due, fail)


HOSTILE = {"manager": "<script>window.bad=1</script>, one", "short-lived": "\"'><img src=x onerror=bad()>",
           "deaf-watcher": "\u202egnp.exe", "service": "a" * 2**20, "client": "\u05d0</table></details><h1>",
           "waiting": "tab\there", "hasty-watcher": "\u05d0\u05d1 1"}


def check_policy(text: str, fail: Fail) -> None:
    """A page has one script, its own. Its policy lets it run that, and load nothing."""
    script = script_of(ROOT / "viewer/page/scripts")
    digest = base64.b64encode(hashlib.sha256(script.encode()).digest()).decode()
    compare("what is in the scripts of the page", shown_of(text).script, script, fail)
    compare("the policy of the page", re.findall('Content-Security-Policy" content="([^"]*)"', text),
            [f"default-src 'none'; style-src 'unsafe-inline'; script-src 'sha256-{digest}'"], fail)


def check_hostile(folder: pathlib.Path, room: pathlib.Path, fail: Fail) -> pathlib.Path:
    """Checks a page with a side list that has names from a stranger. Returns the page."""
    side = (DRIVER / "leaks/capture.side").read_text("utf-8")
    for old, new in HOSTILE.items():
        side = re.sub(f"name={old}$", lambda _: "name=" + new.replace("\t", "\\x09"), side, flags=re.MULTILINE)
    *lines, end = side.splitlines(keepends=True)
    missed = f"{end.split()[0]} missed 1 what=<script>window.bad=1</script>\u202e from=1 after=2\n"
    (room / "hostile.side").write_text("".join((*lines, missed, end)), "utf-8")
    named = room / "<script>bad&\u202e.cap"
    shutil.copy(DRIVER / "leaks/capture-1.cap", named)
    before = "<script>bad&\u202e.db"
    for words in ("--groups", "--database", before), ("-o", "hostile.html", "--against", before):
        compare(f"hostile names, status of {words[0]}",
                view(folder, room, named.name, "--side", "hostile.side", *words)[0], 0, fail)
    text = (room / "hostile.html").read_text("utf-8")
    check_policy(text, fail)
    check_harmless("hostile names", text, fail)
    compare("hostile names: characters that are not shown", [one for one in text if not one.isprintable()
                                                             and one != "\n"], [], fail)
    compare("hostile names: the number of one of them", '<span class="sign">U+202E</span>gnp.exe' in text, True, fail)
    compare("hostile names: texts that may turn others", shown_of(text).turned, [], fail)
    compare("hostile names: paths that are not set apart",
            re.findall('<span class="what"><b>[^<]*</b> (?!<bdi>)', text), [], fail)
    compare("hostile names: the page stays small", len(text) < 2**20, True, fail)
    status, lines, _ = view(folder, room, named.name, "--side", "hostile.side", "--groups")
    tabs = {line.count("\t") for line in lines.splitlines()}
    compare("hostile names: fields of a line", (status, tabs), (0, {10}), fail)
    return room / "hostile.html"
