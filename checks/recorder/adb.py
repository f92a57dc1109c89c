#!/usr/bin/env python3
"""Checks `record --adb`: what it says when something fails, and that no recording is lost then.

    checks/run adb

What must hold:

- A recording is fetched as it was on the device, into files of the owner alone, and removed there. PROGRAM has its
  output and its status; without one SIGINT ends the recording, and a line says so. Lines before say what is done.
- A flight recorder keeps its files when it is asked, or by a trigger, and goes on; all sets that it kept are fetched.
- Apps, or the processes that are named, collect garbage before the recording ends, and none ends by that.
- The packages of a device are in a file beside the side list, and a device that does not tell them holds up nothing.
- A recorder ends whose folder and whose adb are gone.
- If the connection is lost, if bytes come wrong, or if a file is in the way, a line says so, the recording stays on the
  device, and --fetch fetches it. So it does what --detach began.
- One command at a time has the folder on the device. Another one says who has it, and takes nothing from it, but what
  a killed command left. Of two that fetch, one says that the other one did. A recording outlives a start of the device.
- What ends in zeros, as after a loss of power, is fetched without them, and a line says so. Each word of a command that
  is told is one word for a shell.
- No file is fetched under a name that no recording makes, and no control character of the device comes through.
- All that the device lacks is said, by a recording and by --check, and nothing is left there: also that it runs no
  program in the folder. So is what this system lacks of Python.
- A word that is wrong is named, with status 64. A device is named as adb itself takes it, too.
- A line says that a recording ends, and what is fetched, of which a terminal shows how far it is.
- If the disk of this system is full, a line says so, with the file. With --view the page is made, and opened.
- No device, two of them, one that does not trust this computer, one without root, with an old adbd or of another
  machine, and a server of adb of another version: a line for each.

adb and its device are made up (made_up_adb.py), and so is the driver (flight.c); checks/phone has real ones. It takes
some 20 seconds.
"""

import argparse
import contextlib
import hashlib
import os
import pathlib
import re
import shutil
import signal
import subprocess
import sys
import time
from typing import Callable, Iterable, Iterator

from checks.kit.checking import Fail, check
from checks.kit.frames import frames_of
from checks.kit.programs import CHECKS, ROOT
from checks.recorder.keeping import WRAPPED
from checks.recorder.phone.play import said_of, server_of_version_39

LIMIT = 300  # seconds, for a machine with much other work

PUTTING, PREPARED, READY, BEGUN, ENDING, FETCHING, FETCHED = said_of("one")
COUNTS = r"record: \d+ frames, \d lost.*; \d files?, \d+ bytes"
KEPT = r"; what was recorded stays in \S+/binder-record of one; to fetch it: \S+record --adb one --fetch -o {0}"
OFFLINE = (r"record: the connection to one is lost \(error: device offline\); when one is back, this fetches what was"
           r" recorded there: \S+record --adb one --fetch -o {0}")
ALREADY = r"record: one has a recording in \S+/binder-record already; to fetch it: \S+ --adb one --fetch -o more"
NONE = r"record: one has no recording in \S+/binder-record"
WHOSE = r" \(process \d+ of \S+, begun \d+ s ago\)"
PREPARES = (rf"record: another command prepares a recording in \S+/binder-record of one{WHOSE}: wait until that has"
            r" ended, or end it; what a killed command left is removed after 10 minutes")
GONE = (r"record: \S+/binder-record of one is this command's no longer: another one has fetched what was recorded"
        " there, or removed it")

# Commands of the device that are others than here. What is recorded is root's there.
COMMANDS = {
    "id": "echo ${ADB_USER-0}",
    "uname": 'if [ "$1" = -m ]; then cat "$ADB_ROOM/machine"; else exec /bin/uname "$@"; fi',
    "stat": 'if [ "$2" = "%u %a %F" ]; then shift 2; found=$(/usr/bin/stat -c "%a %F" "$@") &&'
            ' echo "0 $found"; else'
            ' exec /usr/bin/stat "$@"; fi',
    "su": "exit 1",
}


def fetches(name: str) -> tuple[str, str]:
    """What is said of files that are fetched."""
    return FETCHING, FETCHED.format(name)


def are_ours(files: Iterable[pathlib.Path]) -> bool:
    return all(it.stat().st_mode & 0o777 == 0o600 for it in files)


class Device:
    """The device that is made up, and `record` for it."""

    def __init__(self, room: pathlib.Path, fail: Fail):
        self.room, self.report, self.what = room, fail, ""
        self.environment = {**os.environ, "ADB_ROOM": str(room), "PATH": f"{room}/adb:{os.environ['PATH']}",
                            "ANDROID_ADB_SERVER_PORT": "1", "GOES_ON": "1"}
        for folder in ("device", "bin", "adb", "out", "recorder"):
            (room / folder).mkdir()
        self.write("devices", "one\tdevice\n")
        self.write("features", "shell_v2\ncmd\n")
        self.write("machine", "x86_64\n")
        for name, script in COMMANDS.items():
            self.write(f"bin/{name}", f"#!/bin/sh\n{script}\n", 0o755)
        # Each of the many starts of Python is as short as it can be.
        (room / "adb/python3").symlink_to(sys.executable)
        made_up = (CHECKS / "recorder/made_up_adb.py").read_text("utf-8")
        self.write("adb/adb", made_up.replace("#!/usr/bin/env python3", f"#!{sys.executable} -IS", 1), 0o755)
        shutil.copy(ROOT / "record", room)
        shutil.copytree(ROOT / "recorder/adb", room / "recorder/adb")
        shutil.copytree(ROOT / "viewer", room / "viewer", ignore=lambda _, names: [
            name for name in names if not name.endswith(".py")])
        self.write("recorder/program.sh", f"#!/bin/sh\necho {self.recorder()}\n", 0o755)

    def write(self, name: str, text: str, mode: int = 0o644) -> None:
        (self.room / name).write_text(text, "utf-8")
        (self.room / name).chmod(mode)

    def recorder(self) -> pathlib.Path:
        subprocess.run([CHECKS / "recorder/build.sh", "flight", self.room, "-Wl,--wrap=open,--wrap=clock_gettime"],
                       check=True)
        return self.room / "flight"

    @contextlib.contextmanager
    def with_file(self, name: str, text: str, mode: int = 0o644) -> Iterator[None]:
        path = self.room / name
        before = path.read_text("utf-8") if path.exists() else None
        self.write(name, text, mode)
        try:
            yield
        finally:
            path.unlink() if before is None else path.write_text(before, "utf-8")

    def with_command(self, name: str, script: str) -> contextlib.AbstractContextManager[None]:
        """While it is entered, a command of the device is another one."""
        return self.with_file(f"bin/{name}", f"#!/bin/sh\n{script}\n", 0o755)

    @contextlib.contextmanager
    def held(self, name: str) -> Iterator[None]:
        """While it is entered, a command of the device does not come to its end, for who has HELD."""
        with self.with_file("held", ""), self.with_command(name, f"""
                while [ "$HELD" ] && [ -e "$ADB_ROOM/held" ]; do sleep 0.1; done
                exec $(PATH=/usr/bin:/bin command -v {name}) "$@" """):
            yield

    def folder(self) -> pathlib.Path:
        return self.room / "device/binder-record"

    def start(self, *words: str, by: str = "--adb", **variables: str) -> subprocess.Popen[str]:
        return subprocess.Popen([self.room / "record", by, *words], cwd=self.room / "out", encoding="utf-8",
                                env={**self.environment, **variables}, stdin=subprocess.DEVNULL, stdout=subprocess.PIPE,
                                stderr=subprocess.STDOUT)

    def ends(self, program: subprocess.Popen[str], status: int, *lines: str, said: str | None = None) -> None:
        """Its status, and all lines that it wrote. What the recorded program `said` comes on another stream of adb, so
        anywhere among these."""
        came = program.communicate(timeout=LIMIT)[0].strip("\n").split("\n")
        own = [line for line in came if line != said]
        if program.returncode != status or len(own) != len(lines) or not all(map(re.fullmatch, lines, own)) \
                or len(came) - len(own) != (said is not None):
            self.report(f"{self.what}: expected {status} {said} {lines}, came {program.returncode} {came}")

    def says(self, words: list[str], status: int, *lines: str, said: str | None = None, **variables: str) -> None:
        self.ends(self.start(*words, **variables), status, *lines, said=said)

    def wait_until(self, what: str, holds: Callable[[], bool]) -> None:
        end = time.monotonic() + LIMIT
        while not (has_come := holds()) and time.monotonic() < end:
            time.sleep(0.1)
        self.must(has_come, f"{what} has not come")

    def wait_until_prepared(self) -> None:
        """The recorder is in the folder, in which nothing is recorded yet."""
        self.wait_until("the recorder", (self.folder() / "record").exists)

    def wait_until_recording(self) -> None:
        """The recording has begun, and the command has had the time to say so."""
        side = self.folder() / "capture.side"
        self.wait_until("a recording", lambda: side.exists() and " begin realtime=" in side.read_text("utf-8"))
        time.sleep(1.5)

    def fetched(self, name: str) -> None:
        """All files are here, for their owner, and none is on the device."""
        files = list((self.room / "out").glob(f"{name}[-.]*"))
        self.must(len(files) >= 8 and are_ours(files), f"the files are {files}")
        self.left_nothing()

    def leave_folder(self) -> None:
        """Makes the folder one that was recording when the device was started anew."""
        shutil.copy(ROOT / "recorder/adb/on_device.sh", self.folder())
        for name, text in {"owner": "another.1 1 somebody@elsewhere another 9", "state": "recording",
                           "pid": "1"}.items():
            (self.folder() / name).write_text(f"{text}\n", "ascii")

    def must(self, holds: bool, what: object) -> None:
        if not holds:
            self.report(f"{self.what}: {what}")

    def left_nothing(self) -> None:
        self.must(not self.folder().exists(), "the device has its folder still")

    def records(self, name: str, words: list[str], *lines: str, status: int = 0, said: str | None = None) -> None:
        """A whole recording into files of this name, with these lines before it ends; all of it is here then."""
        self.says(["-o", name, *words], status, *PREPARED, READY, *lines, COUNTS, *fetches(name), said=said)
        self.fetched(name)

    def fetches(self, name: str, *lines: str, status: int = 0) -> None:
        """By --fetch all of a recording is here, after these lines."""
        self.says(["--fetch", "-o", name], status, *lines, *fetches(name))
        self.fetched(name)


# ---- what goes well


def check_sessions(device: Device) -> None:
    device.what = "with PROGRAM"
    device.records("some", ["--", "sh", "-c", r"echo 'a  word'; printf '\033[31mred\007\n' >&2; exit 7"],
                   r"\\x1b\[31mred\\x07", status=7, said="a  word")
    device.what = "SIGINT"
    program = device.start("one", "-o", "until")
    device.wait_until_recording()
    program.send_signal(signal.SIGINT)
    device.ends(program, 0, *PREPARED, READY, BEGUN, ENDING, COUNTS, *fetches("until"))
    device.fetched("until")
    device.what = "--check"
    device.says(["--check"], 0, *PREPARED, READY)


def check_words(device: Device) -> None:
    """Each wrong word is named, and nothing is recorded."""
    begun = "the recording has begun with its options"
    device.says(["--bogus"], 64, *PREPARED, "record: there is no option --bogus; record --help has them",
                "record: nothing was recorded on one")
    for words, said in ((["one", "-s", "two"], "two devices are named: one and two"),
                        (["-o", ""], "-o takes the start of the files' names"),
                        (["-s", ""], "-s takes the serial of a device"),
                        (["--fetch", "--redact"], f"--fetch takes no --redact: {begun}"),
                        (["--fetch", "--", "true"], f"--fetch takes no --: {begun}"),
                        (["--help"], "record --help has the options of --adb, too"),
                        (["--detach", "--view"], "--view shows what is fetched, and --detach fetches nothing")):
        device.says(words, 64, f"record: {said}")
    device.left_nothing()


def check_named(device: Device) -> None:
    """A device is named in several ways, and each is one of two."""
    with device.with_file("devices", "two\tdevice\none\tdevice\n"):
        for by, words, serial in (("--adb", ["one"], ""), ("--adb", ["-s", "one"], ""), ("--adb", ["-sone"], "two"),
                                  ("--adb=one", [], ""), ("--adb", [], "one"), ("--adb", ["one"], "two")):
            device.what = f"a device that is named: {by} {words} {serial}"
            device.ends(device.start(*words, "--check", by=by, ANDROID_SERIAL=serial), 0, *PREPARED, READY)


def check_bar(device: Device) -> None:
    """On a terminal a bar shows how far the fetch is, and nothing of it stays in the line."""
    ours, terminal = os.openpty()
    words = [device.room / "record", "--adb", "-o", "barred", "--", "true"]
    with subprocess.Popen(words, cwd=device.room / "out", env=device.environment, stdin=subprocess.DEVNULL,
                          stdout=terminal, stderr=terminal) as program:
        os.close(terminal)
        came = b""
        with contextlib.suppress(OSError):  # the terminal is closed
            while piece := os.read(ours, 65536):
                came += piece
        os.close(ours)
    due = (rb"\nrecord: fetching \d+ files.*\r\n.*\rrecord: \[[#.]{30}\] +\d+%, \d+\.\d of \d+\.\d MB, \d+\.\d MB/s"
           rb"\x1b\[K\r\x1b\[Krecord: \d+ files")
    device.must(not program.returncode and re.search(due, came) is not None,
                f"status {program.returncode}, came {came!r}")
    device.fetched("barred")


VIEWER = """#!/bin/sh
echo "$@" >view.words
case $1 in *spoiled*) exit 3 ;; esac
echo page >"$1.html"
"""


def check_view(device: Device) -> None:
    """The page is made of what was fetched, and opened in the browser. The status is that of the recording; or of the
    viewer, if it made no page."""
    shown = [*PREPARED, READY, COUNTS, FETCHING, r"record: \d+ files, \d+ bytes fetched from one"]
    with device.with_file("view", VIEWER, 0o755):
        for name, status, browser, said in (
                ("viewed", 7, f"{device.room}/browser %s", [r"record: the page is \S+/out/viewed-1\.cap\.html"]),
                ("unopened", 7, "", [r"record: the page is \S+/out/unopened-1\.cap\.html; no browser was opened"]),
                ("-spoiled", 3, "", [])):
            device.what = f"--view, {name}"
            opened = device.room / "opened"
            with device.with_file("browser", f'#!/bin/sh\necho "$1" >{opened}.new\nmv {opened}.new {opened}\n', 0o755):
                device.says(["--view", "-o", name, "--", "sh", "-c", "exit 7"], status, *shown, *said, DISPLAY="",
                            WAYLAND_DISPLAY="", BROWSER=browser)
                if browser:
                    device.wait_until("the browser", opened.exists)
            words = (device.room / "out/view.words").read_text("utf-8")
            here = name if name[0] != "-" else f"./{name}"
            device.must(words == f"{here}-1.cap --side {here}.side\n", f"the viewer was called with {words}")
    shown_page = opened.read_text("utf-8")
    device.must(shown_page == f"file://{device.room}/out/viewed-1.cap.html\n", f"opened {shown_page}")


def check_detached(device: Device) -> None:
    device.what = "--detach"
    device.says(["--detach", "-o", "later"], 0, *PREPARED, READY, r"record: one records, also without the connection;"
                r" to end that, and fetch it: \S+record --adb one --fetch -o later")
    device.what = "a second recording"
    device.says(["-o", "more"], 1, rf"record: one records already, into \S+/binder-record{WHOSE}; to end that, and"
                r" fetch it: \S+ --adb one --fetch -o more")
    device.what = "--fetch"
    device.fetches("later", ENDING, COUNTS)
    device.says(["--fetch", "-o", "again"], 1, NONE)


KEPT_THERE = r"record: kept \d files, \d+ bytes, in capture\.kept-\w+(-\d+)?, because {0}"
KEPT_HERE = (r"record: a set that was kept on one, \d+ files, \d+ bytes, fetched;"
             r" next: \S+view day\.kept-\S+/day-\d+\.cap.*")


def check_kept(device: Device) -> None:
    """A recording that goes on keeps its files by a trigger, and when it is asked. All that it kept is fetched."""
    device.what = "a set by a trigger"
    wrapped = "".join(f",--wrap={name}" for name in WRAPPED)
    subprocess.run([CHECKS / "recorder/build.sh", "keeping", device.room, f"-Wl{wrapped}"], check=True)
    still = r"one still records; to end that, and fetch it: \S+record --adb one --fetch -o day"
    with device.with_file("recorder/program.sh", f"#!/bin/sh\necho {device.room}/keeping\n", 0o755):
        device.says(["--keep"], 1, "record: one records nothing now")
        device.says(["--detach", "--size", "1000000", "--keep-when-file", f"{device.room}/come", "-o", "day"], 0,
                    *PREPARED, READY, r"record: one records, .*", PLAN="")
        device.write("come", "")
        device.wait_until("a set", lambda: list(device.folder().glob("capture.kept-*")) != [])
        device.what = "--keep"
        device.says(["--keep", "--redact"], 64, "record: --keep takes no --redact: the recording has begun with its"
                    " options")
        device.says(["--keep", "-o", "day"], 0, KEPT_HERE, KEPT_HERE, f"record: {still}")
        sets = sorted((device.room / "out").glob("day.*"))
        lists = [max(it.glob("day-*.side"), key=lambda path: int(path.stem[4:])).read_text("utf-8") for it in sets]
        told = [re.findall(r" kept (\w+) ", text) + re.findall(r" end (recording) ", text[-80:]) for text in lists]
        device.must(sorted(told) == [["asked", "recording"], ["file", "recording"]]
                    and not list(device.folder().glob("*.kept-*")), f"of {sets} the lists say {told}")
        device.what = "--fetch with a set"
        with device.with_file("cut", "cat capture-"):
            device.says(["--keep", "-o", "day"], 1,
                        rf"record: capture-\d+\.cap of one did not come as it is there; {still}")
        device.says(["--fetch", "-o", "day"], 0, ENDING, KEPT_THERE.format(r"\S+/come has come, or was changed"),
                    *[KEPT_THERE.format("somebody asked for it")] * 2, COUNTS, KEPT_HERE, FETCHING,
                    r"record: \d+ files, \d+ bytes fetched from one; next: \S+view day-\d+\.cap .*")
        kept = sorted((device.room / "out").glob("day.kept-*"))
        device.must(len(kept) == 3 and all(are_ours(it.iterdir()) for it in kept), f"three sets are due, came {kept}")
        for path in kept:
            path.rename(device.room / path.name)
    device.fetched("day")


def check_packages(device: Device) -> None:
    """The packages are fetched with a recording, but for a redacted one, and hold up none."""
    package = "package:org.example.one uid:10123\n"
    asked = (["named"], package), (["redacted", "--redact"], None), (["unnamed", "--no-names"], None)
    with device.with_command("pm", f'[ "$*" = "list packages -U" ] && printf "a line\n{package}"'):
        for words, due in asked:
            device.what = f"packages, {words}"
            device.records(words[0], [*words[1:], "--", "sleep", "1"])
            path = device.room / f"out/{words[0]}.packages"
            came = path.read_text("utf-8") if path.exists() else None
            device.must(came == due, f"expected {due!r}, came {came!r}")
    device.what = "packages that do not come"
    with device.with_command("pm", "exec sleep 30"):
        began = time.monotonic()
        device.records("waiting", ["--", "true"])
        device.must(time.monotonic() - began <= 20, "the recording waited for them")


# Two processes as the zygote forks them. One has the name of an app and waits for SIGUSR1, as those of Java do, in a
# thread that is not its first, and the other one would end by the signal. Each writes that it is there, and the first
# one each signal that came.
ZYGOTE = """
import os, signal, subprocess
def forked(name, script):
    program = subprocess.Popen([name], executable=os.environ["PYTHON"], stdin=subprocess.PIPE)
    program.stdin.write(b"import signal, threading, time; " + script)
    program.stdin.close()
    return program
signal.pthread_sigmask(signal.SIG_BLOCK, [signal.SIGUSR1])
app = forked(os.environ["APP"], b"threading.Thread(target=lambda: ["
             b"print(signal.sigwait([signal.SIGUSR1]).name, flush=True) for _ in range(99)]).start();"
             b" print('app', flush=True); time.sleep(999)")
signal.pthread_sigmask(signal.SIG_UNBLOCK, [signal.SIGUSR1])
other = forked(os.environ["OTHER"], b"print('other', flush=True); time.sleep(999)")
other.wait()
print("ended", flush=True)
app.wait()
"""


@contextlib.contextmanager
def zygote(device: Device, app: str, other: str) -> Iterator[Callable[[], list[str]]]:
    """While it is entered, the zygote is there. What it forked has written so far is returned."""
    told = device.room / "zygote"
    known = {**os.environ, "PYTHON": sys.executable, "APP": app, "OTHER": other}
    with told.open("w", encoding="utf-8") as out, subprocess.Popen(
            ["zygote64", "-c", ZYGOTE], executable=sys.executable, stdout=out, env=known,
            start_new_session=True) as program:
        device.wait_until("the zygote", lambda: set(told.read_text("utf-8").split()) == {"app", "other"})
        try:
            yield lambda: sorted(told.read_text("utf-8").split())
        finally:
            os.killpg(program.pid, signal.SIGKILL)


def check_garbage(device: Device) -> None:
    """Apps, or the processes that are named, collect garbage once, 2 s before the end: also at the end of PROGRAM, and
    when a detached recording is fetched. No process ends by that. Another run of this may have apps here, too."""
    app, other = f"com.example.app{os.getpid()}", f"com.example.other{os.getpid()}"
    with zygote(device, app, other) as told:
        def collected(count: str) -> str:
            return rf"record: the garbage of {count} process(es)? is collected; the recording ends 2 s later"

        def signals(count: int) -> None:
            device.wait_until(f"signal {count}", lambda: told().count("SIGUSR1") >= count)
            device.must(set(told()) - {"SIGUSR1"} == {"app", "other"}, f"a process ended: {told()}")

        device.what = "garbage at Ctrl-C"
        program = device.start("--collect", "-o", "all-collect")
        device.wait_until_recording()
        program.send_signal(signal.SIGINT)
        device.ends(program, 0, *PREPARED, READY, BEGUN, ENDING, collected(r"\d+"), COUNTS, *fetches("all-collect"))
        signals(1)
        for name, words, count in (("named", f"com.example.none,{app}", 1), ("none", app[1:], 0), ("other", other, 0)):
            device.what = f"garbage of {words}"
            began = time.monotonic()
            device.records(f"{name}-collects", [f"--collect={words}", "--", "sh", "-c", "echo a  word; exit 7"],
                           collected(str(count)), status=7, said="a word")
            signals(2)
            device.must(time.monotonic() - began >= 2, "the recording did not go on for 2 s")
        device.what = "garbage when it is fetched"
        device.says(["--detach", f"--collect={app}", "-o", "collects"], 0, *PREPARED, READY, r"record: one records, .*")
        device.fetches("collects", ENDING, collected("1"), COUNTS)
        signals(3)
    device.what = "words for garbage"
    for words in ("--collect=,", "--collect=a b", "--collect=a,,b"):
        device.says([words], 64, "record: --collect takes nothing, or names of processes:"
                    " --collect=com.example.one,com.example.two")


# ---- whose the folder is


def check_two(device: Device) -> None:
    """A second command does not touch what the first one prepares."""
    with device.held("chmod"):
        first = device.start("-o", "first", "--", "true", HELD="1")
        device.wait_until_prepared()
        for words in ["-o", "second"], ["--check"], ["--fetch", "-o", "second"]:
            device.says(words, 1, PREPARES)
    device.ends(first, 0, *PREPARED, READY, COUNTS, *fetches("first"))
    device.fetched("first")


def check_left(device: Device) -> None:
    """What a command left is removed when that is known to have ended, or after some minutes."""
    device.what = "a killed command"
    with device.held("chmod"):
        first = device.start(HELD="1")
        device.wait_until_prepared()
        first.kill()
        first.communicate()
    device.says(["--check"], 0, *PREPARED, READY)
    boot = pathlib.Path("/proc/sys/kernel/random/boot_id").read_text("ascii").strip()
    now = int(time.clock_gettime(time.CLOCK_BOOTTIME))
    owner = "another.1 1 somebody@elsewhere {} {}\n"
    for what, line, taken in (("young", owner.format(boot, now - 400), False),
                              ("old", owner.format(boot, now - 610), True),
                              ("of another start", owner.format("another", now), True), ("nobody's", "", True)):
        device.what = f"a folder that is {what}"
        device.folder().mkdir(mode=0o700)
        (device.folder() / "owner").write_text(line, "ascii")
        device.says(["--check"], *((0, *PREPARED, READY) if taken else (1, PREPARES)))
        shutil.rmtree(device.folder(), ignore_errors=True)


def check_restarted(device: Device) -> None:
    """What was recorded before the device was started anew stays there until it is fetched."""
    device.records("before", ["--", "true"])
    device.folder().mkdir(mode=0o700)
    for path in (device.room / "out").glob("before[-.]*"):
        path.rename(device.folder() / f"capture{path.name.removeprefix('before')}")
    device.leave_folder()
    device.says(["-o", "more"], 1, ALREADY)
    device.fetches("restarted", status=1)


def check_power(device: Device) -> None:
    """What a device had recorded when it lost its power may end in zeros, which are left out."""
    device.records("powered", ["--", "true"])
    device.folder().mkdir(mode=0o700)
    whole = {path.name.removeprefix("powered"): path.read_bytes()
             for path in (device.room / "out").glob("powered[-.]*")}
    for ending, data in whole.items():
        zeros = bytes(8192 if ending.endswith((".cap", ".side")) else 0)
        (device.folder() / f"capture{ending}").write_bytes(data + zeros)
    device.leave_folder()
    ends = (r"record: lost-power{} ends in 8,\d\d\d zero bytes, as a file may after a loss of power: of its"
            r" [\d,]+ bytes the last 8,\d\d\d are left out")
    device.says(["--fetch", "-o", "lost-power"], 1, FETCHING, ends.format(r"-1\.cap"), ends.format(r"\.side"),
                FETCHED.format("lost-power"))
    device.fetched("lost-power")
    for ending, data in whole.items():
        came = (device.room / f"out/lost-power{ending}").read_bytes()
        cut = [data[:frame.place] for frame in frames_of(data)[-1:] if ending == "-1.cap"]
        device.must(came in (data, *cut), f"lost-power{ending} is not what was there before")


# What a shell would take for more than a word, as the start of the files' names; and how it is told.
WORDS = {"$(x) y": r"'\$\(x\) y{}'", "-z": r"\./-z{}", "it's": r"""'it'"'"'s{}'""", "e\x1b[1m": r"\$'e\\x1b\[1m{}'"}


def check_quoted(device: Device) -> None:
    """Each word of a command that is told is one word for a shell, whatever it has, also for the one of the device."""
    for out, due in WORDS.items():
        device.what = f"files called {out!r}"
        device.says([f"-o{out}", "--", "true"], 0, *PREPARED, READY, COUNTS, FETCHING, r"record: \d+ files, \d+ bytes"
                    rf" fetched from one; next: \S+view {due.format('-1.cap')} --side {due.format('.side')}")
    device.what = "a serial that is more than a word"
    with device.with_file("devices", "a;b\tdevice\ntwo\tdevice\n"):
        device.says([], 1, "record: adb has 2 devices: a;b, two; name one: --adb 'a;b'")
    device.what = "a file system whose name is more than a word"
    with device.with_command("chmod", 'exec /bin/chmod 600 "$2"'), \
            device.with_command("df", "echo '/dev/x 1 1 1 1% /$(reboot)'"):
        device.says([], 1, PUTTING, r"record: one runs no program in .*, which adb -s one shell mount -o remount,exec"
                    r""" ''"'"'/\$\(reboot\)'"'"'' lifts, or a policy forbids it""")
    device.left_nothing()


def check_interrupted(device: Device) -> None:
    with device.held("chmod"):
        program = device.start(HELD="1")
        device.wait_until_prepared()
        program.send_signal(signal.SIGINT)
        device.ends(program, 130, PUTTING, "record: interrupted; nothing was recorded")
    device.left_nothing()


def check_fetched_twice(device: Device) -> None:
    with device.held("sha256sum"):
        first = device.start("-o", "never", HELD="1")
        device.wait_until_recording()
        device.fetches("taken", ENDING, COUNTS)
    device.ends(first, 1, *PREPARED, READY, BEGUN, COUNTS, FETCHING, GONE)


# ---- what fails


def check_lacking(device: Device) -> None:
    device.what = "a device that lacks something"
    lacking = *PREPARED, "record: one thing is missing", "record: another one is missing"
    device.says(["--", "echo", "begun"], 1, *lacking, "record: nothing was recorded on one", LACKING="1")
    device.says(["--detach"], 1, *lacking, "record: nothing is recorded on one", LACKING="1")
    device.says(["--check"], 1, *lacking, "record: one can't be recorded", LACKING="1")
    device.what = "a folder without programs"
    with device.with_command("chmod", 'exec /bin/chmod 600 "$2"'):
        device.says([], 1, PUTTING, r"record: one runs no program in \S+/binder-record: its file system may be mounted"
                    r" noexec, which adb -s one shell mount -o remount,exec /\S* lifts, or a policy forbids it")
    device.left_nothing()


def check_lacking_here(device: Device) -> None:
    """bash alone has what the script itself calls."""
    few = device.room / "few"
    few.mkdir()
    for name in "bash", "readlink", "dirname":
        (few / name).symlink_to(shutil.which(name) or name)
    device.says([], 1, "record: --adb takes python3, which is missing; to install it: apt-get install python3",
                PATH=str(few))
    device.write("few/shlex.py", "raise ModuleNotFoundError(name='shlex')\n")
    device.says([], 1, r"record: the module shlex is missing in \S+; on Debian this installs it: apt-get install"
                " python3", PYTHONPATH=str(few))


def check_lost(device: Device) -> None:
    device.what = "the connection is lost"
    program = device.start("-o", "lost")
    device.wait_until_recording()
    with device.with_file("cut", ""):
        device.ends(program, 1, *PREPARED, READY, BEGUN, OFFLINE.format("lost"))
    device.what = "bytes come wrong"
    with device.with_file("wrong", ""):
        device.says(["--fetch", "-o", "lost"], 1, COUNTS, FETCHING, r"record: capture\S+ of one did not come as it"
                    " is there" + KEPT.format("lost"))
    device.what = "a file is in the way"
    with device.with_file("out/lost.side", ""):
        device.says(["--fetch", "-o", "lost"], 1, "record: lost.side exists already, and is not overwritten")
    device.what = "after all that"
    device.fetches("lost", COUNTS)


# A system whose disk is full as soon as a file is to be on it.
FULL = """import errno, os
def full(_):
    raise OSError(errno.ENOSPC, os.strerror(errno.ENOSPC))
os.fsync = full
"""


def check_full(device: Device) -> None:
    (device.room / "full").mkdir()
    with device.with_file("full/sitecustomize.py", FULL):
        device.says(["-o", "full", "--", "true"], 1, *PREPARED, READY, COUNTS, FETCHING, r"record: full-1\.cap\.part"
                    r" can't be written here: the disk of this system is full" + KEPT.format("full"),
                    PYTHONPATH=str(device.room / "full"))
    device.must(not list((device.room / "out").glob("full*")), "files are left")
    device.fetches("full", COUNTS)


def check_ownerless(device: Device) -> None:
    """What a recorder of long ago left has no owner, no script and no messages. It is fetched without the shell's
    words."""
    device.folder().mkdir(mode=0o700)
    for name, text in {"capture-1.cap": "", "capture.side": "", "state": "0\n", "record": ""}.items():
        (device.folder() / name).write_text(text, "ascii")
    device.says(["-o", "more"], 1, ALREADY)
    device.says(["--fetch", "-o", "ownerless"], 0, *fetches("ownerless"))
    device.left_nothing()


def check_gone(device: Device) -> None:
    program = device.start("-o", "gone")
    device.wait_until_recording()
    recorder = pathlib.Path("/proc", (device.folder() / "pid").read_text("ascii").strip())
    shutil.rmtree(device.folder())
    with device.with_file("cut", ""):
        device.ends(program, 1, *PREPARED, READY, BEGUN, OFFLINE.format("gone"))
    device.wait_until("the end of the recorder", lambda: not recorder.exists())


def check_lost_early(device: Device) -> None:
    device.what = "the connection is lost in the check"
    lost = r"record: the connection to one is lost \(adb says nothing\); "
    with device.with_file("cut", "./record --check"):
        device.says(["--check"], 1, *PREPARED, lost + r"nothing was recorded, and what is left in \S+/binder-record"
                    r" there is removed by the next \S+record --adb")
    device.what = "the folder that is left"
    device.says(["--check"], 0, *PREPARED, READY)
    device.left_nothing()
    device.what = "the connection is lost at the end"
    with device.with_file("cut", "cd / && rm -rf"):
        device.says(["-o", "whole", "--", "true"], 0, *PREPARED, READY, COUNTS, FETCHING, lost + r"\S+/binder-record"
                    r" may still be there, with what was fetched; to remove it: adb -s one shell rm -r"
                    r" \S+/binder-record", FETCHED.format("whole"))
    shutil.rmtree(device.folder())


# Names that no recording makes, in the order in which they are said.
STRANGE = ("../capture-1.cap", "capture\x1b[31m", "capture-1.capx", "capture-x.side", "capture../../stranger",
           "capture.cap", "capture1")


def check_strange(device: Device) -> None:
    """A device that means harm lists files that are none."""
    digest = hashlib.sha256(b"strange\n").hexdigest()
    (device.room / "out/strange").mkdir()
    with device.with_file("names", "".join(f"8 {name}\n" for name in STRANGE)), \
            device.with_command("stat", '[ "$2" != "%s %n" ] || cat "$ADB_ROOM/names"\n' + COMMANDS["stat"]), \
            device.with_command("sha256sum", f"""sed -n "s/^8 capture/{digest}  capture/p" "$ADB_ROOM/names"
                                exec /usr/bin/sha256sum "$@" """), \
            device.with_command("cat", """case $1 in capture*) [ -e "$1" ] || { echo strange; exit; } ;; esac
                                exec /bin/cat "$@" """):
        device.says(["-o", "strange/", "--", "touch", "capture-mine", "mine"], 0, *PREPARED, READY, COUNTS,
                    r"record: one has files that no recording makes, and they are not fetched: '\.\./capture-1\.cap',"
                    r" 'capture\\x1b\[31m', 'capture-1\.capx', 'capture-mine', 'capture-x\.side' and 3 more",
                    *fetches("strange/"))
    device.fetched("strange/")
    device.must(not (device.room / "stranger").exists(), "a file was made outside of the folder")


def check_devices(device: Device) -> None:
    """Which device is recorded, and what each must have."""
    for name, text, line in (
            ("devices", "", "adb has no device; adb devices lists them"),
            ("devices", "one\tdevice\ntwo\tdevice\n", "adb has 2 devices: one, two; name one: --adb one"),
            ("devices", "one\tunauthorized\n", "one: it does not trust this computer yet: .*"),
            ("features", "cmd\n", "one: its adbd is too old: .*"),
            ("machine", "armv7l\n", "one is a armv7l, and the recorder is for x86_64 and aarch64 alone: .*")):
        with device.with_file(name, text):
            device.says([], 1, f"record: {line}")
    device.says(["two"], 1, "record: adb has no device two; it has one")
    device.says([], 1, "record: one does not allow root: .*", ADB_USER="2000")


def check_server(device: Device) -> None:
    with server_of_version_39() as port:
        device.says([], 1, "record: the server of adb that runs is of version 39, and adb is of version 41: .*",
                    ANDROID_ADB_SERVER_PORT=port)


def judge(_: argparse.Namespace, room: pathlib.Path, fail: Fail) -> None:
    device = Device(room, fail)
    for part in (check_sessions, check_words, check_named, check_bar, check_view, check_detached, check_kept,
                 check_packages, check_garbage, check_two, check_left, check_restarted, check_power, check_quoted,
                 check_interrupted, check_fetched_twice, check_lacking, check_lacking_here, check_lost, check_full,
                 check_ownerless, check_gone, check_lost_early, check_strange, check_devices, check_server):
        device.what = part.__name__
        part(device)


if __name__ == "__main__":
    check(judge)
