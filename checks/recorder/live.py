"""Checks `record --live`: what it shows on a terminal, and what it writes through a pipe.

    checks/run live

What must hold:

- A table shows a call that hangs, with the thread that has it, what this one waits for, and the call of that; a call
  that nobody has; the threads in use, the oneways that wait and the calls a second, all in the columns of the screen,
  be it 80 or 200 wide. It stays in place, and follows the size of the terminal, also a very small one.
- Keys sort, filter and quit. The terminal is as before then, with what was said meanwhile, and the status is that of
  the recording.
- Of a flood as many rows are shown as have room, and how many there are.
- A name with control characters, with bytes that are no UTF-8, with marks that turn or join others, or a very long
  one, is shown by signs alone, and changes nothing else on the screen.
- Through a pipe each second has its lines. `--methods` names methods in both. A reader that stalls loses seconds, and
  no frame.
- Over adb it is the same: the device's recorder sends the lines, and they are drawn here.

The terminal is tmux's, and the driver is made up (scene.c); so is adb. It takes some 40 seconds.
"""

import argparse
import itertools
import os
import pathlib
import re
import shlex
import shutil
import subprocess
import time

from checks.kit.checking import Fail, check
from checks.kit.programs import ROOT
from checks.recorder.adb import Device

LIMIT = 40  # seconds, for a machine with much other work
METHODS = "com.example.IFlood\t1\tdrown\t-\nandroid.hardware.ICamera\t3\topen\t-\n"
# What nothing on a screen may be: all that is no sign of ASCII, but for the one that shortens.
STRANGE = re.compile("[^ -~\n…]")


class Terminal:
    """A terminal of tmux, in which a command runs until it ends.

    Each has a server of its own, because a server that was told to end still takes a session, and it ends with it.
    """

    numbers = itertools.count()

    def __init__(self, room: pathlib.Path, width: int, height: int, words: list[str], environment: dict[str, str]):
        self.room, self.environment = room, {**os.environ, "TMUX_TMPDIR": str(room), "LC_ALL": "C.UTF-8"}
        self.server = f"checks{next(self.numbers)}"
        self.environment.pop("TMUX", None)
        line = shlex.join(["env", *(f"{name}={value}" for name, value in environment.items()), *words])
        (room / "run").write_text(f"trap : INT\n{line}\nstatus=$?\necho\necho ended with $status\nsleep 600\n", "utf-8")
        self.tmux("-f", "/dev/null", "new-session", "-d", "-x", str(width), "-y", str(height), "-c", str(room / "out"),
                  shlex.join(["bash", str(room / "run")]))

    def tmux(self, *words: str) -> str:
        done = subprocess.run(["tmux", "-L", self.server, *words], env=self.environment, capture_output=True,
                              encoding="utf-8", errors="replace", check=False)
        if done.returncode:
            raise RuntimeError(f"tmux {words}: status {done.returncode}, said {done.stderr!r}")
        return done.stdout

    def shown(self) -> str:
        return self.tmux("capture-pane", "-p")

    def resize(self, width: int, height: int) -> None:
        self.tmux("resize-window", "-x", str(width), "-y", str(height))

    def press(self, *keys: str) -> None:
        for key in keys:
            self.tmux("send-keys", key)

    def wait_for(self, *patterns: str) -> str:
        """What is shown, as soon as a line of it fits each pattern, or the time is over."""
        end = time.monotonic() + LIMIT
        while True:
            shown = self.shown()
            if all(re.search(pattern, shown, re.MULTILINE) for pattern in patterns) or time.monotonic() > end:
                return shown
            time.sleep(0.2)

    def __enter__(self) -> "Terminal":
        return self

    def __exit__(self, *_: object) -> None:
        self.tmux("kill-server")


class Stage:
    """The script `record`, with a recorder whose driver is made up."""

    def __init__(self, room: pathlib.Path, fail: Fail):
        self.fail = fail
        self.device = Device(room, fail)
        self.room = room
        for folder in "recorder/live", "viewer/methods":
            shutil.copytree(ROOT / folder, room / folder,
                            ignore=lambda _, names: [name for name in names if not name.endswith(".py")])
        (room / "methods").write_text(METHODS, "utf-8")

    def words(self, name: str, *words: str) -> list[str]:
        return [str(self.room / "record"), *words, "-o", f"{self.room}/out/{name}"]

    def terminal(self, name: str, scene: str, width: int, height: int, *words: str) -> Terminal:
        environment = {"SCENE": scene}
        if "--adb" in words:
            environment |= {key: self.device.environment[key]
                            for key in ("ADB_ROOM", "PATH", "ANDROID_ADB_SERVER_PORT")}
        return Terminal(self.room, width, height, self.words(name, *words), environment)

    def must_show(self, what: str, terminal: Terminal, *patterns: str) -> str:
        """What is shown when a line of it fits each pattern."""
        shown = terminal.wait_for(*patterns)
        for pattern in patterns:
            if not re.search(pattern, shown, re.MULTILINE):
                self.fail(f"{what}: nothing fits {pattern!r} in\n{shown}")
        return shown

    def must_fit(self, what: str, shown: str, width: int, height: int) -> None:
        """Nothing is wider or higher than the screen, and no sign is strange: the keys are in the last line."""
        lines = shown.rstrip("\n").split("\n")
        if len(lines) > height or max(map(len, lines)) > width or STRANGE.search(shown):
            self.fail(f"{what}: it does not fit {width} by {height}, or has other signs:\n{shown}")
        if not lines[-1].startswith("s sort  / filter  k keep  q quit"[:width].rstrip()):
            self.fail(f"{what}: the last line is {lines[-1]!r}")


# ---- on a terminal

HUNG = (r"^ *\d+\.\d  com\.example\.app 2000 main 2000 +ICamera\.open +cameraserver 3000 Binder:3000_1 3001 +answer to"
        r" ICameraDevice code 5$",
        r"^ *\d+\.\d  cameraserver 3000 Binder:3000_1 3001 +ICameraDevice code 5 +camera-hal 5000 hal 5001 +\S+$",
        r"^ *\d+\.\d  com\.example\.app 2000 second 2001 +ICamera code 4 +nobody: 2 of 2 serve, cameraserver 3000 +a"
        " thread$",
        r"^2 of 2 +1 +\d+\.\d s  cameraserver 3000$", r"^1 of 1 +\d+\.\d s  camera-hal 5000$",
        r"^ +3 +216  cameraserver 3000$")
NARROW = (r"^ *\d+\.\d  com\.exa\S* 2000  ICamera\.open +camerase\S* 3001 +answer$",
          r"^ *\d+\.\d  cameras\S* 3001  ICamera\S* code 5 +camera-hal 5001 +\S+$",
          r"^ *\d+\.\d  com\.exa\S* 2001  ICamera code 4 +nobody: … 2 serve  a thread$",
          r"^2 of 2 +1 +\d+\.\d s  cameraserver 3000$", r"^ +3 +216  cameraserver 3000$")


def check_hang(stage: Stage) -> None:
    """Wide, narrow, very small and wide again: the whole of what hangs, with a quit at the end."""
    with stage.terminal("hang", "hang", 200, 40, "--live", "--methods", f"{stage.room}/methods") as terminal:
        shown = stage.must_show("a hang at 200 columns", terminal, *HUNG, r"^\d\d:\d\d:\d\d UTC  \d+ calls  \d+ oneways"
                                " a second  0 lost")
        stage.must_fit("a hang at 200 columns", shown, 200, 40)
        for width, height in (80, 24), (20, 6), (80, 24):
            terminal.resize(width, height)
            stage.must_show(f"a hang at {width} columns", terminal, "^s sort", *(NARROW if width == 80 else ()))
            time.sleep(0.5)
            stage.must_fit(f"a hang at {width} columns", terminal.shown(), width, height)
        terminal.press("k")
        stage.must_show("a key", terminal, r"only what --files records can be kept$")
        terminal.resize(200, 40)
        stage.must_show("a hang at 200 columns again", terminal, *HUNG)
        terminal.press("q")
        shown = stage.must_show("after a quit", terminal, r"^record: \d+ frames, 0 lost; 1 file, \d+ bytes; next: ",
                                "^ended with 0$")
        if "sort" in shown:
            stage.fail(f"after a quit the table is still there:\n{shown}")


def check_flood(stage: Stage) -> None:
    """As many rows as have room, in the order that is asked for, and those that are asked for."""
    with stage.terminal("flood", "flood", 80, 24, "--live") as terminal:
        shown = stage.must_show("a flood", terminal, r"^calls and oneways by calls \(20 of 61\)$",
                                r"^ +\d+ +[\d,]+  caller-00 7000  flooded 6000  IFlood code 20 \(oneway\)$")
        stage.must_fit("a flood", shown, 80, 24)
        found = re.search(r"UTC  ([\d,]+) calls", shown)
        if not found or int(found[1].replace(",", "")) < 100:
            stage.fail(f"a flood has few calls:\n{shown}")
        terminal.press("s", "s", "s", "s")
        stage.must_show("a flood, sorted", terminal, r"^calls and oneways by method \(",
                        r"\n +\d+ +[\d,]+  caller-00 7000  flooded 6000  IFlood code 1\n +\d+ +[\d,]+  caller-07")
        terminal.press("/", "-", "4", "2", "Enter")
        stage.must_show("a flood, filtered", terminal, r"q quit  filter: -42$",
                        r"^calls and oneways by method\n.*\n +\d+ +[\d,]+  caller-42 7042  flooded 6000  IFlood"
                        r" code 1\n\n")
        terminal.press("/", "Escape")
        terminal.wait_for("by method \\(")
        terminal.press("C-c")
        stage.must_show("after Ctrl-C", terminal, "^ended with 0$", r"^record: \d+ frames, 0 lost")


def check_hostile(stage: Stage) -> None:
    """Names that would clear the screen, color it, turn it or take it all."""
    for width in 80, 200:
        with stage.terminal(f"hostile-{width}", "hang,hostile,disturbs", width, 30, "--live") as terminal:
            shown = stage.must_show(f"hostile names at {width}", terminal,
                                    r"^ +\d+\.\d  \\x1b\[.*…\S* 400\d .*IHostile",
                                    r"^ +\d+ +\d+  \\x1b\[31\S*…\S* 4000 +\\x1b\[31\S*…\S* 4000 +IHostile code 1$",
                                    "IHostile code 2", "cameraserver 3000$")
            stage.must_fit(f"hostile names at {width}", shown, width, 30)
            title = terminal.tmux("display-message", "-p", "#{pane_title}")
            if title.rstrip("\n") == "no":
                stage.fail(f"a name has set the title: {title!r}")
            terminal.press("q")
            terminal.wait_for("^ended with")


# ---- through a pipe


def lines_until(stage: Stage, name: str, scene: str, last: str, *words: str) -> list[str]:
    """The lines of the second whose last one fits."""
    lines: list[str] = []
    with subprocess.Popen(stage.words(name, *words), env={**os.environ, "SCENE": scene}, stdin=subprocess.DEVNULL,
                          stdout=subprocess.PIPE, stderr=subprocess.PIPE, encoding="ascii") as program:
        assert program.stdout
        for line in program.stdout:
            lines = [line.rstrip("\n")] if line.startswith("live") else [*lines, line.rstrip("\n")]
            if re.match(last, line):
                break
        program.terminate()
        said = program.communicate()[1]
    if program.returncode or not re.fullmatch(r"record: \d+ frames, 0 lost; \d files?, \d+ bytes; next: .*\n", said):
        stage.fail(f"{name}: status {program.returncode}, said {said!r}")
    return lines


PIPED = [r"live \d+ time=\d+\.\d{3} seconds=\d+\.\d{3} calls=\d+ oneways=\d+ answers=\d+ refused=\d+ frames=\d+ lost=0"
         r" lost-in-all=0 bytes=\d+ reach=- unknown-oneways=0 unknown-bytes=0 left-out=0",
         r"open seconds=\d\.\d from=2000 thread=2000 handle=7 code=3 interface=ICamera from-name=com\.example\.app"
         r" thread-name=main in=3000 in-thread=3001 waits=answer in-name=cameraserver in-thread-name=Binder:3000_1{}",
         r"open seconds=\d\.\d from=3000 thread=3001 .* in=5000 in-thread=5001 waits=\S+ in-name=camera-hal .*",
         r"open seconds=\d\.\d from=2000 thread=2001 .* for=3000 for-name=cameraserver",
         r"open seconds=\d\.\d from=4000 thread=4000 .* from-name=\\x1b\[31m\\xe2\\x80\\xae\\xff\S*"
         r" thread-name=\\x1b\[2J\S*",
         r"pool process=3000 serving=2 of=2 waiting=1 full=\d\.\d name=cameraserver",
         r"pool process=5000 serving=1 of=1 waiting=0 full=\d\.\d name=camera-hal",
         r"async process=3000 n=3 bytes=216 name=cameraserver", r"end \d+ rates=\d+ open=4 pools=2 async=1"]


def check_piped(stage: Stage) -> None:
    for words, method in ([], ""), (["--methods", f"{stage.room}/methods"], " method=open"):
        name = f"piped{len(words)}"
        lines = lines_until(stage, name, "hang,hostile", "end .* open=4", "--live", *words)
        own = [line for line in lines if not line.startswith(("call ", "oneway "))]
        if len(own) != len(PIPED) or not all(re.fullmatch(due.replace("{}", method), line)
                                             for due, line in zip(PIPED, own)):
            stage.fail(f"{name}: expected {PIPED}, came {own}")


def check_stalled(stage: Stage) -> None:
    """Nobody reads for some seconds: what is left out then is said, and no frame is lost."""
    left_out = False
    with subprocess.Popen([stage.room / "flight", "--live", "-o", stage.room / "out/stalled"], stdout=subprocess.PIPE,
                          env={**os.environ, "SCENE": "flood"}, stderr=subprocess.PIPE, encoding="utf-8") as program:
        assert program.stdout
        end = time.monotonic() + LIMIT
        time.sleep(12)
        for line in program.stdout:
            left_out |= re.match("live .* left-out=[1-9]", line) is not None
            if left_out or time.monotonic() > end:
                break
        program.terminate()
        said = program.communicate()[1]
    if not left_out or program.returncode or not re.match(r"record: \d+ frames, 0 lost;", said):
        stage.fail(f"stalled: status {program.returncode}, said {said!r}, was something left out: {left_out}")


# ---- over adb


def check_adb_piped(stage: Stage) -> None:
    """Through a pipe come the lines, and a table of methods that is none leaves nothing on the device."""
    device = stage.device
    for table, status, out, said in ("methods", 0, PIPED[1].replace("{}", " method=open"), r"record: \d+ files, .*"), \
            ("record", 64, "", r"record: \S+:1: not interface, code, method and source, separated by tabs"):
        words = ["--adb", "--live", "--methods", stage.room / table, "-o", f"lines-{table}", "--", "sleep", "4"]
        ended = subprocess.run([stage.room / "record", *words], cwd=stage.room / "out", stdin=subprocess.DEVNULL,
                               env={**device.environment, "SCENE": "hang"}, capture_output=True, encoding="utf-8")
        if ended.returncode != status or not re.search(f"^{out}$", ended.stdout, re.MULTILINE) \
                or not re.fullmatch(said, ended.stderr.rstrip("\n").split("\n")[-1]):
            stage.fail(f"lines over adb with {table}: {ended}")
        device.what = f"lines over adb with {table}"
        device.left_nothing()


def check_adb(stage: Stage) -> None:
    words = "--adb", "--live", "--methods", f"{stage.room}/methods"
    with stage.terminal("phone", "hang", 200, 40, *words) as terminal:
        stage.must_fit("over adb", stage.must_show("over adb", terminal, *HUNG), 200, 40)
        terminal.press("q")
        stage.must_show("after a quit over adb", terminal, "^ended with 0$", "^record: ending the recording on one$",
                        r"^record: \d+ frames, 0 lost; 1 file, \d+ bytes$", "^record: fetching 8 files, ",
                        "^record: 8 files, .* fetched from one; next: ")
    stage.device.what = "live over adb"
    stage.device.left_nothing()


def judge(_: argparse.Namespace, room: pathlib.Path, fail: Fail) -> None:
    stage = Stage(room, fail)
    for part in check_hang, check_flood, check_hostile, check_piped, check_stalled, check_adb, check_adb_piped:
        part(stage)


if __name__ == "__main__":
    check(judge)
