"""Plays `record --adb` with a guest of checks/phone: see there. Each scene says what must hold in its docstring."""

import contextlib
import os
import pathlib
import re
import signal
import socket
import sqlite3
import subprocess
import threading
import time
from typing import Callable, Iterator, NamedTuple

SERVICES = {"clock", "notes", "audio.mixer", "org.example.IPower/default", "search"}
APP = "org.example.app", "org.example.app"  # the process that is an app, and its package
FOLDER = "/data/local/tmp/binder-record"


class Ended(NamedTuple):
    """How a command ended: its status and what it said."""
    status: int
    said: str


class Setting(NamedTuple):
    """What is played with a guest: the command, the guest's ports here and that of the server of adb, the folders of
    adb, of an older one and of what comes, the guest's commands, the seconds that each thing may take, and the scenes
    that are played alone."""
    record: str
    ports: list[int]
    server: int
    adb: pathlib.Path
    older: pathlib.Path
    out: pathlib.Path
    commands: str
    limit: float
    only: list[str]


class Stage:
    """The guest and the commands of this system."""

    def __init__(self, given: Setting):
        self.given = given
        self.serials = [f"127.0.0.1:{port}" for port in given.ports]
        self.failed: list[str] = []
        self.scene = ""
        self.server: subprocess.Popen[bytes] | None = None
        self.environment = {**os.environ, "ANDROID_ADB_SERVER_PORT": str(given.server)}
        self.use(given.adb)

    # ---- adb

    def use(self, folder: pathlib.Path) -> None:
        """From here on adb is the program in this folder, with a server of its own."""
        self.end_server()
        self.environment["PATH"] = f"{folder}:{os.environ['PATH']}"
        self.server = subprocess.Popen([folder / "adb", "nodaemon", "server"], env=self.environment,
                                       stdout=subprocess.DEVNULL, stderr=subprocess.DEVNULL)
        self.wait_for("the server of adb", lambda: self.adb("devices").status == 0)

    def end_server(self) -> None:
        if self.server:
            self.server.terminate()
            self.server.wait()

    def adb(self, *words: str) -> Ended:
        ended = subprocess.run(["adb", *words], env=self.environment, stdin=subprocess.DEVNULL, encoding="utf-8",
                               stdout=subprocess.PIPE, stderr=subprocess.STDOUT, timeout=self.given.limit)
        return Ended(ended.returncode, ended.stdout)

    def connect(self, serial: str) -> None:
        def is_there() -> bool:
            self.adb("connect", serial)
            came = self.shell("echo there", serial).said.strip() == "there"
            if not came:  # adb may keep a connection that is offline
                self.adb("disconnect", serial)
            return came
        self.wait_for(f"the device {serial}", is_there)

    def disconnect(self) -> None:
        self.adb("disconnect")

    def shell(self, script: str, serial: str | None = None) -> Ended:
        return self.adb("-s", serial or self.serials[0], "shell", script)

    # ---- record and view

    def start(self, *words: str) -> subprocess.Popen[str]:
        return subprocess.Popen([self.given.record, "--adb", *words], env=self.environment, cwd=self.given.out,
                                stdin=subprocess.DEVNULL, stdout=subprocess.PIPE, stderr=subprocess.STDOUT,
                                encoding="utf-8")

    def end(self, program: subprocess.Popen[str]) -> Ended:
        said = program.communicate(timeout=self.given.limit)[0]
        for line in said.splitlines():
            print(f"    {line}", flush=True)
        return Ended(program.returncode, said)

    def record(self, *words: str) -> Ended:
        return self.end(self.start(*words))

    def view(self, name: str, *words: str) -> Ended:
        view = re.sub(r"record\Z", "view", self.given.record)
        ended = subprocess.run([view, f"{name}-1.cap", "--side", f"{name}.side", *words], cwd=self.given.out,
                               encoding="utf-8", stdin=subprocess.DEVNULL, stdout=subprocess.PIPE,
                               stderr=subprocess.STDOUT)
        return Ended(ended.returncode, ended.stdout)

    # ---- what must hold

    def wait_for(self, what: str, holds: Callable[[], bool]) -> None:
        end = time.monotonic() + self.given.limit
        while not holds():
            if time.monotonic() > end:
                raise TimeoutError(f"{what} did not come")
            time.sleep(1)

    def wait_until_recording(self) -> None:
        begun = f"cat {FOLDER}/capture.side {FOLDER}/capture-1.side 2>/dev/null | grep -c ' begin realtime='"
        self.wait_for("the recording", lambda: self.shell(begun).said.strip() == "1")

    def fail(self, what: str) -> None:
        self.failed.append(f"{self.scene}: {what}")

    def must(self, what: str, holds: bool) -> None:
        if not holds:
            self.fail(what)

    def line(self, came: Ended, status: int, *patterns: str) -> None:
        """The status, and all lines of what was said."""
        lines = came.said.strip("\n").split("\n")
        if came.status != status or len(lines) != len(patterns) or not all(map(re.fullmatch, patterns, lines)):
            self.fail(f"expected status {status} and {patterns}, came status {came.status} and {lines}")

    def nothing_left(self) -> None:
        self.must("the folder is left on the device", self.shell(f"ls {FOLDER}").status != 0)

    def good_capture(self, name: str) -> None:
        """The files are the owner's alone, and the capture is well-formed."""
        files = [it for it in self.given.out.iterdir() if it.name.startswith((f"{name}-", f"{name}."))]
        self.must(f"{name} has no files", len(files) > 1)
        self.must(f"others can read {name}", all(it.stat().st_mode & 0o777 == 0o600 for it in files))
        audit = re.sub(r"record\Z", "audit", self.given.record)
        captures = sorted(str(it) for it in files if it.suffix == ".cap")
        said = subprocess.run([audit, "first-fault", *captures], capture_output=True, encoding="utf-8").stdout
        self.must(f"first-fault of {name} says {said}", said == "no malformed record\n")


# ---- scenes

def said_of(serial: str, *devices: str) -> tuple[str, tuple[str, str], str, str, str, str, str]:
    """What `record` says of one with such a serial, which has these devices: from the first line of a recording to the
    last one, in which is the start of the files' names. The side list of a flight recorder has a number."""
    putting = rf"record: putting the recorder \(\d\.\d MB\) on {serial}"
    return (putting, (putting, f"record: loading it into the kernel of {serial}"),
            rf"record: {serial}: ready: kernel \S+, driver in C, {' '.join(('devices', *devices))}",
            f"record: {serial}: recording; Ctrl-C ends it, and fetches the files",
            f"record: ending the recording on {serial}", rf"record: fetching \d+ files, \d+\.\d MB, from {serial}",
            rf"record: \d+ files, \d+ bytes fetched from {serial}; next: \S+view {{0}}-1\.cap --side {{0}}(-1)?\.side")


PUTTING, PREPARED, READY, BEGUN, ENDING, FETCHING, FETCHED = said_of(
    r"127\.0\.0\.1:\d+", "binder", "hwbinder", "vndbinder")
COUNTS = r"record: \d+ frames, 0 lost; 1 file, \d+ bytes"
NOTHING = r"record: nothing was recorded on 127\.0\.0\.1:\d+"
LOST = (r"record: the connection to 127\.\S+ (is lost \(.*\)|has ended); (when 127\.\S+ is back, this fetches what was"
        r" recorded there|127\.\S+ still records; to end that, and fetch it|what was recorded stays in /data/local/tmp/"
        r"binder-record of 127\.\S+; to fetch it): \S+record --adb 127\.\S+ --fetch -o {0}")


def no_device(stage: Stage) -> None:
    """No device, and no device of that serial, are said."""
    stage.disconnect()
    stage.line(stage.record(), 1, "record: adb has no device; adb devices lists them")
    stage.connect(stage.serials[0])
    stage.line(stage.record("another"), 1, r"record: adb has no device another; it has 127\.0\.0\.1:\d+")


def two_devices(stage: Stage) -> None:
    """With two devices, one must be named."""
    stage.connect(stage.serials[1])
    stage.line(stage.record(), 1, r"record: adb has 2 devices: 127\.\S+, 127\.\S+; name one: --adb 127\.\S+")


@contextlib.contextmanager
def server_of_version_39() -> Iterator[str]:
    """The port of a server of adb that tells an older version."""
    with socket.create_server(("127.0.0.1", 0)) as server:
        def answer() -> None:
            connection, _ = server.accept()
            connection.recv(16)
            connection.sendall(b"OKAY00040027")
            connection.close()
        threading.Thread(target=answer, daemon=True).start()
        yield str(server.getsockname()[1])


def other_version(stage: Stage) -> None:
    """A server of another version is not ended."""
    with server_of_version_39() as stage.environment["ANDROID_ADB_SERVER_PORT"]:
        came = stage.record()
    stage.environment["ANDROID_ADB_SERVER_PORT"] = str(stage.given.server)
    stage.line(came, 1, "record: the server of adb that runs is of version 39, and adb is of version 41: it would end"
               " that server, and what others do with it; if nobody does: adb kill-server")


def no_root(stage: Stage) -> None:
    """Where nobody can be root, that is said."""
    stage.connect(stage.serials[1])
    stage.line(stage.record(stage.serials[1]), 1, r"record: 127\.\S+ does not allow root: adb root is refused, as by"
               " builds for users, and no su makes this user root")


def by_su(stage: Stage) -> None:
    """Another user records by su, and PROGRAM is root's."""
    stage.connect(stage.serials[2])
    came = stage.record(stage.serials[2], "-o", "su", "--", "sh", "-c", "sleep 3; id -u; exit 7")
    stage.line(came, 7, *PREPARED, READY, "0", COUNTS, FETCHING, FETCHED.format("su"))
    stage.good_capture("su")


def other_machine(stage: Stage) -> None:
    """A machine without a recorder is said."""
    stage.connect(stage.serials[3])
    stage.line(stage.record(stage.serials[3]), 1, r"record: 127\.\S+ is a armv7l, and the recorder is for x86_64 and"
               " aarch64 alone: kernels of 32 bits are not recorded")


@contextlib.contextmanager
def mounted(stage: Stage, folder: str, size: str) -> Iterator[None]:
    stage.shell(f"mount -t tmpfs -o size={size} none {folder}")
    try:
        yield
    finally:
        stage.shell(f"umount {folder}")


def no_btf(stage: Stage) -> None:
    """What the device lacks is passed on: here that the kernel has no BTF."""
    with mounted(stage, "/sys/kernel/btf", "4k"):
        stage.line(stage.record(stage.serials[0]), 1, *PREPARED, "record: /sys/kernel/btf/vmlinux is not there: a"
                   " kernel with CONFIG_DEBUG_INFO_BTF is needed, and sysfs", NOTHING)
    stage.nothing_left()


def no_bpf(stage: Stage) -> None:
    """Where a policy lets root not use bpf, that is said, and the kernel's log has the denial."""
    for serial, domain in (stage.serials[0], "u:r:su"), (stage.serials[4], "u:r:shell"):
        stage.connect(serial)
        said = stage.shell("id -u; cat /sys/fs/selinux/enforce; echo; cat /proc/self/attr/current", serial).said
        stage.must(f"user, enforcing and domain are {said}", said.strip("\0\n").split() == ["0", "1", domain])
    stage.line(stage.record(stage.serials[4]), 1, *PREPARED, r"record: the kernel does not let this process load the"
               r" recorder's program.*", NOTHING)
    denied = re.compile(r"denied +\{ (map_create|prog_load) \}.*u:r:shell")
    stage.must("the log has no denial", denied.search(stage.shell("dmesg").said) is not None)
    stage.nothing_left()


def services_named(stage: Stage, name: str) -> set[str]:
    database = stage.given.out / f"{name}.db"
    stage.view(name, "--database", str(database))
    with contextlib.closing(sqlite3.connect(database)) as opened:
        return {row[0] for row in opened.execute("SELECT service FROM node_service WHERE service NOTNULL")}


def packages_in(stage: Stage, name: str) -> set[tuple[str, str]]:
    """The processes of users with a package, and that, by the database that `services_named` made."""
    with contextlib.closing(sqlite3.connect(stage.given.out / f"{name}.db")) as opened:
        return set(opened.execute("SELECT p.name, g.name FROM process p JOIN package g USING (uid)"))


def interrupted(stage: Stage, name: str, *words: str) -> None:
    """Records for some seconds in the middle of the life of the system, and ends it as Ctrl-C does."""
    recording = stage.start(stage.serials[0], "-o", name, *words)
    stage.wait_until_recording()
    time.sleep(15)
    recording.send_signal(signal.SIGINT)
    stage.line(stage.end(recording), 0, *PREPARED, READY, BEGUN, ENDING, COUNTS, FETCHING, FETCHED.format(name))
    stage.good_capture(name)
    stage.nothing_left()


def session(stage: Stage) -> None:
    """A page of a session that began in mid-life has the names of all services, the package of the app, and the
    leak."""
    interrupted(stage, "session")
    stage.must("not all services have names", services_named(stage, "session") == SERVICES)
    packages = packages_in(stage, "session")
    stage.must(f"the packages are {packages}", packages == {APP})
    groups = stage.view("session", "--groups").said
    stage.must(f"the leak has no group: {groups}", re.search(r"never freed.*\bcode 2\b.*\bnotes\b", groups) is not None)


def no_names(stage: Stage) -> None:
    """With --no-names nothing is asked, and no service has a name, and no user a package."""
    interrupted(stage, "unnamed", "--no-names")
    stage.must("services have names", services_named(stage, "unnamed") == set())
    stage.must("users have packages", packages_in(stage, "unnamed") == set())


def older_adb(stage: Stage) -> None:
    """The same session with the adb of Debian 12."""
    stage.use(stage.given.older)
    try:
        stage.connect(stage.serials[0])
        interrupted(stage, "older")
        stage.must("not all services have names", services_named(stage, "older") == SERVICES)
    finally:
        stage.use(stage.given.adb)


def end_adbd(stage: Stage) -> None:
    """As when the cable comes off: what holds the connection ends."""
    stage.shell("kill -9 $(cat /run/adbd-5555)")


def cable(stage: Stage) -> None:
    """When the connection is lost, the recording ends, stays on the device, and can be fetched."""
    recording = stage.start(stage.serials[0], "-o", "cable")
    stage.wait_until_recording()
    time.sleep(5)
    end_adbd(stage)
    stage.line(stage.end(recording), 1, *PREPARED, READY, BEGUN, LOST.format("cable"))
    stage.connect(stage.serials[0])
    again = stage.record(stage.serials[0], "-o", "again")
    stage.line(again, 1, r"record: 127\.\S+ has a recording in /data/local/tmp/binder-record already; to fetch it:"
               r" \S+record --adb 127\.\S+ --fetch -o again")
    stage.line(stage.record(stage.serials[0], "--fetch", "-o", "cable"), 0, COUNTS, FETCHING, FETCHED.format("cable"))
    stage.good_capture("cable")
    stage.nothing_left()


def detached(stage: Stage) -> None:
    """A flight recording goes on when adbd ends, until it is fetched."""
    stage.line(stage.record(stage.serials[0], "--detach", "--size", "65536", "-o", "flight"), 0, *PREPARED, READY,
               r"record: 127\.\S+ records, also without the connection; to end that, and fetch it: \S+record --adb"
               r" 127\.\S+ --fetch -o flight")
    time.sleep(5)
    end_adbd(stage)
    stage.connect(stage.serials[0])
    before = stage.shell(f"cat {FOLDER}/capture-*.side | grep -c ' frames '").said
    time.sleep(10)
    after = stage.shell(f"cat {FOLDER}/capture-*.side | grep -c ' frames '").said
    stage.must(f"it does not go on: {before} and {after}", before != after)
    came = stage.record(stage.serials[0], "--fetch", "-o", "flight")
    stage.line(came, 0, ENDING, r"record: \d+ frames, 0 lost; .*", FETCHING,
               r"record: \d+ files, .*; next: \S+view flight-\d+\.cap .*")
    command = came.said.rpartition("next: ")[2].split()
    said = subprocess.run([*command, "--groups"], cwd=stage.given.out, capture_output=True, encoding="utf-8")
    stage.must(f"the command that is next: {said.stderr}", said.returncode == 0 and "never freed" in said.stdout)
    stage.nothing_left()


def kept(stage: Stage) -> None:
    """A flight recording keeps a set when a call hangs, while adb is away. --keep fetches it and one of now, and the
    recording goes on. The page of the set begins with the call."""
    stage.line(stage.record(stage.serials[0], "--detach", "--size", "1048576", "--keep-on", "hang:5s", "-o", "day"), 0,
               *PREPARED, READY, r"record: 127\.\S+ records, also without the connection; .*")
    stage.shell("(sleep 2; exec /system-programs/system hang) </dev/null >/dev/null 2>&1 &")
    end_adbd(stage)
    stage.connect(stage.serials[0])
    stage.wait_for("a set", lambda: stage.shell(f"ls -d {FOLDER}/capture.kept-*").status == 0)
    came = stage.record(stage.serials[0], "--keep", "-o", "day")
    fetched = r"record: a set that was kept on 127\.\S+, \d+ files, .*; next: \S+view day\.kept-\S+/day-.*"
    stage.line(came, 0, fetched, fetched, r"record: 127\.\S+ still records; .*")
    command = came.said.partition("next: ")[2].split("\n")[0].split()
    said = subprocess.run([*command, "--groups"], cwd=stage.given.out, capture_output=True, encoding="utf-8")
    stage.must(f"the page of the set begins with {said.stdout[:300]} {said.stderr}",
               re.match(r"kept\thang\t.*IClock code 3 .* has been open for 5\.\d s\tsystem\t", said.stdout) is not None)
    came = stage.record(stage.serials[0], "--fetch", "-o", "day")
    stage.must("frames are lost, or it was not fetched", came.status == 0 and " frames, 0 lost; " in came.said)
    stage.nothing_left()


def full_device(stage: Stage, name: str, *program: str) -> None:
    """The recording ends with the last whole frame, and is fetched, and so is what is said of that."""
    said = (r"record: capture\S*: No space left on device; the recording ends after number \d+",
            r"record: \d+ frames, \d+ lost.*; 1 file, \d+ bytes",
            r"record: 127\.\S+ is full, with \d+ bytes free in \S+: the recording ends early")
    with mounted(stage, "/data/local/tmp", "12m"):
        came = stage.record(stage.serials[0], "-o", name, "--", *program)
        stage.must("the status is not 1", came.status == 1)
        for line in said:
            stage.must(f"nobody says {line}", re.search(f"^{line}$", came.said, re.MULTILINE) is not None)
        stage.good_capture(name)
        stage.nothing_left()


FILL = f"/system-programs/system fill {FOLDER}"


def full(stage: Stage) -> None:
    """A recording that fills the device."""
    full_device(stage, "full", *FILL.split())


def no_byte(stage: Stage) -> None:
    """Another program has filled the device, so that not a byte is free."""
    full_device(stage, "no-byte", "sh", "-c", f"cat /dev/zero >/data/local/tmp/zeros; {FILL}")


def no_room(stage: Stage) -> None:
    """On a device without room for the recorder that is said."""
    with mounted(stage, "/data/local/tmp", "600k"):
        stage.line(stage.record(stage.serials[0]), 1, PUTTING, r"record: record can't be put into \S+ of 127\.\S+,"
                   r" which has \d+ bytes free: .*")
        stage.nothing_left()


def fetched_wrong(stage: Stage) -> None:
    """What can't be written here stays on the device."""
    space = r"record: the files that are kept, .* can take \d+ bytes, and \. has \d+ free"
    stage.line(stage.record(stage.serials[0], "--detach", "-o", "wrong"), 0, *PREPARED, space, READY,
               r"record: 127\.\S+ records, also without the connection; .*")
    came = stage.record(stage.serials[0], "--fetch", "-o", "/dev/full/wrong")
    stage.line(came, 1, "record: /dev/full is not a folder in which files can be made")
    (stage.given.out / "wrong-1.cap").touch()
    stage.line(stage.record(stage.serials[0], "--fetch", "-o", "wrong"), 1,
               "record: wrong-1.cap exists already, and is not overwritten")
    stage.line(stage.record(stage.serials[0], "--fetch", "-o", "right"), 0, ENDING, r"record: \d+ frames, 0 lost; .*",
               FETCHING, r"record: \d+ files, .*")
    stage.nothing_left()


# The order in which they are played; those of OTHERS only if they are named.
SCENES = [no_device, two_devices, other_version, no_root, by_su, other_machine, no_btf, session, no_names, cable,
          detached, kept, full, no_byte, no_room, fetched_wrong, older_adb]
OTHERS = [no_bpf]
# These need commands of a folder of their own, in place of which the shell of busybox takes those that it has itself.
NOT_OF_BUSYBOX = [by_su, other_machine]


def play(given: Setting) -> list[str]:
    """Plays the scenes with a guest, and returns what is not as it must be."""
    stage = Stage(given)
    try:
        for scene in SCENES + OTHERS:
            if scene.__name__ not in (given.only or [it.__name__ for it in SCENES]):
                continue
            if given.commands == "busybox" and scene in NOT_OF_BUSYBOX:
                continue
            stage.scene = scene.__name__
            began = time.monotonic()
            print(f"  {stage.scene}", flush=True)
            try:
                stage.connect(stage.serials[0])
                scene(stage)
            except (TimeoutError, subprocess.TimeoutExpired, OSError, sqlite3.Error) as error:
                stage.fail(f"{type(error).__name__}: {error}")
            print(f"  {stage.scene}: {time.monotonic() - began:.0f} s", flush=True)
    finally:
        stage.end_server()
    return stage.failed
