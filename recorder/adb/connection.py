"""A device, by the program `adb` of this system: what is asked of it, and when the connection to it is lost."""

import os
import re
import shlex
import shutil
import socket
import subprocess
from typing import Callable, NamedTuple

from viewer.files import quoted


class Stopped(Exception):
    """Ends the command with a line that says why."""

    def __init__(self, line: str, status: int = 1):
        super().__init__(line)
        self.status = status


class Nothing(Stopped):
    """The same, when the device has no recording."""


class Lost(Exception):
    """The connection is lost: adb does not reach the device any more. Its line names the device, and has what adb
    said."""


ANSWERED = re.compile(rb"(.*)\n?answered (\d{1,3})\n\Z", re.DOTALL)
PORT = int(os.environ.get("ANDROID_ADB_SERVER_PORT", "5037"))


def command_line(*words: str) -> str:
    """A command that is told, to be copied into a shell here."""
    return " ".join(map(quoted, words))


def on_device(serial: str, *words: str) -> str:
    """The same by the shell of a device, which reads its words once more."""
    return command_line("adb", "-s", serial, "shell", *map(shlex.quote, words))


def run_adb(*words: str) -> subprocess.CompletedProcess[bytes]:
    return subprocess.run(["adb", *words], stdin=subprocess.DEVNULL, capture_output=True)


def last_line(data: bytes) -> str:
    lines = data.decode(errors="replace").split("\n")
    return next((line.strip() for line in reversed(lines) if line.strip()), "")


# ---- the server of adb


def version_of_server() -> int | None:
    """The version of the server that runs; None if none does."""
    try:
        with socket.create_connection(("127.0.0.1", PORT), 10) as connection:
            connection.sendall(b"000chost:version")
            answer = connection.makefile("rb").read(12)
    except OSError:
        return None
    return int(answer[8:], 16) if re.fullmatch(rb"OKAY0004[0-9a-f]{4}", answer) else None


def need_adb() -> None:
    """A client ends a server of another version, and with it what others do by that one, for example a recording."""
    if not shutil.which("adb"):
        raise Stopped("adb is missing; to install it: apt-get install adb")
    found = re.search(rb"version 1\.0\.(\d+)", run_adb("version").stdout)
    server = version_of_server()
    if found and server is not None and server != int(found[1]):
        raise Stopped(f"the server of adb that runs is of version {server}, and adb is of version {int(found[1])}: it"
                      " would end that server, and what others do with it; if nobody does: adb kill-server")


# ---- devices


def devices() -> dict[str, str]:
    """All devices that adb has, with their states."""
    listed = run_adb("devices")
    if listed.returncode:
        raise Stopped(f"adb: {last_line(listed.stderr)}")
    lines = listed.stdout.decode(errors="replace").partition("List of devices attached")[2].splitlines()
    return dict(line.split("\t", 1) for line in lines if "\t" in line)


STATES = {"unauthorized": "it does not trust this computer yet: allow it on the screen of the device",
          "offline": "it is offline: plug it in again, or adb reconnect offline",
          "no permissions": "this user may not open it: udev needs a rule for it"}


def the_device(serial: str | None) -> str:
    """The device of this serial, or the only one."""
    found = devices()
    serial = serial or os.environ.get("ANDROID_SERIAL")
    if not serial:
        if not found:
            raise Stopped("adb has no device; adb devices lists them")
        if len(found) > 1:
            raise Stopped(f"adb has {len(found)} devices: {', '.join(found)}; name one: --adb"
                          f" {quoted(next(iter(found)))}")
        serial = next(iter(found))
    if serial not in found:
        has = f"it has {', '.join(found)}" if found else "it has none"
        raise Stopped(f"adb has no device {serial}; {has}")
    state = found[serial]
    if state != "device":
        why = next((why for begin, why in STATES.items() if state.startswith(begin)), f"it is in the state {state}")
        raise Stopped(f"{serial}: {why}")
    need_status(serial)
    return serial


def need_status(serial: str) -> None:
    """An old adbd passes on neither the status of a command nor its standard error."""
    features = run_adb("-s", serial, "features")
    if features.returncode == 0 and b"shell_v2" not in features.stdout.split():
        raise Stopped(f"{serial}: its adbd is too old: it has no shell_v2, with which a command's status comes")


class Answer(NamedTuple):
    """What a script on the device wrote to standard output and to standard error, and its status."""

    text: str
    status: int
    errors: bytes

    @property
    def said(self) -> str:
        return last_line(self.errors)


class Connection:
    """To one device. `by`: how a script is run as root."""

    def __init__(self, serial: str):
        self.serial = serial
        self.by: Callable[[str], str] = str

    def words(self, script: str) -> list[str]:
        """Without a terminal of the device, which would change what is sent."""
        return ["adb", "-s", self.serial, "shell", "-T", self.by(script)]

    def ask(self, script: str, data: bytes = b"") -> Answer:
        """Runs a script on the device. Its end shows that the connection holds: adb has the same status for both."""
        ended = subprocess.run(self.words(f"({script}\n); echo answered $?"), input=data, capture_output=True)
        answered = ANSWERED.fullmatch(ended.stdout)
        if not answered:
            why = last_line(ended.stderr) or last_line(ended.stdout) or "adb says nothing"
            raise Lost(f"the connection to {self.serial} is lost ({why})")
        return Answer(answered[1].decode(errors="replace"), int(answered[2]), ended.stderr)
