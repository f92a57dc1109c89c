"""The folder of a recording on the device, which one command at a time has.

`mkdir` is the lock: the command that makes the folder has it. The file `owner` in it says in a line which command that
is, and when that was. So another one can tell a folder in use from one that a killed command left; and whatever is done
in the folder is done only while its line is there, so that no command works in the folder of another one.
"""

import os
import pathlib
import re
import shlex
import socket
from typing import NamedTuple

from connection import Answer, Connection, Nothing, Stopped, on_device

NAME = "binder-record"
GONE = 98  # the status of a script whose folder is gone, which no script has otherwise
OLDEST = 600  # seconds within which a command that lives has put the recorder there, also by a slow network

# The device's time, as the file `owner` has it: its clock may be set meanwhile, so since which start, and for how long.
NOW = 'read -r up _ </proc/uptime; now="$(cat /proc/sys/kernel/random/boot_id) ${up%.*}"'


class Gone(Nothing):
    """Ends a command whose folder is not there any more, or is another one's."""


# ---- what is done in it


class Folder(NamedTuple):
    """The folder, with its owner's line. It is root's alone."""

    connection: Connection
    path: str
    owner: str = ""

    @property
    def serial(self) -> str:
        return self.connection.serial

    def inside(self, script: str) -> str:
        """The script in the folder, as long as that is its owner's."""
        return (f"umask 077; cd {shlex.quote(self.path)} 2>/dev/null &&"
                f' [ "$(cat owner 2>/dev/null)" = {shlex.quote(self.owner)} ] || exit {GONE}; {script}')

    def ask(self, script: str, data: bytes = b"") -> Answer:
        answer = self.connection.ask(self.inside(script), data)
        if answer.status == GONE:
            raise Gone(f"{self.path} of {self.serial} is this command's no longer: another one has fetched what was"
                       " recorded there, or removed it")
        return answer

    def words(self, script: str) -> list[str]:
        return self.connection.words(self.inside(script))

    def is_recording(self) -> bool:
        return self.ask('[ "$(cat state)" = recording ] && [ "/proc/$(cat pid)/exe" -ef record ]').status == 0

    def has_recording(self) -> bool:
        return self.ask("ls capture*").status == 0

    def remove(self) -> None:
        """Removes it, unless that is done already."""
        self.connection.ask(self.inside(f"cd / && rm -rf {shlex.quote(self.path)}"))

    def space(self) -> int | None:
        """How many bytes are free; None if the file system does not say so, as those in memory without a limit."""
        found = re.fullmatch(r"(\d{1,18}) (\d{1,18}) (\d{1,18})\n", self.ask("stat -f -c '%b %a %S' .").text)
        blocks, free, size = map(int, found.groups()) if found else (0, 0, 0)
        return free * size if blocks else None

    def put(self, name: str, data: bytes) -> None:
        answer = self.ask(f'cat >{name} && chmod 700 {name} && [ "$(stat -c %s {name})" = {len(data)} ]', data)
        if answer.status:
            raise Stopped(f"{name} can't be put into {self.path} of {self.serial}, which has {self.space()} bytes free:"
                          f" {answer.said or 'it is cut there'}")

    def need_execution(self) -> None:
        """The recorder, which is there now, can be run there."""
        if self.ask("./record --help >/dev/null").status == 0:
            return
        mounted = self.ask("df -P . | tail -n 1").text.rstrip("\n").rpartition(" ")[2]
        lifts = on_device(self.serial, "mount", "-o", "remount,exec", mounted)
        raise Stopped(f"{self.serial} runs no program in {self.path}: its file system may be mounted noexec, which"
                      f" {lifts} lifts, or a policy forbids it")


def path_on(connection: Connection) -> str:
    """Where a recording is on this device, or is put. Android has no /tmp, and other systems no /data/local/tmp."""
    answer = connection.ask("cd /data/local/tmp 2>/dev/null || cd /tmp && pwd -P")
    if answer.status:
        raise Stopped(f"{connection.serial} has neither /data/local/tmp nor /tmp")
    return f"{answer.text.strip()}/{NAME}"


# ---- whose it is


def this_system() -> str:
    """This system as long as it is not started anew, and the numbers of processes that this command sees."""
    boot = pathlib.Path("/proc/sys/kernel/random/boot_id").read_text("ascii").strip()
    return f"{boot}.{os.stat('/proc/self/ns/pid').st_ino}"


def this_command() -> str:
    """This command, as the file `owner` names it."""
    name = f"{os.environ.get('USER') or os.getuid()}@{socket.gethostname()}"
    return f"{this_system()} {os.getpid()} {re.sub('[^A-Za-z0-9._@-]', '_', name)}"


def is_alive(process: int) -> bool:
    """Whether this is another process that lives."""
    try:
        os.kill(process, 0)
    except ProcessLookupError:
        return False
    except PermissionError:
        pass
    return process != os.getpid()


class Found(NamedTuple):
    """A folder that is there, and the device's time."""

    folder: Folder
    now: str

    @property
    def owner(self) -> re.Match[str] | None:
        return re.fullmatch(r"(?P<system>\S+) (?P<process>\d{1,9}) (?P<name>\S+) (?P<boot>\S+) (?P<second>\d{1,12})",
                            self.folder.owner)

    @property
    def age(self) -> int | None:
        """How many seconds ago it was made; None if the device was started anew since."""
        now = re.fullmatch(r"(\S+) (\d{1,12})", self.now)
        if not self.owner or not now or self.owner["boot"] != now[1]:
            return None
        return int(now[2]) - int(self.owner["second"])

    def is_left(self) -> bool:
        """Whether its command has ended, as far as one can tell."""
        if not self.owner or self.age is None or self.age >= OLDEST:
            return True
        return self.owner["system"] == this_system() and not is_alive(int(self.owner["process"]))

    @property
    def begun(self) -> str:
        """Who began, and when, as far as that is known."""
        if not self.owner or self.age is None:
            return ""
        return f" (process {self.owner['process']} of {self.owner['name']}, begun {self.age} s ago)"


def look(connection: Connection, path: str) -> Found | None:
    """The folder that is there. One that others could have made, or can change, is none. If it has no owner, it may
    just be made: then a second passes first."""
    quoted = shlex.quote(path)
    answer = connection.ask(f"[ -s {quoted}/owner ] || ! [ -e {quoted} ] || sleep 1\n{NOW}\n"
                            f"stat -c '%u %a %F' {quoted} &&"
                            f""" printf '%s\\n' "$(head -n 1 {quoted}/owner 2>/dev/null)" "$now" """)
    if answer.status:
        return None
    kind, owner, now, *_ = [*answer.text.split("\n"), "", ""]
    if kind != "0 700 directory":
        raise Stopped(f"{path} of {connection.serial} is not a folder of root alone: remove it")
    return Found(Folder(connection, path, owner), now)


def make(connection: Connection, path: str) -> Folder | str:
    """Makes the folder, or returns why that fails: there may be one."""
    quoted = shlex.quote(path)
    answer = connection.ask(f"{NOW}\nmkdir -m 700 {quoted} || exit 1\n"
                            f"echo {this_command()} $now >{quoted}/owner && cat {quoted}/owner && exit\n"
                            f"rm -rf {quoted}\nexit 1")
    return answer.said if answer.status else Folder(connection, path, answer.text.removesuffix("\n"))
