"""The device as a place to record: who is root there, and the recorder for its machine."""

import pathlib
import shlex
import subprocess
import time

from connection import Connection, Lost, Stopped, last_line, run_adb

HERE = pathlib.Path(__file__).resolve().parent
MACHINES = ("x86_64", "aarch64")
WAIT = 30  # seconds for a device to come back as root


# ---- root

# How a script is run by the `su` of Android's userdebug builds, and by those of others.
SU = (lambda script: f"su 0 sh -c {shlex.quote(script)}", lambda script: f"su -c {shlex.quote(script)}")


def is_root(connection: Connection) -> bool:
    """Whether scripts are run as root. An su that asks for a password gets none."""
    try:
        answer = connection.ask("id -u")
    except Lost:
        return False
    return answer.text.strip() == "0"


def restarts_as_root(connection: Connection) -> bool:
    """Asks adbd to begin again as root, and waits until the device is back."""
    said = run_adb("-s", connection.serial, "root")
    if b"restarting" not in said.stdout + said.stderr:
        return False
    end = time.monotonic() + WAIT
    while time.monotonic() < end and not is_root(connection):
        time.sleep(1)
    return is_root(connection)


def become_root(connection: Connection) -> None:
    if is_root(connection) or restarts_as_root(connection):
        return
    connection.ask(":")  # the device is there
    for connection.by in SU:
        if is_root(connection):
            return
    raise Stopped(f"{connection.serial} does not allow root: adb root is refused, as by builds for users, and no su"
                  " makes this user root")


# ---- the recorder


def recorder_for(connection: Connection) -> pathlib.Path:
    """The recorder for the machine of the device."""
    machine = connection.ask("uname -m").text.strip()
    if machine not in MACHINES:
        raise Stopped(f"{connection.serial} is a {machine}, and the recorder is for {' and '.join(MACHINES)} alone:"
                      " kernels of 32 bits are not recorded")
    found = subprocess.run([HERE.parent / "program.sh", machine], stdin=subprocess.DEVNULL, capture_output=True)
    if found.returncode:
        raise Stopped(last_line(found.stderr).removeprefix("record: "))
    return pathlib.Path(found.stdout.decode().removesuffix("\n"))
