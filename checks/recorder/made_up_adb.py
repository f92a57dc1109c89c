#!/usr/bin/env python3
"""An adb for checks/adb: its device is a folder of this system, which ADB_ROOM names.

The room has `devices` and `features`, which adb prints; `bin`, the commands that are others on the device; and
`device`, which stands for its /data/local/tmp. If there is a file `cut`, the connection is lost; if the file has a
text, it is lost without a word, and only where a script has that text. If there is a file `wrong`, what a file holds
comes with a byte too much.
"""

import os
import subprocess
import sys
import threading
import time
from typing import BinaryIO

ROOM = os.environ["ADB_ROOM"]


def content(name: str) -> str | None:
    """What this file of the room has, if it is there. (pathlib would double the time of a start.)"""
    try:
        with open(f"{ROOM}/{name}", encoding="utf-8") as file:
            return file.read()
    except FileNotFoundError:
        return None


def pump(source: BinaryIO, target: BinaryIO) -> None:
    while piece := os.read(source.fileno(), 65536):
        target.write(piece)
        target.flush()


def is_cut(script: str) -> bool:
    text = content("cut")
    return text is not None and text in script


def lose_connection(script: str) -> None:
    """Ends this program at once, when it is cut, and says nothing, as adb does: what runs on the device then finds its
    pipes closed."""
    while not is_cut(script):
        time.sleep(0.05)
    os._exit(1)


def shell(script: str) -> int:
    if is_cut(script):
        sys.exit(1 if content("cut") else "error: device offline")
    threading.Thread(target=lose_connection, args=(script,), daemon=True).start()
    script = script.replace("/data/local/tmp", f"{ROOM}/device")
    with subprocess.Popen(["sh", "-c", script], env={**os.environ, "PATH": f"{ROOM}/bin:{os.environ['PATH']}"},
                          stdin=subprocess.PIPE, stdout=subprocess.PIPE, stderr=subprocess.PIPE,
                          start_new_session=True) as program:
        assert program.stdin and program.stdout and program.stderr
        stdin = program.stdin

        def listen() -> None:
            try:
                pump(sys.stdin.buffer, stdin)
                stdin.close()
            except BrokenPipeError:
                pass
        threading.Thread(target=listen, daemon=True).start()
        told = threading.Thread(target=pump, args=(program.stderr, sys.stderr.buffer))
        told.start()
        pump(program.stdout, sys.stdout.buffer)
        told.join()
        if "cat capture" in script and content("wrong") is not None:
            sys.stdout.buffer.write(b"x")
            sys.stdout.buffer.flush()
        os._exit(program.wait())


def main(words: list[str]) -> int:
    if words == ["version"]:
        print("Android Debug Bridge version 1.0.41")
    elif words == ["devices"]:
        print(f"List of devices attached\n{content('devices')}")
    elif words[2:] == ["features"]:
        print(content("features"))
    elif words[2:] == ["root"]:
        print("adbd cannot run as root in production builds")
    elif words[2:4] == ["shell", "-T"]:
        return shell(words[4])
    else:
        sys.exit(f"a word of adb that is not made up: {words}")
    return 0


if __name__ == "__main__":
    sys.exit(main(sys.argv[1:]))
