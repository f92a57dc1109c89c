"""Whom the head of the page names: who wrote most of what a flight recorder has kept, and whose frames were lost."""

import pathlib
import re

from checks.kit.checking import Fail, compare
from checks.viewer.page.common import texts_of, view, written
from checks.viewer.sessions.refusal_cases import refused
from checks.viewer.sessions.session import Process, Session

# The file with which the recording begins, the bytes that each process sends in a refused send, and what the page says.
# The files have some 1,500 bytes of the other two besides.
FILLED = (
    (3, {"com.bad.app": 4000}, ["com.bad.app 300 wrote 73 % of these files"]),
    (3, {"com.bad.app": 900}, []),
    (1, {"com.bad.app": 4000}, []),
    (3, {"com.bad.app": 1500, "com.bad.app:other": 1500}, ["u0_a1 (user 10001) wrote 68 % of these files"]),
    (3, {"com.bad.app": 300, "com.bad.app:other": 300}, []))
IN_FILES = re.compile(r"(\S+ \S+(?: \S+\))?) wrote (\d+) % of these files *, and earlier files were removed for them")


def filled(first_file: int, sizes: dict[str, int]) -> Session:
    """A client calls a service, and apps send what the driver refuses, in files from this one on."""
    s = Session()
    s.tell(f"file {first_file}")
    service, client = s.two()
    for number, (name, size) in enumerate(sizes.items(), 300):
        app = s.process(number, name)
        app.is_called(name)
        refused(app.main, size=size)
    client.main.asks(service.main, times=3)
    return s


def check_fillers(folder: pathlib.Path, room: pathlib.Path, fail: Fail) -> None:
    """Who wrote over half of what a flight recorder has kept, by one process or by several of an app, is named."""
    for number, (first_file, sizes, due) in enumerate(FILLED):
        page = room / f"filled-{number}.html"
        status, _, told = view(folder, room, *written(filled(first_file, sizes), room, f"filled-{number}"), "-o", page)
        compare(f"files from {first_file} with {sizes}", (status, told), (0, ""), fail)
        came = [f"{who} wrote {percent} % of these files" for who, percent in IN_FILES.findall(texts_of(page))]
        compare(f"files from {first_file} with {sizes}: who wrote them", came, due, fail)


def loses(s: Session, why: str, *processes: Process | None) -> None:
    """Frames of these processes are lost for this reason."""
    for process in processes:
        s.loses(process)
        s.lines[-1] = s.lines[-1].replace("ring-full", why)


def check_losers(folder: pathlib.Path, room: pathlib.Path, fail: Fail) -> None:
    """Of each reason for which frames were lost, the page names the process that lost most; also one that has no other
    frame, and of which only the side list has a name."""
    s = Session()
    service, client = s.two()
    loses(s, "broken", *[s.process(300, "changing")] * 3)
    loses(s, "ring-full", client, client, service, None)
    loses(s, "unreadable", None, None)
    client.main.asks(service.main)
    page = room / "losers.html"
    view(folder, room, *written(s, room, "losers"), "-o", page)
    compare("whose frames were lost", re.findall(r"Lost frames: (.*?)\.", texts_of(page).replace(" ;", ";")), [
        "4 ring-full, 2 of them of client 200; 3 broken, all of changing 300; 2 unreadable"], fail)
