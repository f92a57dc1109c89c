"""Which methods are known: those of the files of `--methods`, and a few that are built in."""

import re
import sqlite3
from typing import Iterable, Iterator, NamedTuple

from viewer.files import refuse_named_pipe
from viewer.methods.every import ADDED, BASE, OF_BASE

# The longest name of a method, and of its source. What is longer is cut.
LONGEST = 256


class Method(NamedTuple):
    """A method of an interface, and where that is from."""
    name: str
    source: str


Methods = dict[tuple[str, int], Method]

BINDER, MANAGER = "android.os.IBinder", "android.os.IServiceManager"

# What all objects of libbinder answer; such a call has no interface in its data.
OF_BINDER = {"_PNG": "pingBinder", "_DMP": "dump", "_CMD": "shellCommand", "_NTF": "getInterfaceDescriptor",
             "_SPR": "SYSPROPS_TRANSACTION", "_EXT": "getExtension", "_PID": "getDebugPid"}

# Of android.os.IServiceManager code 1 means the same in all releases. A method that came with Android 15 moved those
# after it: until then code 3 hands over the object of a service, and since then that code hands over none.
OF_MANAGER_BEFORE_15 = ("getService", "checkService", "addService", "listServices")
TELLS_MANAGER_BEFORE_15 = """SELECT EXISTS (SELECT 1 FROM raw_interface i JOIN raw_record r ON r.interface = i.id
    JOIN raw_object o ON o.place = r.place
  WHERE i.name = ? AND r.code = 3 AND o.sort IN (SELECT number FROM sort WHERE name IN ('BINDER', 'HANDLE')))"""

# An interface of HIDL never changes.
OF_MANAGER_OF_HIDL = ("get", "add", "getTransport", "list", "listByInterface", "registerForNotifications", "debugDump",
                      "registerPassthroughClient")


def built_in() -> Methods:
    """The methods that need no file."""
    every = "built in: the same in all releases"
    return {
        **{(BINDER, int.from_bytes(letters.encode(), "big")): Method(name, every)
           for letters, name in OF_BINDER.items()},
        (MANAGER, 1): Method("getService", every),
        **{(BASE, code): Method(name, every) for name, code in OF_BASE.items()},
        **{("android.hidl.manager@1.0::IServiceManager", code): Method(name, every)
           for code, name in enumerate(OF_MANAGER_OF_HIDL, 1)}}


class NotATable(Exception):
    """A file that is no table of methods: the file, the line, and why."""


def cut(text: str) -> str:
    return text if len(text) <= LONGEST else f"{text[:LONGEST]}…"


def methods_in(path: str) -> Iterator[tuple[str, int, Method]]:
    """The lines of a table of `viewer/methods/table.py`."""
    refuse_named_pipe(path)
    with open(path, encoding="utf-8", errors="replace", newline="\n") as lines:
        for number, line in enumerate(lines, 1):
            fields = line.removesuffix("\n").split("\t")
            if len(fields) != 4 or not all(fields):
                raise NotATable(f"{path}:{number}: not interface, code, method and source, separated by tabs")
            interface, code, method, source = fields
            if not re.fullmatch("[0-9]{1,10}", code, re.ASCII) or int(code) >= 2**32:
                raise NotATable(f"{path}:{number}: the code is not a number of 32 bits")
            yield interface, int(code), Method(cut(method), cut(source))


def methods_of(paths: Iterable[str]) -> Methods:
    """The methods of some files. Two files may have the same one, but no code may mean two."""
    found: Methods = {}
    for path in paths:
        for interface, code, method in methods_in(path):
            before = found.setdefault((interface, code), method)
            if before.name != method.name:
                raise NotATable(f"{path}: code {code} of {interface} is {method.name} here, and {before.name} in a line"
                                " before")
    return found


def of_manager(database: sqlite3.Connection) -> Methods:
    """The methods of android.os.IServiceManager, if calls of the capture tell of which releases it is."""
    if not database.execute(TELLS_MANAGER_BEFORE_15, (MANAGER,)).fetchone()[0]:
        return {}
    return {(MANAGER, code): Method(name, "built in: before Android 15, as code 3 hands over an object")
            for code, name in enumerate(OF_MANAGER_BEFORE_15, 1)}


def named_in(database: sqlite3.Connection) -> set[str]:
    """The interfaces that the capture names."""
    return {name for name, in database.execute("SELECT name FROM interface")}


def load_methods(database: sqlite3.Connection, given: Methods) -> None:
    """Puts the methods of the interfaces that the capture names into the database, and those that need no interface.
    What a file says goes before what is built in."""
    named = named_in(database)
    known = {(name, code): Method(method, "built in: if it has a version")
             for name in named if "::" not in name for method, code in ADDED.items()}
    if MANAGER in named:
        known.update(of_manager(database))
    known.update(built_in())
    known.update(given)
    database.executemany("INSERT INTO method VALUES (?, ?, ?, ?)",
                         ((interface, code, *method) for (interface, code), method in sorted(known.items())
                          if interface in named or interface == BINDER))
