"""What calls and objects are called: calls by interface and method, with the code beside them, and objects by service
and interface, as far as they are known.

The interface is what calls say in their data, and the service what is said to the manager of names. The method comes of
the interface and of the code, by the files of `--methods`, and by a few that are built in."""

import functools
import sqlite3

from viewer.methods.known import BINDER
from viewer.rules.paths import call_words, name_text
from viewer.units import LETTERS


def short_of(name: str) -> str:
    """The name of an interface without its package."""
    parts = name.rpartition("::")[2].split(".")
    first = next((at for at, part in enumerate(parts) if not part[:1].islower()), len(parts) - 1)
    return ".".join(parts[first:])


class Names:
    """Names the calls and the objects of a database. A call has a code, and goes to a node: a process and a ptr. If its
    node is not known, it has the process that sends it, with a minus, and the handle. After names.sql."""

    def __init__(self, database: sqlite3.Connection):
        self.full = dict(database.execute("SELECT id, name FROM interface"))
        self.methods = {(interface, code): method for interface, code, method in
                        database.execute("SELECT interface, code, method FROM method")}
        self.called = {(code, upid, ptr): (interface, others) for code, upid, ptr, interface, others in
                       database.execute("SELECT code, upid, ptr, interface, others FROM call_interface")}
        self.objects = {(upid, ptr): (interface, others) for upid, ptr, interface, others in
                        database.execute("SELECT upid, ptr, interface, others FROM object_interface")}
        self.services = {(upid, ptr): name + (" or others" if others else "") for upid, ptr, name, others in
                         database.execute("SELECT o.upid, o.ptr, s.name, o.others FROM object_service o"
                                          " JOIN service s ON s.id = o.service")}
        shorts = [short_of(name) for name in {BINDER, *self.full.values()}]
        self.short = {name: short_of(name) if shorts.count(short_of(name)) == 1 else name
                      for name in {BINDER, *self.full.values()}}
        self.text = functools.lru_cache(4096)(self.text_of)

    def text_of(self, interface: str, code: int, others: bool) -> tuple[str, bool]:
        """An interface with the method of a code, and whether that is known."""
        method = self.methods.get((interface, code))
        return name_text(self.short[interface], others, method), method is not None

    def named(self, code: int, upid: int | None, ptr: int | None, own: int | None = None) -> tuple[str, bool] | None:
        """What a call is called: with its method, or only its interface; None if neither is known. `own`: what the data
        of this very call name."""
        interface, others = (own, 0) if own is not None else self.called.get((code, upid, ptr), (None, 0))
        if interface is not None:
            return self.text(self.full[interface], code, others > 0)
        return self.text(BINDER, code, False) if code in LETTERS and (BINDER, code) in self.methods else None

    def call(self, code: int | None, upid: int | None, ptr: int | None, own: int | None = None) -> str | None:
        """The name of a call with its code: `IHello.sayHello (code 1)`, `IHello code 1` or `code 1`."""
        if code is None:
            return None
        interface, others = (own, 0) if own is not None else self.called.get((code, upid, ptr), (None, 0))
        full = self.full[interface] if interface is not None else \
            BINDER if code in LETTERS and (BINDER, code) in self.methods else None
        return call_words(code, self.short.get(full), others, self.methods.get((full, code)))

    def meant(self, code: int, upid: int | None, ptr: int | None, own: int | None = None
              ) -> tuple[str | None, str | None]:
        """The interface and the method of a call, as far as they are known."""
        interface, _ = (own, 0) if own is not None else self.called.get((code, upid, ptr), (None, 0))
        full = self.full[interface] if interface is not None else \
            BINDER if code in LETTERS and (BINDER, code) in self.methods else None
        return full, self.methods.get((full, code))

    def field(self, code: int, own: int | None) -> str:
        """The name of a call as a field in a line of its record."""
        name = self.named(code, None, None, own)
        return "" if name is None else f"{'method' if name[1] else 'interface'}={name[0]}"

    def interface(self, upid: int | None, ptr: int | None) -> str:
        """The whole name of the interface of an object; nothing if it is not known."""
        if (upid, ptr) not in self.objects:
            return ""
        interface, others = self.objects[upid, ptr]
        return self.full[interface] + (" or others" if others else "")

    def whole(self, upid: int | None, ptr: int | None) -> str:
        """An object by service and interface, as far as they are known: `activity (android.app.IActivityManager)`."""
        service, interface = self.services.get((upid, ptr), ""), self.interface(upid, ptr)
        return f"{service} ({interface})" if service and interface else service or interface
