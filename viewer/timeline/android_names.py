"""The names by which the module `android.binder` of Perfetto's standard library finds transactions."""

from viewer.timeline.events import CALL, CAME, SENT, SERVED, Called
from viewer.timeline.packets import Packets

NAMES = {CALL: "binder transaction", SERVED: "binder reply", SENT: "binder transaction async", CAME: "binder async rcv"}

# A slice that says what is called: around a transaction that is sent, or within one that came.
AIDL = "AIDL::binder::{}::{}::{}"
SIDES = {CALL: "client", SENT: "client", SERVED: "server", CAME: "server"}


class AndroidNames(Packets):
    """Names slices as a phone does. The interface and the method are slices of their own, as those of libbinder, if the
    interface is known. A oneway transaction that came always has one: if not, that of the next transaction would be
    taken for its own."""
    is_android = True

    def name_of(self, sort: int, called: Called) -> str:
        return NAMES[sort]

    def aidl(self, sort: int, called: Called) -> bytes:
        interface = "unknown" if called.interface is None else called.interface.replace("::", ".")
        return self.named("aidl", AIDL.format(interface, called.method or f"code {called.code}", SIDES[sort]))
