"""More sessions as in cases.py: services that the context manager is asked for."""

from checks.kit.captures import of_handle, offsets
from checks.kit.tokens import MANAGER, marked, numbers, string16
from checks.viewer.sessions.cases import case, each_of
from checks.viewer.sessions.session import STATUS_CODE, Process, Session, Thread

NOT_FOUND = "services not found"


def asks(thread: Thread, manager: Process, name: str = "foo", code: int = 2, of: str = MANAGER, body: bytes = bytes(28),
         flags: int = 0, given: int = 0) -> None:
    """Asks the manager for a service, and gets this in place of it, or the manager's handle `given`."""
    address = manager.main.gets(thread.sends(0, code, body=marked(of) + string16(name)))
    if given:
        thread.answered(manager.main.replies(address, of_handle(2, given), offsets(0)), of_handle(2, 1))
    else:
        thread.answered(manager.main.replies(address, body, flags=flags))


def registers(s: Session, manager: Process, number: int = 300, handle: int = 3, name: str = "foo") -> Process:
    server = s.process(number, "server")
    server.main.gives(manager.main, handle, 3, 0x9000, marked(MANAGER) + string16(name), numbers(12, 0, 15))
    return server


@case("N3:1", f"normal {NOT_FOUND}: 1 of - service foo N3 (1 request)", "(0 defects)", count=1)
@case("N3:1", "service foo (9 requests within ", count=9, every=150)
@case("N2:1", f"maybe {NOT_FOUND}: 1 of - service foo N2 (10 requests within 1.08 s)", "N2 by client 200: 1",
      f"defect: {NOT_FOUND} | client on binder | service foo;")
@case("N3:1", every=110)
@case("N2:1", every=120, code=each_of(1, 3))
@case("N3:1", "foo (10 requests)", has_side=False)
@case("", code=4)
@case("", of="a.b.IOther")
@case("R1:10", flags=STATUS_CODE, body=b"1234")
@case("N1:1", "explained services not found: 1 of - service foo N1 (10 requests within 1.08 s; it came at ",
      ", 1.3 s after the first)", comes="registered")
@case("N1:1", "; it came at ", comes="registered", has_side=False)
@case("N1:1", "; it came at ", "defect: services not found | client on binder | service foo; key", comes="given")
@case("N1:1", "; it came at ", comes="to another")
@case("N2:1", comes="as another")
@case("N2:2", f"maybe {NOT_FOUND}: 2 of - service foo N2 (10 requests", "(1 defects)", askers=2)
def asks_in_vain(s, count=10, every=120, code=2, of=MANAGER, flags=0, body=bytes(28), comes="", askers=1):
    """A client asks for a service again and again, in vain. Then it is registered, or given to this client or to
    another one; or another service is registered."""
    manager, client = s.two()
    clients = [client, *(s.process(400 + at, "client") for at in range(askers - 1))]
    for one in clients:
        for _ in range(count):
            asks(one.main, manager, code=code, of=of, flags=flags, body=body)
            s.wait(every - 6)
    s.wait(100)
    if comes == "given":
        registers(s, manager, name="bar")
        asks(client.main, manager, given=3)
    elif comes == "to another":
        registers(s, manager, name="bar")
        asks(s.process(500, "other").main, manager, given=3)
    elif comes:
        registers(s, manager, name="foo" if comes == "registered" else "bar")


@case("N3:1", "foo (3 requests within ", "others got it meanwhile: this process may be denied it)")
@case("N1:1", "foo (3 requests within ", "; it came at ", comes=True)
@case("N1:1", "foo (4 requests within ", "; it came at ", anew=True)
@case("N2:1", "others got it meanwhile: this process may be denied it)", count=12)
@case("N3:1", "foo (2 requests within ", "others got it meanwhile", first=True, count=2)
def asks_while_others_get_it(s, count=3, comes=False, anew=False, first=False):
    """A client asks in vain for a service that others get: it may not find it. Or it gets the service at last, or had
    it before; or the service was registered anew meanwhile."""
    manager, client, other = *s.two(), s.process(400, "other")
    registers(s, manager)
    if first:
        asks(client.main, manager)
        asks(client.main, manager, given=3)
    for at in range(count):
        asks(client.main, manager)
        s.wait(110)
        if at < count - 1:
            asks(other.main, manager, given=3)
    if anew:
        registers(s, manager, 301, 4)
        asks(client.main, manager)
        asks(other.main, manager, given=4)
    if comes:
        asks(client.main, manager, given=3)
