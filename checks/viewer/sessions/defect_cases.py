"""Sessions with the same fault on other terms: its defect has the same key. And sessions with two faults: two keys.

A case's words name a defect by what its key is made of, `defect: KIND | WHO | PATH`, and count the defects."""

from checks.kit.captures import BC_ACQUIRE, BR_DEAD_REPLY, BR_FAILED_REPLY, BR_FROZEN_REPLY, ENTER, each, record, u32
from checks.kit.tokens import marked, numbers, string16
from checks.viewer.sessions.cases import case, each_of
from checks.viewer.sessions.name_cases import ADDED, TO_MANAGER
from checks.viewer.sessions.session import ONE_WAY, STATUS_CODE

PING = int.from_bytes(b"_PNG", "big")
ONE, TWO, OTHER = marked("a.b.IOne"), marked("a.b.ITwo"), marked("c.d.IOne")

NEVER_FREED = "defect: replies never freed | client on binder | reply to a.b.IOne code 7 of service"
HANGS = "defect: calls without an answer | server on binder | a.b.IOne code 7 to server"
KEPT = "defect: references kept | client on binder | given by replies to a.b.IOne code 5 of server"


def served(s, first=100, handle=0, ptr=0, noise=0):
    """A service and a client, with these process numbers, the client's handle of the service's object, and that object;
    and calls of another code that came before."""
    service, client = s.process(first, "service"), s.process(first + 7, "client")
    service.main.writes(ENTER)
    if handle:
        client.main.is_given(service.main, handle, node=ptr)
    client.main.asks(service.main, 2, handle, ptr, body=ONE, times=noise)
    return service, client


# ---- one fault, with other numbers: the same key


@case("U3:3", NEVER_FREED, "(1 defects)", "key f992894180de6bb5")
@case("U3:5", NEVER_FREED, "(1 defects)", first=900, kept=5, wait=4000)
@case("U3:3", NEVER_FREED, "(1 defects)", handle=3, ptr=0x5000, noise=4)
@case("U3:3", NEVER_FREED, "(1 defects)", handle=9, ptr=0x7770, has_side=True)
@case("U4:2", NEVER_FREED, "(1 defects)", kept=2)
@case("U6:1", NEVER_FREED, "(1 defects)", kept=1, wait=10)
@case("M2:3", NEVER_FREED, "(1 defects)", lost=True)
def keeps_replies(s, first=100, handle=0, ptr=0, noise=0, kept=3, wait=300, lost=False):
    """Replies that are not freed, so many and so long ago, through this handle; or frames are missing."""
    service, client = served(s, first, handle, ptr, noise)
    client.main.asks(service.main, 7, handle, ptr, free=False, body=ONE, times=kept)
    client.main.asks(service.main, 2, handle, ptr, body=ONE, times=3)
    s.loses(client, lost)
    s.wait(wait)
    if wait > 100:
        client.main.asks(service.main, 2, handle, ptr, body=ONE)


@case("H5:4", KEPT, "(1 defects)")
@case("H5:6", KEPT, "(1 defects)", count=6, ptr=0x4440, at=12)
@case("H5:4", KEPT, "(1 defects)", is_first=True)
def keeps_sessions(s, count=4, ptr=0x9000, at=2, is_first=False):
    """References that replies gave, to a process that is no context manager, and is the first in the capture or not."""
    server = s.process(300 + at, "server")
    if is_first:
        server.main.writes(ENTER)
    manager, client = s.two()
    client.main.is_passed(server.main, manager.main, 1, 3, node=ptr)
    for handle in range(at, at + count):
        client.main.is_given(server.main, handle, via=1, ptr=ptr, body=ONE)
    s.wait(300)


@case("C4:1 A1:2", HANGS, "(1 defects)", name=each_of("hello", "world"))
@case("C4:1 A1:2", HANGS, "(1 defects)")
@case("C4:1 A1:2", HANGS, "(1 defects)", callers=("other",))
@case("C4:3 A1:6", HANGS, "(1 defects)", callers=("client", "other", "third"))
@case("U6:1 A1:2", HANGS, "(1 defects)", wait=20)
def hangs_at(s, name=None, callers=("client",), wait=200):
    """A call that hangs, to an object that is registered by a name or not; or calls of several processes that hang. The
    server causes it, whoever calls."""
    manager, server = s.process(100, "service"), s.process(300, "server")
    more = (TO_MANAGER["11"] + string16(name), numbers(*ADDED)) if name else (b"", b"")
    manager.main.writes(ENTER)
    server.main.gives(manager.main, 3, 3, 0x9000, *more)
    for at, caller in enumerate(callers):
        client = s.process(200 + at, caller)
        client.main.is_given(manager.main, 1, server_handle=3)
        client.main.asks(server.main, 8, 1, 0x9000, body=ONE, times=3)
        server.looper(1 + at).gets(client.main.sends(1, 7, body=ONE), 0x9000)
    s.wait(wait)


@case("U3:3", "defect: received transactions never freed | app: on binder | code 7 at app:", "(1 defects)",
      name=each_of("app:12", "app:345"))
@case("U3:3", "defect: received transactions never freed | app_ on binder | code 7 at app_", name="app_7")
@case("U3:3", "defect: received transactions never freed | app7 on binder | code 7 at app7", name="app7")
@case("U3:3", "defect: received transactions never freed | 77 on binder | code 7 at 77", name="77")
def server_called(s, name):
    """A name that ends in a number after a colon or a line, and others."""
    service, client = s.process(100, name), s.process(200, "client")
    service.main.writes(ENTER)
    for _ in range(3):
        service.main.gets(client.main.sends(0, 7))
        client.main.answered(service.main.replies())
    s.wait(300)
    client.main.asks(service.main, 2)


@case("U3:3", "defect: received transactions never freed | service on binder | oneway code 7 at service",
      "(1 defects)", flags=ONE_WAY)
@case("U3:3", "defect: received transactions never freed | service on binder | code 7 at service", "(1 defects)")
@case("U3:3", "defect: received transactions never freed | service on binder | android.os.IBinder.pingBinder at serv",
      "(1 defects)", code=PING)
def keeps_requests(s, flags=0, code=7):
    """Transactions that are not freed: calls, oneway ones, and calls whose method needs no interface."""
    service, client = served(s)
    for _ in range(3):
        service.main.gets(client.main.sends(0, code, flags))
        if not flags:
            client.main.answered(service.main.replies())
    s.wait(300)
    client.main.asks(service.main, 2)


@case("U3:3", "defect: replies never freed | a process on device 0 | reply to a.b.IOne code 7 of a process",
      "(1 defects)", has_side=False)
def without_names(s):
    """Without a side list there are no names of processes and devices."""
    service, client = served(s)
    client.main.asks(service.main, 7, free=False, body=ONE, times=3)
    client.main.asks(service.main, 2, body=ONE, times=4)


@case("H4:1", "defect: references taken more than once | client on binder | handle, service (a.b.IOne)", "(1 defects)")
@case("H4:1", "defect: references taken more than once | client on binder | handle, service (a.b.IOne)", "(1 defects)",
      handle=8, ptr=0x8800, takes=4)
def takes_twice(s, service, client, handle=1, ptr=0x100, takes=2):
    client.main.is_given(service.main, handle, node=ptr)
    client.main.asks(service.main, 3, handle, ptr, body=ONE)
    for _ in range(takes - 1):
        client.main.writes(*each(BC_ACQUIRE, handle))
    s.wait(300)


@case("E3:1", "defect: calls that failed (BR_DEAD_REPLY) | client on binder | code 7 to handle 0", kind=BR_DEAD_REPLY)
@case("E5:1", "defect: calls that failed (BR_FAILED_REPLY) | client on binder | code 7 to handle 0",
      kind=BR_FAILED_REPLY)
@case("M3:1", "defect: calls that failed (BR_FAILED_REPLY) | client on binder | code 7 to handle 0",
      kind=BR_FAILED_REPLY, lost=True)
@case("E4:1", "defect: calls that failed (BR_FROZEN_REPLY) | client on binder | code 7 to handle 0",
      kind=BR_FROZEN_REPLY)
def fails_with(s, service, client, kind, lost=False):
    """What the driver answered is in the kind, whatever the rule."""
    client.main.sends(0, 7)
    s.loses(client, lost)
    client.main.reads(record(kind))


# ---- two faults in one capture: two keys


@case("U3:6", NEVER_FREED, NEVER_FREED.replace("code 7", "code 9"), "(2 defects)", second=(9, ONE))
@case("U3:6", NEVER_FREED, NEVER_FREED.replace("a.b.IOne code 7", "a.b.ITwo code 9"), "(2 defects)", second=(9, TWO))
@case("U3:6", NEVER_FREED, NEVER_FREED.replace("a.b.IOne code 7", "c.d.IOne code 9"), "(2 defects)", second=(9, OTHER))
def keeps_two(s, second):
    """Replies to two calls are not freed: of another code, of another interface, or of one with the same short name."""
    service, client = served(s)
    for code, body in (7, ONE), second:
        client.main.asks(service.main, code, free=False, body=body, times=3)
    client.main.asks(service.main, 2, body=ONE, times=4)
    s.wait(300)
    client.main.asks(service.main, 2, body=ONE)


@case("U3:6", NEVER_FREED, NEVER_FREED.replace("| client", "| other"), "(2 defects)", name="other")
@case("U3:6", NEVER_FREED, "(1 defects)", name="client")
def two_keep(s, name):
    """Two clients do not free: of two names they are two defects, of one name one."""
    service, client = served(s)
    for one in client, s.process(400, name):
        one.main.asks(service.main, 7, free=False, body=ONE, times=3)
        one.main.asks(service.main, 2, body=ONE, times=4)
    s.wait(300)
    client.main.asks(service.main, 2, body=ONE)


@case("H1:1 H4:1", "defect: handles that nobody gave | client on binder | handle",
      "defect: references taken more than once | client on binder | handle, service", "(2 defects)")
def two_of_handles(s, service, client):
    """One handle that nobody gave, and one that is taken twice."""
    client.main.is_given(service.main, 1)
    client.main.asks(service.main, 3, 1, 0x100)
    client.main.writes(*each(BC_ACQUIRE, 1, 7))
    s.wait(300)


@case("R1:8", "defect: calls answered with an error | client on binder | code 1 to server: -22 EINVAL",
      "defect: calls answered with an error | client on binder | code 1 to server: -1 EPERM", "(2 defects)")
def two_statuses(s, manager, client):
    """Calls of one code to two processes of one name answer with two statuses."""
    for at, status in (1, -22), (2, -1):
        server = s.process(300 + at, "server")
        server.main.gives(manager.main, 2 + at, node=0x9000)
        client.main.is_given(manager.main, at, server_handle=2 + at)
        for _ in range(4):
            address = server.main.gets(client.main.sends(at, 1), 0x9000)
            reply = server.main.replies(address, u32(status % 2**32), flags=STATUS_CODE)
            client.main.answered(reply)
