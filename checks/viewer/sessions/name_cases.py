"""Sessions whose calls name interfaces, or services: what their paths and notes call them."""

from checks.kit.captures import BC_ACQUIRE, BC_RELEASE, each, of_handle, offsets, u32
from checks.kit.tokens import GATHER, MANAGER, NO_SOURCE, marked, numbers, string16
from checks.viewer.sessions.cases import case, each_of
from checks.viewer.sessions.session import STATUS_CODE, node_object

ONE, TWO = marked("a.b.IOne"), marked("a.b.ITwo")
NAME_OF, PING = int.from_bytes(b"_NTF", "big"), int.from_bytes(b"\x0fPNG", "big")


def of_hidl(name):
    return name.encode() + b"\0" + bytes(-(len(name) + 1) % 4)


# What data of calls begin with.
BODIES = {"one": ONE, "two": TWO, "none": b"", "base": of_hidl("android.hidl.base@1.0::IBase"),
          "hidl": of_hidl("a.b@1.0::IThing")}


@case("C4:1 A1:2", "code 7 to service 100 node 0x0 (open for ≥ 201 ms; service 100 got it", calls="none none none")
@case("C4:1 A1:2", "IOne code 7 to service 100 node 0x0 (open for ≥ 201 ms; service 100 got it", calls="one none one")
@case("C4:1 A1:2", "IOne code 7 to service 100 node 0x0 (open for ≥ 201 ms; service 100 got it", calls="one two none")
@case("C4:1 A1:2", "IOne or others code 7 to service 100 node 0x0 (", calls="one none two")
@case("C4:1 A1:2", "ITwo or others code 7 to service 100 node 0x0 (", calls="one none two two")
@case("C4:1 A1:2", "IBase.ping (code HIDL_PNG) to service 100 node 0x0 (", calls="base none base", code=PING)
@case("C4:1 A1:2", "IBinder.getInterfaceDescriptor (code _NTF) to service 100 node 0x0 (", calls="none none none",
      code=NAME_OF)
def hangs_in(s, service, client, calls, code=7):
    """Calls name these interfaces. The second one has another code than the others, and the last one hangs."""
    *before, last = (BODIES[name] for name in calls.split())
    for at, body in enumerate(before):
        client.main.asks(service.main, 8 if at == 1 else code, body=body)
    service.main.gets(client.main.sends(0, code, body=last))
    s.wait(200)


@case("H6:1", "handle 1, service 100 node 0x100 (IOne))", calls="one none")
@case("H6:1", "handle 1, service 100 node 0x100 (ITwo or others))", calls="one two two")
@case("H6:1", "handle 1, service 100 node 0x100 (IThing))", calls="base base hidl")
@case("H6:1", "handle 1, service 100 node 0x100 (IBase))", calls="base")
@case("H6:1", "handle 1, service 100 node 0x100 (IThree))", calls="none", told="a.b.IThree")
def holds_a(s, service, client, calls, told=None):
    """What the calls to an object name is its interface; so is what it answers to _NTF. The note has the object."""
    client.main.is_given(service.main, 1)
    for name in calls.split():
        client.main.asks(service.main, PING if name == "base" else 7, 1, 0x100, body=BODIES[name])
    if told:
        address = service.main.gets(client.main.sends(1, NAME_OF), 0x100)
        client.main.answered(service.main.replies(address, string16(told)))


@case("C5:1", "IOne code 7 to handle 9 (open for ≥ ")
def hangs_nowhere(s, client):
    """A call to a handle whose node is not known."""
    client.main.sends(9, 7, body=ONE)
    s.wait(200)


@case("C6:1 C7:1 A1:2", "its only looper is in IOne code 10 since", "IOne code 11 to service 100 node 0x0 (")
def queues_for(s, service, client):
    for code in 2, 11:
        client.main.asks(service.main, code, body=ONE)
    service.main.gets(client.main.sends(0, 10, body=ONE))
    s.process(300, "other").main.sends(0, 11, body=ONE)
    s.wait(1100)


@case("R1:4", "IOne code 1 to objects given by replies to ITwo code 5 of server 300 node 0x9000: 1",
      calls=each_of("one", "one none"))
@case("R1:4", "\ncode 1 to objects given by replies to ITwo code 5 of server 300 node 0x9000: 1", calls="one two")
def status_of_named_objects(s, client, server, calls):
    """Objects that came the same way answer with a status. Their calls name one interface, or one and none, or two."""
    client.main.asks(server.main, 5, 1, 0x9000, body=TWO)
    names = calls.split()
    for handle in range(2, 6):
        client.main.is_given(server.main, handle, via=1, ptr=0x9000)
        sent = client.main.sends(handle, 1, body=BODIES[names[handle % len(names)]])
        address = server.main.gets(sent, 0x100 * handle)
        client.main.answered(server.main.replies(address, u32(1), flags=STATUS_CODE))
        client.main.writes(*each(BC_RELEASE, handle))


@case("F1:1", "reply to IOne code 1")
def named_reply_freed_twice(s, service, client):
    client.main.frees(client.main.asks(service.main, body=ONE))


@case("U3:3", "reply to IOne code 7 of service 100 node 0x0 ()")
def keeps_named_replies(s, service, client):
    """One of three replies that are kept is to a call without a name: it is on the same path."""
    for body in ONE, b"", ONE:
        client.main.asks(service.main, 7, body=body, free=False)
    client.main.asks(service.main, 8)
    client.main.asks(service.main, 8)
    s.wait(200)


@case("H5:4", "given by calls of IOne code 4 from client 200")
def named_calls_give(s, client, server):
    """Handles that come with calls of one interface."""
    for handle in range(20, 24):
        body = node_object(0x100 * handle)
        sent = client.main.sends(1, 4, body=ONE + body, listed=offsets(len(ONE)))
        address = server.main.gets(sent, 0x9000, ONE + of_handle(2, handle), offsets(len(ONE)))
        server.main.writes(*each(BC_ACQUIRE, handle))
        client.main.answered(server.main.replies(address))


# ---- services


# What begins the data of what is sent to the manager: of Android 11, 10 and 9, and what HIDL's sends begin with.
TO_MANAGER = {"11": marked(MANAGER), "10": numbers(GATHER, NO_SOURCE) + string16(MANAGER),
              "9": numbers(GATHER) + string16(MANAGER), "other": marked("a.b.IOther"),
              "hidl": of_hidl("android.hidl.manager@1.0::IServiceManager")}
ADDED = (12, 0, 15)


@case("H6:1", "handle 3, server 300 node 0x9000 hello)", form="11", after=ADDED)
@case("H6:1", "handle 3, server 300 node 0x9000 hello)", form="11", after=ADDED, code=5)
@case("H6:1", "handle 3, server 300 node 0x9000 hello)", form=each_of("10", "9"), after=ADDED[1:])
@case("H6:1", "handle 3, server 300 node 0x9000 hello)", form="9", after=(0,))
@case("H6:1", "handle 3, server 300 node 0x9000)", form=each_of("11", "10"), after=ADDED[:1])
@case("H6:1", "handle 3, server 300 node 0x9000)", form=each_of("other", "hidl"), after=ADDED)
@case("H6:1", "handle 3, server 300 node 0x9000)", form="11", after=ADDED, between=b"1234")
@case("H6:1", "handle 3, server 300 node 0x9000)", form="11", after=ADDED, name="a<b>")
@case("H6:1 R2:1", "handle 3, server 300 node 0x9000)", form="11", after=ADDED, flags=STATUS_CODE)
def registers(s, manager, form, after, code=3, between=b"", name="hello", flags=0):
    """An object is handed to the manager with a name: what follows it tells that it is registered."""
    s.process(300, "server").main.gives(manager.main, 3, code, 0x9000, TO_MANAGER[form] + string16(name) + between,
                                        numbers(*after), flags)


@case("H6:2", "handle 3, server 300 node 0x9000 hello)", "handle 1, server 300 node 0x9000 hello)", form="11")
@case("H6:2", "handle 1, server 300 node 0x9000 hello)", form="9")
@case("H6:2", "handle 1, server 300 node 0x9000)", form="other")
def asks_for(s, manager, client, form):
    """Who asks the manager for a name gets a handle: its object has the name, for others too."""
    server = s.process(300, "server")
    server.main.gives(manager.main, 3, node=0x9000)
    client.main.is_given(manager.main, 1, 2, server_handle=3, body=TO_MANAGER[form] + string16("hello"))


@case("H6:2", "handle 1, server 300 node 0x9000 hello or others)", names="hello world")
@case("H6:2", "handle 1, server 300 node 0x9000 hello)", names="hello hello")
@case("H6:2", "handle 1, server 300 node 0x9000 hello or others)", names="hello world world")
def goes_by(s, manager, client, names):
    """An object that is registered by the first of these names, and asked for by the others: the first counts."""
    server = s.process(300, "server")
    first, *others = names.split()
    server.main.gives(manager.main, 3, 3, 0x9000, marked(MANAGER) + string16(first), numbers(*ADDED))
    for at, name in enumerate(others):
        client.main.is_given(manager.main, 1, 2, not at, server_handle=3, body=marked(MANAGER) + string16(name))


@case("C4:1 A1:2", "IOne code 7 to server 300 node 0x9000 hello (open for ≥ 201 ms; server 300 got it",
      "IOne code 7 at server 300 node 0x9000 hello (")
def hangs_in_service(s, manager, client):
    """A call to a service that hangs."""
    server = s.process(300, "server")
    server.main.gives(manager.main, 3, 3, 0x9000, marked(MANAGER) + string16("hello"), numbers(*ADDED))
    client.main.is_given(manager.main, 1, server_handle=3)
    client.main.asks(server.main, 8, 1, 0x9000, body=ONE, times=3)
    server.main.gets(client.main.sends(1, 7, body=ONE), 0x9000)
    s.wait(200)


@case("U3:3", "reply to IOne code 7 of server 300 node 0x9000 hello ()")
def keeps_replies_of_service(s, manager, client):
    server = s.process(300, "server")
    server.main.gives(manager.main, 3, 3, 0x9000, marked(MANAGER) + string16("hello"), numbers(*ADDED))
    client.main.is_given(manager.main, 1, server_handle=3)
    for free in False, False, False, True, True:
        client.main.asks(server.main, 8 if free else 7, 1, 0x9000, body=ONE, free=free)
    s.wait(200)


@case("C5:1", "IOne code 7 to handle 9 hello (open for ≥ ")
def hangs_at_unknown_node(s):
    """A call to a service whose process is not known."""
    manager, client = s.two(met="in-mid-life")
    asked = client.main.sends(0, 2, body=marked(MANAGER) + string16("hello"))
    address = manager.main.gets(asked)
    got = client.main.answered(manager.main.replies(address), of_handle(2, 9), offsets(0), free=False)
    client.main.writes(*each(BC_ACQUIRE, 9))
    client.main.frees(got)
    client.main.sends(9, 7, body=ONE)
    s.wait(200)
