"""More sessions as in cases.py: many objects of one process that ended, which another one keeps, and calls or not."""

from checks.kit.captures import (BC_RELEASE, BC_REQUEST_DEATH_NOTIFICATION, BR_DEAD_REPLY, BR_FAILED_REPLY, each,
                                 record, watch)
from checks.viewer.sessions.cases import case
from checks.viewer.sessions.kept_cases import SERVER, calls_back


@case("E3:10 H16:10", "real references to ended processes: 10 of 10 given by replies to code 5 of server 300 node"
      " 0x9000 H16 (held for 1.", " after server 300 ended; BR_DEAD_REPLY told so of 10 of 10)",
      "groups that are real: 1",
      "H16 by client 200: 10", "| given by replies to code 5 of server; key ")
@case("E3:9 H17:10", "maybe references to ended processes: 10 of 10 given by replies to code 5 of server 300 node"
      " 0x9000 H17 (held for 1.", "BR_DEAD_REPLY told so of 9 of 10)", calls=9)
@case("H17:10", calls=0)
@case("H17:10 H5:9", "BR_DEAD_REPLY told so of 0 of 10)", calls=0, other_holds=9)
@case("E3:1 H17:10", "BR_DEAD_REPLY told so of 1 of 10)", calls=1, used=True)
@case("E3:12 H5:12", count=12, ways=6)
@case("E3:14 H16:10 H5:4", "BR_DEAD_REPLY told so of 10 of 10)", count=14, ways=4)
@case("E3:9 H5:9", count=9, calls=9, pause=1100, wait=300)
@case("E3:10 H17:10", pause=300, wait=800, later=True)
@case("E3:20 H16:10", again=800, wait=300)
@case("E3:9 H5:9", count=9, calls=9)
@case("H5:10", wait=800, calls=0)
@case("E3:10 H17:10", pause=300, wait=800)
@case("E5:10 H17:10", answer=BR_FAILED_REPLY)
@case("D12:10 H5:10", asks=True, calls=0)
@case("E3:10 M2:10", lost="client")
@case("E3:10 H16:10", lost="server")
@case("E3:10 H16:10", let_go=1, wait=1200)
@case("E3:10 H5:10", let_go=1, wait=900, pause=900)
def holds_the_dead(s, manager, client, server, count=10, calls=None, wait=1100, pause=0, answer=BR_DEAD_REPLY,
                   asks=False, lost=None, let_go=0, other_holds=0, later=False, again=0, used=False, ways=0):
    """A client keeps objects of a server that ends, and calls some of them once each, after a pause, and once more.
    Another client keeps some too. `later`: another process works on when the client rests. `used`: the client called
    each when the server was there. The first `ways` came by another code."""
    handles = range(2, 2 + count + let_go)
    for at, handle in enumerate(handles):
        client.main.is_given(server.main, handle, code=6 if at < ways else 5, **SERVER)
        if used:
            client.main.asks(server.main, 7, handle, 0x100 * handle)
        if asks:
            client.main.writes(watch(BC_REQUEST_DEATH_NOTIFICATION, handle, handle))
    if other_holds:
        other = s.process(400, "other")
        other.main.is_given(manager.main, 1, server_handle=3)
        for handle in range(2, 2 + other_holds):
            other.main.is_given(server.main, handle, node=0x8000 + 0x100 * handle, **SERVER)
    if lost:
        s.loses({"client": client, "server": server}[lost])
    server.ends()
    s.wait(pause)
    for handle in [*handles][:count if calls is None else calls]:
        client.main.sends(handle, 7)
        client.main.reads(record(answer))
    s.wait(100)
    for handle in handles if again else ():
        s.wait(again / count)
        client.main.sends(handle, 7)
        client.main.reads(record(answer))
    if let_go:
        client.main.writes(*each(BC_RELEASE, handles[-1]))
    s.wait(wait)
    client.main.asks(manager.main)
    if other_holds:
        other.main.asks(manager.main)
    if later:
        s.wait(500)
        s.process(500, "other").main.asks(manager.main)


@case("H17:10", "10 of 10 given by calls of code 4 from short-lived 401 H17", others=1)
@case("H12:12", others=2)
def listeners_of_one_and_others(s, manager, server, others):
    """A server keeps ten objects of one process that ended, and one each of some others that ended before."""
    one = s.process(401, "short-lived")
    rest = [s.process(500 + at, "other") for at in range(others)]
    for handle, other in enumerate([*rest, *[one] * 10], 20):
        if handle <= 20 + others:
            other.main.is_given(manager.main, 1, server_handle=3)
        calls_back(other.main, server.main, handle)
    for other in [*rest, one]:
        other.ends()
    s.wait(1100)
    server.main.asks(manager.main)
