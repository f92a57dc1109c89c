"""More sessions as in cases.py: handles that a process keeps because the one that gave them does not take them back."""

from checks.kit.captures import BC_ACQUIRE, BC_INCREFS, BC_RELEASE, each
from checks.viewer.sessions.cases import case, each_of
from checks.viewer.sessions.kept_cases import Quarters, calls_back


def takes_back(giver, holder, handles):
    """The giver says that it needs these no longer, and the holder lets go of them."""
    giver.asks(holder, 5, 1, 0x9000)
    holder.writes(*each(BC_RELEASE, *handles))


@case("H13:12", "given by calls of code 4 from client 200 (held by server 300; 6 held at half of its time, 12 at the"
      " end; 12 of 12 that are kept are in use; of those from others it keeps 0 of 4 from other 400)",
      "H13 by client 200: 12", "real references kept: 12 of 12 given by calls of code 4 from client 200 H13")
@case("H13:10", gains=(3, 3, 2, 2))
@case("H5:9", "of those from others it keeps 0 of 4 from other 400", gains=(3, 2, 2, 2))
@case("H13:12", gains=(3, 3, 3, 3), back=3)
@case("H13:20", gains=(5, 5, 5, 5), back=5, back_in=3, uses=False)
@case("H13:24", gains=(6, 6, 6, 6), back=6, back_in=3, uses=2)
@case("H13:12 H4:1", twice=1)
@case("H9:12", "of those from others it keeps 0 of 4 from other 400", gains=(3, 3, 3, 3), back=4)
@case("H5:12", "of those from others it keeps 0 of 4 from other 400", gains=(4, 4, 4, 0), uses=False)
@case("H5:12", "of those from others it keeps 0 of 3 from other 400", others=3)
@case("H13:12", "of those from others it keeps 1 of 5 from other 400", others=4, left=1)
@case("H5:12", "of those from others it keeps 2 of 6 from other 400", others=4, left=2)
@case("H13:12", "of those from others it keeps 2 of 10 from other 400", others=8, left=2)
@case("H5:12", "of those from others it keeps 0 of 4 from other 400", when=0)
@case("H5:12", gains=(3, 3, 3, 3), when=2)
@case("H13:12", gains=(4, 3, 3, 2), when=2)
@case("H5:12", others=0)
@case("H5:12", others=4, code=6)
@case("H13:12 H5:4", "of those from others it keeps 0 of 4 from other 400, 4 of 4 from other 401",
      "real references kept: 12 of 12 given by calls of code 4 from client 200 H13",
      "maybe references kept: 4 of 4 given by calls of code 4 from other 401 H5", left_of_more=4)
@case("H13:12", "held by server 300; 6 held", uses=False)
@case("H10:12", "of those from others it keeps 0 of 3 from other 400", uses=False, others=3)
@case("M2:12", lost="server")
@case("H5:12", lost=each_of("client", "other"))
@case("H5:12", "of those from others it keeps 0 of 4 from other 400", ends=True)
@case("H13:12", ends_later=True)
@case("H5:12", weakly=True)
def giver_forgets(s, manager, client, server, gains=(3, 3, 3, 3), back=0, back_in=0, twice=0, others=4, left=0, when=3,
                  code=4, left_of_more=0, uses=True, lost=None, ends=False, ends_later=False, weakly=False):
    """In each part of its time a server gets objects from a client, and calls them. The client takes hardly any back;
    another process takes back all, or leaves some, or ends before the server lets go of them, or later. Or the server
    keeps weak references, or takes one object twice. Or a frame of one of them is lost. It calls all, or every other
    one, or none."""
    other, more = s.process(400, "other"), s.process(401, "other")
    for one in (other, more):
        one.main.is_given(manager.main, 1, server_handle=3)
    if lost:
        s.loses({"server": server, "client": client, "other": other}[lost])
    quarters, held, at = Quarters(s, server, manager), [], 20
    for part, gained in enumerate(gains):
        quarters.lasts(part + 0.2)
        for handle in range(at, at + gained):
            calls_back(client.main, server.main, handle)
            if weakly:
                server.main.writes(*each(BC_INCREFS, handle), *each(BC_RELEASE, handle))
            held.append(handle)
        at += gained
        for handle in range(80, 80 + twice if part == 0 else 80):
            calls_back(client.main, server.main, handle)
            server.main.writes(*each(BC_ACQUIRE, handle))
        if part == back_in and back:
            for handle in range(90, 90 + back):
                calls_back(client.main, server.main, handle)
            takes_back(client.main, server.main, range(90, 90 + back))
        if part == when:
            for handle in range(100, 100 + others + left):
                calls_back(other.main, server.main, handle, code)
            if ends:
                other.ends()
                server.main.writes(*each(BC_RELEASE, *range(100, 100 + others)))
            elif others:
                takes_back(other.main, server.main, range(100, 100 + others))
            if ends_later:
                other.ends()
            for handle in range(200, 200 + left_of_more):
                calls_back(more.main, server.main, handle)
        quarters.lasts(part + 0.8)
        for handle in held[::int(uses)] if uses else ():
            server.main.asks(client.main, 8, handle, 0x9000 + 0x100 * handle)
    quarters.lasts(4)
    server.main.asks(manager.main, 1)
