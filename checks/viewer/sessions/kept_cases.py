"""More sessions as in cases.py: handles that came the same way, of which a process keeps nearly all or some."""

from checks.kit.captures import (BC_ACQUIRE, BC_DECREFS, BC_INCREFS, BC_RELEASE, BC_REQUEST_DEATH_NOTIFICATION, ENTER,
                                 each, of_handle, offsets, watch)
from checks.viewer.sessions.cases import case, each_of, with_server
from checks.viewer.sessions.session import node_object

# How the client of with_server calls its server.
SERVER = {"via": 1, "ptr": 0x9000}


def calls_back(client, server, handle, code=4, via=1, ptr=0x9000):
    """A client calls the server with an object, which the server takes by this handle."""
    body, listed = node_object(0x9000 + 0x100 * handle), offsets(0)
    address = server.gets(client.sends(via, code, body=body, listed=listed), ptr, of_handle(2, handle))
    server.writes(*each(BC_ACQUIRE, handle))
    client.answered(server.replies(address))


def passes(s, count, client, manager):
    """So many milliseconds, and then a call, or, without a side list, so many calls."""
    s.wait(count)
    client.main.asks(manager.main, times=1 if s.has_side else count)


# ---- nearly all are kept


@case("H5:4", "given by replies to code 5 of server 300 node 0x9000", kept=4, let_go=0)
@case("", kept=3, let_go=0)
@case("H5:4", kept=4, let_go=1)
@case("H5:4", "other 400 keeps 1 of 3", kept=4, let_go=1, others=3)
@case("", kept=4, let_go=2)
def sessions_kept(s, manager, client, server, kept, let_go, others=0):
    """A client keeps what replies gave it, or some of it; another one lets go of all but one."""
    for handle in range(2, 2 + kept + let_go):
        client.main.is_given(server.main, handle, via=1, ptr=0x9000)
    client.main.writes(*each(BC_RELEASE, *range(2, 2 + let_go)))
    if others:
        other = s.process(400, "other")
        other.main.is_given(manager.main, 1, server_handle=3)
        for handle in range(2, 2 + others):
            other.main.is_given(server.main, handle, via=1, ptr=0x9000, node=0xA00 + 0x100 * handle)
        other.main.writes(*each(BC_RELEASE, *range(2, 1 + others)))
    s.wait(300)


@case("H5:4", "H5 (held weakly, with a request for its death)")
@case("H5:4", "4 of 4 given by replies to code 5 of server 300 node 0x9000 H5 (held weakly)", asks=False)
@case("H5:4", "4 of 4 given by replies to code 5 of server 300 node 0x9000 H5 ()", weakly=False)
@case("H5:4 D1:4", "4 of 4 given by replies to code 5 of server 300 node 0x9000 H5 (held weakly)", again=True)
@case("H10:12", "(6 held at half of its time, 12 at the end; held weakly, with a request for its death)", count=12)
@case("H4:1", "(2 times, weakly, and let go of 0 times; handle 2, server 300 node 0x200; held weakly, with a request"
      " for its death)", count=1, twice=True)
def linked_and_kept(s, manager, client, server, count=4, weakly=True, asks=True, twice=False, again=False):
    """A client keeps weak references to objects, and asks for their deaths, or did so for objects that had these
    handles before."""
    for handle in range(2, 2 + count):
        if again:
            client.main.is_given(server.main, handle, 6, weakly=True, node=0x8000 + 0x100 * handle, **SERVER)
            client.main.writes(watch(BC_REQUEST_DEATH_NOTIFICATION, handle, handle))
            client.main.writes(*each(BC_DECREFS, handle))
        client.main.is_given(server.main, handle, weakly=weakly, **SERVER)
        client.main.writes(*(each(BC_INCREFS, handle) if twice else []))
        client.main.writes(*([watch(BC_REQUEST_DEATH_NOTIFICATION, handle, handle)] if asks and not again else []))
        s.wait(100)


@case("H5:4", "given by calls of code 4 from client 200", "| given by calls of code 4 from client; key ", senders=1,
      each_gives=4)
@case("", senders=4, each_gives=1)
@case("", senders=2, each_gives=2)
@case("", senders=1, each_gives=3)
@case("", senders=1, each_gives=4, to_manager=True)
def callbacks_kept(s, manager, client, server, senders, each_gives, to_manager=False):
    """Handles that calls brought: many from one client, or one from each of many. The context manager keeps all."""
    others = [client] + [s.process(400 + at, "other") for at in range(1, senders)]
    handle = 10
    for other in others:
        for _ in range(each_gives):
            if to_manager:
                other.main.gives(manager.main, handle)
            else:
                if other is not client and handle % each_gives == 10 % each_gives:
                    other.main.is_given(manager.main, 1, server_handle=3)
                calls_back(other.main, server.main, handle)
            handle += 1
    s.wait(300)


@case("H6:6", "given by replies to code 5 of server 300 node 0x9000 (handle 2, server 300 node 0x200; 4 of 4 that are"
      " kept are in use, and their number does not grow)", before=150, used=200, then=180)
@case("H5:4", before=150, used=200, then=260)
@case("H6:6", "4 of 4 that are kept are in use", before=550, used=200, then=180)
@case("H6:6", "3 of 4 that are kept are in use", before=150, used=200, then=180, skips=1)
@case("H5:4", before=150, used=200, then=180, skips=2)
@case("H6:6", "4 of 4 that are kept are in use", before=350, used=400, then=180)
@case("H6:7", "5 of 5 that are kept are in use", before=350, used=200, then=180, late=1)
@case("H6:5", "(handle 2, server 300 node 0x200)", before=150, used=200, then=180, kept=3)
@case("H6:6", "4 of 4 that are kept are in use", before=150, used=200, then=180, let_go=1)
@case("H6:6", "(handle 2, server 300 node 0x200)", before=150, used=200, then=180, let_go=2)
@case("H4:1 H6:6", "4 of 4 that are kept are in use", before=150, used=200, then=180, twice=1)
@case("H6:6", "4 of 4 that are kept are in use", before=150, used=200, then=180, ends=True)
@case("H6:6", "4 of 4 that are kept are in use", before=150, used=200, then=180, rests=3000)
@case("H5:4", before=150, used=200, then=260, rests=3000)
@case("H6:6", "4 of 4 that are kept are in use", before=4, used=6, then=4, has_side=False)
@case("H5:4", before=4, used=6, then=16, has_side=False)
@case("H6:6", "4 of 4 that are kept are in use", before=30, used=6, then=4, has_side=False)
def cache(s, before, used, then, kept=4, skips=0, late=0, let_go=0, twice=0, ends=False, rests=0):
    """A client gets handles, and uses all, or all but some, a while later. `late`: then it gets more, and again uses
    all a while later. Some it had let go of, and one it took twice and does not use. Or it ends long before the end, or
    does nothing any more."""
    manager, client, server = with_server(s)
    passes(s, before, client, manager)
    for handle in range(2, 2 + kept + let_go):
        client.main.is_given(server.main, handle, **SERVER)
    if let_go:
        client.main.writes(*each(BC_RELEASE, *range(2 + kept, 2 + kept + let_go)))
    for handle in range(50, 50 + twice):
        client.main.is_given(server.main, handle, **SERVER)
        client.main.writes(*each(BC_ACQUIRE, handle))
    passes(s, used, client, manager)
    for handle in range(60, 60 + late):
        client.main.is_given(server.main, handle, **SERVER)
        passes(s, used, client, manager)
    for handle in *range(2 + skips, 2 + kept), *range(60, 60 + late):
        client.main.asks(server.main, 8, handle, 0x100 * handle)
    passes(s, then, client, manager)
    if ends:
        client.ends()
        rests = 3000
    s.wait(rests)


@case("H5:8")
def kept_to_the_end(s, client, server):
    """Handles come up to the end, and each is used only at once."""
    for handle in range(2, 10):
        client.main.is_given(server.main, handle, **SERVER)
        client.main.asks(server.main, 8, handle, 0x100 * handle)
        s.wait(50)


# ---- what is held of a way grows, or does not


class Quarters:
    """What is recorded of a client in four parts, each of a second or, without a side list, of 400 frames."""

    def __init__(self, s, client, manager):
        self.s, self.client, self.manager, self.time, self.sequence = s, client, manager, s.time, s.sequence

    def lasts(self, parts):
        """Goes on until so many parts have passed."""
        if self.s.has_side:
            self.s.wait(max(0, self.time + parts * 1_000_000_000 - self.s.time) / 1_000_000)
        while not self.s.has_side and self.s.sequence < self.sequence + 400 * parts:
            self.client.main.asks(self.manager.main)

    def plays(self, server, gains, passing=0, drops=(0, 0, 0, 0), twice=(0, 0, 0, 0), uses: bool | int = True,
              of_before=(0, 0, 0, 0), at=100):
        """In each part the client gets some handles. It lets go of others at once, and of some that it had, and uses
        all that it has, or the first ones, or none. Or some of these it takes twice, and it lets go of what it had
        before."""
        main, held, before = self.client.main, [], 20
        for part, gained in enumerate(gains):
            self.lasts(part + 0.2)
            if of_before[part]:
                main.writes(*each(BC_RELEASE, *range(before, before + of_before[part])))
                before += of_before[part]
            for _ in range(passing):
                main.is_given(server.main, 9, **SERVER)
                main.writes(*each(BC_RELEASE, 9))
            for handle in range(at, at + gained + twice[part]):
                main.is_given(server.main, handle, **SERVER)
                if handle < at + gained:
                    held.append(handle)
                else:
                    main.writes(*each(BC_ACQUIRE, handle))
            at += gained + twice[part]
            if drops[part]:
                main.writes(*each(BC_RELEASE, *held[:drops[part]]))
                held = held[drops[part]:]
            self.lasts(part + 0.8)
            for handle in held[:None if uses is True else uses]:
                main.asks(server.main, 8, handle, 0x100 * handle)
        self.lasts(len(gains))
        main.asks(self.manager.main)


@case("H9:8", "given by replies to code 5 of server 300 node 0x9000 (4 held at half of its time, 8 at the end; 8 of 8"
      " that are kept are in use)",
      "maybe references kept: 8 of 16 given by replies to code 5 of server 300 node 0x9000 H9")
@case("H9:4", gains=(0, 0, 2, 2))
@case("", gains=(0, 0, 2, 1))
@case("H9:40", gains=(18, 18, 2, 2), passing=3)
@case("", gains=(19, 18, 2, 2), passing=3)
@case("", gains=each_of((2, 2, 4, 0), (2, 2, 0, 4)))
@case("", gains=(4, 4, 4, 4), drops=(0, 0, 4, 4))
@case("H9:11", "7 held at half of its time, 11 at the end", gains=(4, 4, 4, 4), drops=(0, 1, 2, 2))
@case("", gains=(6, 3, 1, 1))
@case("H5:8", "4 held at half of its time, 8 at the end", passing=0)
@case("H6:10", "8 of 8 that are kept are in use, and their number does not grow", gains=(5, 2, 1, 0), passing=0)
@case("H8:8", "(8 others were let go of, each within 3 ms; 4 held at half of its time, 8 at the end)", uses=False)
@case("H10:12", "(12 others were let go of, each within 3 ms; 6 held at half of its time, 12 at the end)",
      "real references kept: 12 of 24 given by replies to code 5 of server 300 node 0x9000 H10", gains=(3, 3, 3, 3),
      passing=3, uses=False)
@case("H10:12", "(6 held at half of its time, 12 at the end)", gains=(3, 3, 3, 3), passing=0, uses=False)
@case("H10:10", gains=(3, 3, 2, 2), passing=0, uses=False)
@case("H5:9", gains=(3, 2, 2, 2), passing=0, uses=False)
@case("H10:10 H5:2", gains=(3, 3, 3, 3), passing=0, uses=2)
@case("H10:12 H5:10", gains=(6, 6, 5, 5), passing=0, uses=10)
@case("H5:22", gains=(6, 6, 5, 5), passing=0, uses=11)
@case("H5:12", gains=(3, 3, 3, 3), passing=0, uses=3)
@case("H5:12", gains=(4, 4, 4, 0), passing=0, uses=False)
@case("H5:12", "6 held at half of its time, 12 at the end", gains=(3, 3, 3, 3), passing=0)
@case("H10:12", gains=(3, 3, 3, 3), passing=0, uses=False, rests=3900)
@case("H5:12", gains=(3, 3, 3, 3), passing=0, uses=False, rests=4100)
@case("H5:12", gains=(4, 4, 4, 0), passing=0, uses=False, rests=3900)
@case("M2:12", gains=(3, 3, 3, 3), passing=3, uses=False, lost=True)
@case("H4:4", gains=(4, 0, 0, 0), twice=(0, 0, 2, 2))
@case("H4:1 H10:12", gains=(3, 3, 3, 3), passing=0, twice=(0, 0, 0, 1), uses=False)
@case("H4:1 H5:9", gains=(3, 2, 2, 2), passing=0, twice=(0, 0, 0, 1), uses=False)
@case("M1:8", lost=True)
@case("H5:8", passing=0, lost=True)
@case("", gains=(6, 3, 2, 0), late=True)
@case("H9:8", late=True)
@case("H9:8", ends=True)
@case("", gains=(2, 2, 4, 0), ends=True)
@case("H9:8", has_side=False)
@case("", gains=each_of((2, 2, 4, 0), (2, 2, 0, 4)), has_side=False)
@case("H9:11", "7 held at half of its time, 11 at the end", gains=(4, 4, 4, 4), drops=(0, 1, 2, 2), has_side=False)
def more_and_more(s, gains=(2, 2, 2, 2), passing=2, drops=(0, 0, 0, 0), twice=(0, 0, 0, 0), uses=True, lost=False,
                  late=False, ends=False, rests=0):
    """A client is recorded from its start: it leaks, or fills a cache. Or its frames are missing, it starts late, it
    ends early, or it rests at the end, for somewhat less or more time than it worked."""
    if late:
        s.process(400, "early").main.writes(ENTER)
        s.wait(4000)
    manager, client, server = with_server(s)
    s.loses(client, lost)
    Quarters(s, client, manager).plays(server, gains, passing, drops, twice, uses)
    if ends:
        client.ends()
        rests = 6000
    s.wait(rests)


@case("P1:8")
@case("H5:8 P1:8", "(0 held at half of its time, 8 at the end; 8 of 8 that are kept are in use)",
      of_other=True, gains=(0, 0, 4, 4))
@case("P1:8", known=False)
@case("H9:8 P1:4", "4 held at half of its time, 8 at the end", lets_go=(1, 1, 1, 1), gains=(1, 1, 3, 3))
@case("P1:4", lets_go=(1, 1, 1, 1), gains=(1, 1, 7, 1))
@case("H9:4 P1:8", "4 held at half of its time, 8 at the end", lets_go=(8, 0, 0, 0), at=16)
@case("H9:4", "36 held at half of its time, 40 at the end, with what came before the capture", stays=36,
      lets_go=(0, 0, 0, 0), gains=(0, 0, 2, 2), passing=2)
@case("", stays=37, lets_go=(0, 0, 0, 0), gains=(0, 0, 2, 2), passing=2)
@case("P1:8", has_side=False)
@case("H10:12", gains=(3, 3, 3, 3), lets_go=(0, 0, 0, 0), uses=False, rests=6000)
@case("H9:8 P1:4", "4 held at half of its time, 8 at the end", lets_go=(1, 1, 1, 1), gains=(1, 1, 3, 3), rests=6000)
def had_before(s, gains=(2, 2, 2, 2), lets_go=(2, 2, 2, 2), stays=0, passing=0, known=True, of_other=False, at=100,
               uses=True, rests=0):
    """A client that is recorded from mid-life gets handles, and in each part lets go of some that it had before, the
    numbers of which may come again. It is known where these lead, to the server or to another one, if something was
    sent to them. At the end it may rest."""
    manager, client = s.two("in-mid-life")
    server, other = s.process(300, "server"), s.process(400, "other")
    quarters = Quarters(s, client, manager)
    client.main.is_passed(server.main, manager.main, 1, 3, node=0x9000)
    for handle in range(20, 20 + sum(lets_go) + stays) if known else ():
        client.main.asks((other if of_other else server).main, 8, handle, 0x100 * handle)
    quarters.plays(server, gains, passing, uses=uses, of_before=lets_go, at=at)
    s.wait(rests)


@case("H15:12", "real references taken more than once: 12 of 12 given by replies to code 5 of server 300 node 0x9000"
      " H15 (2 times, weakly, and let go of 0 times; handle 20, server 300 node 0x1400; held weakly)",
      "defect: references taken more than once | client on binder | given by replies to code 5 of server; key ")
@case("H15:10", gains=(3, 3, 2, 2))
@case("H4:9", "maybe references taken more than once: 9 of 9 given by replies to code 5 of server 300 node 0x9000 H4",
      gains=(3, 2, 2, 2))
@case("H15:10", gains=(3, 3, 3, 1))
@case("H4:10", gains=(4, 3, 2, 1))
@case("H4:12", gains=each_of((4, 4, 4, 0), (4, 4, 0, 4)))
@case("H15:44", gains=(20, 19, 3, 2))
@case("H4:45", gains=(21, 20, 2, 2))
@case("H4:12", lost=True)
@case("H15:12", has_side=False)
@case("H15:12 H4:1 H5:1", others=True)
def each_taken_twice(s, manager, client, server, gains=(3, 3, 3, 3), lost=False, others=False):
    """In each part of its time a client takes weak references twice of what it gets, and lets go of none. At first it
    may take another one once, and one that came another way twice."""
    s.loses(client, lost)
    quarters, at = Quarters(s, client, manager), 20
    if others:
        client.main.is_given(server.main, 9, weakly=True, **SERVER)
        client.main.is_given(server.main, 10, 6, weakly=True, **SERVER)
        client.main.writes(*each(BC_INCREFS, 10))
    for part, gained in enumerate(gains):
        quarters.lasts(part + 0.2)
        for handle in range(at, at + gained):
            client.main.is_given(server.main, handle, weakly=True, **SERVER)
            client.main.writes(*each(BC_INCREFS, handle))
        at += gained
    quarters.lasts(4)
    client.main.asks(manager.main)


# ---- some are kept, and others let go of


@case("H8:3", "given by replies to code 5 of server 300 node 0x9000 (4 others were let go of, each within 20 ms)")
@case("", let_go=3)
@case("", kept=2)
@case("", wait=190)
@case("", wait=190, brief=1)
@case("H8:3", "each within 3 ms", held=0, wait=105)
@case("", held=0, wait=90)
@case("", used=100, wait=150)
@case("H8:3", used=300, wait=400)
@case("", used=300, wait=250)
@case("H5:16", kept=16)
@case("", takes=False)
@case("M1:3", lost=True)
@case("", code=6)
@case("H8:3", "each within 20 ms; other 400 keeps 0 of 4", others=4)
@case("", let_go=0, others=4)
@case("H8:3", "each within 3 frames", held=0, wait=5, has_side=False)
@case("", held=0, wait=4, has_side=False)
def one_in_ten(s, manager, client, server, let_go=4, kept=3, held=17, wait=205, used=None, takes=True, code=5,
               lost=False, others=0, brief=0):
    """A client lets go of some handles a while after they came, and keeps others. It may use those once more later. Or
    what it lets go of came by another code, or was never taken, or went to another process."""
    for at in range(let_go + brief):
        client.main.is_given(server.main, 50, code, takes, **SERVER)
        s.wait(held if at < let_go else 0)
        if takes:
            client.main.writes(*each(BC_RELEASE, 50))
    if others:
        other = s.process(400, "other")
        other.main.is_given(manager.main, 1, server_handle=3)
        for _ in range(others):
            other.main.is_given(server.main, 2, node=0x8000, **SERVER)
            other.main.writes(*each(BC_RELEASE, 2))
    s.loses(client, lost)
    for handle in range(2, 2 + kept):
        client.main.is_given(server.main, handle, **SERVER)
    if used is not None:
        s.wait(used)
        for handle in range(2, 2 + kept):
            client.main.asks(server.main, 8, handle, 0x100 * handle)
    passes(s, wait, client, manager)


@case("")
def one_in_ten_services(s, service, client):
    """The same of what the context manager gives."""
    for _ in range(4):
        client.main.is_given(service.main, 50)
        client.main.writes(*each(BC_RELEASE, 50))
    for handle in range(2, 5):
        client.main.is_given(service.main, handle)
    s.wait(300)


@case("H8:3", "given by calls of code 4 from client 200 (4 others were let go of, each within ", one=True)
@case("", one=False)
def one_in_ten_callbacks(s, manager, client, server, one):
    """A server keeps some of the objects that a client hands over, and lets go of others, or of those of another
    client."""
    other = s.process(400, "other")
    other.main.is_given(manager.main, 1, server_handle=3)
    for handle in range(20, 24):
        calls_back(client.main if one else other.main, server.main, handle)
        server.main.writes(*each(BC_RELEASE, handle))
    for handle in range(30, 33):
        calls_back(client.main, server.main, handle)
    s.wait(300)


# ---- processes of one name


@case("H5:24", "maybe references kept: 12 of 12 given by calls of code 4 from broker (3 processes) H5",
      "maybe references kept: 12 of 12 given by replies to code 5 of maker 350 node 0xa000 in 3 processes H5",
      "groups that are maybe: 2", names=("broker", "broker", "broker"))
@case("H5:24", "maybe references kept: 12 of 12 given by calls of code 4 from broker, agent (3 processes) H5",
      "defect: references kept | server on binder | given by calls of code 4 from agent;",
      "groups that are maybe: 2", names=("agent", "broker", "broker"))
@case("H5:48", "maybe references kept: 24 of 24 given by calls of code 4 from a, b, c, d and 2 others (6 processes) H5",
      "groups that are maybe: 2", names=("f", "e", "d", "c", "b", "a"))
@case("H5:40", "from a, b, c, d and 1 other (5 processes) H5", names=("a", "b", "c", "d", "e"))
@case("H5:32", "from a, b, c, d (4 processes) H5", names=("a", "b", "c", "d"))
@case("H5:24", "groups that are maybe: 3", names=("broker", "broker"), keeper="keeper")
@case("H5:24", "maybe references kept: 16 of 16 given by calls of code 4 from broker (2 processes) in 2 processes H5",
      "groups that are maybe: 2", names=("broker", "broker"), keeper="server")
@case("H5:24", "maybe references kept: 12 of 12 given by calls of code 4 from server (3 processes) H5",
      "groups that are maybe: 2", names=("server", "server", "server"), first=3000)
def kept_of_one_name(s, manager, server, names, first=400, keeper=None):
    """Some processes get objects from a maker, keep them, and hand them over to a server, which keeps them too, as
    another one may. They may have the name of the server, and numbers that begin with its own."""
    maker = s.process(350, "maker")
    maker.main.gives(manager.main, 4, node=0xA000)
    keepers = [(server, 1, 0x9000)]
    if keeper:
        keepers.append((s.process(360, keeper), 3, 0xE000))
        keepers[1][0].main.gives(manager.main, 5, node=0xE000)
    for number, name in enumerate(names):
        broker = s.process(first + number, name)
        broker.main.is_given(manager.main, 1, server_handle=3)
        broker.main.is_given(manager.main, 2, server_handle=4)
        if keeper:
            broker.main.is_given(manager.main, 3, server_handle=5)
        for handle in range(10, 14):
            node_of = 0xB000 + 0x1000 * number + 0x100 * handle
            broker.main.is_given(maker.main, handle, via=2, ptr=0xA000, node=node_of)
            for one, via, ptr in keepers:
                sent = broker.main.sends(via, 4, body=of_handle(2, handle), listed=offsets(0))
                address = one.main.gets(sent, ptr, of_handle(2, 10 * number + handle))
                one.main.writes(*each(BC_ACQUIRE, 10 * number + handle))
                broker.main.answered(one.main.replies(address))
    s.wait(300)
