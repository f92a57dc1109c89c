"""More sessions as in cases.py: what comes of the death of a process, and what tells of one death in one group."""

from checks.kit.captures import (BC_ACQUIRE, BC_CLEAR_DEATH_NOTIFICATION, BC_DEAD_BINDER_DONE, BC_RELEASE,
                                 BC_REQUEST_DEATH_NOTIFICATION, BR_CLEAR_DEATH_NOTIFICATION_DONE, BR_DEAD_BINDER,
                                 BR_DEAD_REPLY, ENTER, each, each_long, of_handle, offsets, watch)
from checks.viewer.sessions.cases import case, each_of, with_server
from checks.viewer.sessions.kept_cases import calls_back
from checks.viewer.sessions.session import ONE_WAY, node_object


@case("H3:3", "given by calls of code 4: 3 of 5 that came so)", dead=3, alive=2)
@case("H3:4", "given by calls of code 4: 4 of 4 that came so)", dead=4, alive=0)
@case("H3:3 U4:1", "3 of 3 handles, short-lived H3 (told at 5220; given by calls of code 4: 3 of 3 that came so; with 1"
      " death not acknowledged)", "groups that are maybe: 1", dead=3, alive=0, done=2)
def callbacks_of_the_dead(s, manager, server, dead, alive, done=9):
    """A server keeps an object of each of some clients, of which some end. It acknowledges the first deaths."""
    others = [s.process(400 + at, "short-lived") for at in range(dead + alive)]
    for handle, other in enumerate(others, 20):
        other.main.is_given(manager.main, 1, server_handle=3)
        calls_back(other.main, server.main, handle)
        server.main.writes(watch(BC_REQUEST_DEATH_NOTIFICATION, handle, handle))
    for handle, other in enumerate(others[:dead], 20):
        other.ends()
        server.main.reads(*each_long(BR_DEAD_BINDER, handle))
        server.main.writes(*(each_long(BC_DEAD_BINDER_DONE, handle) if handle < 20 + done else [ENTER]))
    server.main.writes(ENTER)
    s.wait(200)


@case("D8:3 H3:3", "real deaths not acknowledged: 3 of - handles, short-lived D8 (given by calls of code 4; with 3"
      " references to the dead)", "groups that are maybe: 0", "D8 by server 300: 3")
@case("D11:3", "groups that are real: 0", "groups that are maybe: 1", "D11 by server 300: 3", lets_go=True)
@case("D9:2", "groups that are maybe: 0", dead=2, lets_go=True)
@case("D11:3", dead=5, done=2, lets_go=True)
@case("D9:2", dead=5, done=3, lets_go=True)
@case("D9:3", "groups that are maybe: 0", lets_go=True, of_manager=True)
@case("H3:2 U4:2", dead=2, wait=1100)
@case("D8:4 H3:5", dead=5, done=1)
@case("H3:5 U4:3", dead=5, done=2)
@case("H3:4 U4:3 U5:1", last=1)
@case("D8:4 H3:5 U5:1", dead=4, last=1)
@case("H3:3 M1:3", lost=True)
def deaths_not_acknowledged(s, dead=3, done=0, lets_go=False, last=0, wait=200, lost=False, of_manager=False):
    """A server, or the manager, keeps or lets go of an object of each of some clients that end, and acknowledges the
    first deaths. `last`: so many more deaths come last, and its thread does nothing more."""
    manager, _, server = with_server(s)
    if of_manager:
        server = manager
    others = [s.process(400 + at, "short-lived") for at in range(dead + last)]
    for handle, other in enumerate(others, 20):
        other.main.is_given(manager.main, 1, server_handle=3)
        calls_back(other.main, server.main, handle, **({"via": 0, "ptr": 0} if of_manager else {}))
        server.main.writes(watch(BC_REQUEST_DEATH_NOTIFICATION, handle, handle))
    s.loses(server, lost)
    for handle, other in enumerate(others, 20):
        other.ends()
        server.main.reads(*each_long(BR_DEAD_BINDER, handle))
        if handle < 20 + done:
            server.main.writes(*each_long(BC_DEAD_BINDER_DONE, handle))
        if lets_go:
            server.main.writes(*each(BC_RELEASE, handle))
        if handle < 20 + dead:
            server.main.writes(ENTER)
            server.main.writes(ENTER)
    s.wait(wait)


# ---- what tells of one death


@case("H3:1", "maybe references to an object told dead: 1 of 1 handle 1, ", "groups that are maybe: 1", done=True)
@case("H3:1 U4:1", "maybe references to an object told dead: 1 of 1 handle 1, ", "groups that are maybe: 1",
      "1 of 1 that came so; with 1 death not acknowledged)")
@case("D3:1 H3:1 U4:1", "groups that are maybe: 1", "groups that are explained: 0",
      "1 of 1 that came so; with 1 death not acknowledged and 1 clear not confirmed)", clears=True)
@case("D3:1 U4:1", "groups that are maybe: 1", "groups that are explained: 0", "(with 1 clear not confirmed)",
      clears=True, lets_go=True)
@case("E1:3 H3:1", "real calls that failed: 3 of 3 code 7 to short-lived 300 node 0x9000 E1",
      "groups that are maybe: 0", "; with 1 reference to the dead)", done=True, calls=3)
@case("E13:2 H3:1", "maybe calls that failed: 2 of 2 code 7 to short-lived 300 node 0x9000 E13",
      "groups that are maybe: 1", "; with 1 reference to the dead)", done=True, calls=2)
@case("E1:3 E13:2 H3:1", "real calls that failed: 3 of 3 code 7 to short-lived 300 node 0x9000 E1",
      "groups that are maybe: 0", "; with 2 other sends to the dead and 1 reference to the dead)", done=True, calls=3,
      before=2)
@case("D3:1 E1:3 H3:1 U4:1", "real calls that failed: 3 of 3 code 7 to ", "groups that are maybe: 0",
      "groups that are explained: 0",
      "; with 1 reference to the dead and 1 death not acknowledged and 1 clear not confirmed)", clears=True, calls=3)
@case("D9:1 E1:3", "real calls that failed: 3 of 3 code 7 to ", "groups that are maybe: 0", calls=3, lets_go=True)
@case("D9:1", "groups that are maybe: 0", "groups that are explained: 1", lets_go=True)
@case("H3:2 U4:2", "maybe references to an object told dead: 2 of 2 handles, short-lived H3",
      "groups that are maybe: 1", "; with 2 deaths not acknowledged)", objects=2)
@case("D9:1 H3:1 U4:1", "maybe references to an object told dead: 1 of 1 handle 1, ", "groups that are maybe: 1",
      "; with 1 death not acknowledged)", objects=2, lets_go_of=2)
@case("H3:1 L1:1", "groups that are maybe: 1", "groups that are explained: 1", "1 of 1 that came so)", done=True,
      objects=2, lets_go_of=2, late=True)
@case("D9:1 H3:1 U4:1", "maybe references to an object told dead: 1 of 1 handle 1, ",
      "explained deaths not acknowledged: 1 of - handle 20, other 500 node 0x9000 D9", "groups that are maybe: 1",
      "; with 1 death not acknowledged)", other=True)
def death(s, service, client, done=False, clears=False, calls=0, before=0, lets_go=False, objects=1, lets_go_of=0,
          other=False, late=False):
    """A client is told of the death of a process by each of its objects. It acknowledges that or not, lets go of them
    or not, clears its requests, and makes calls to the first object, all the same, `before` with another code.
    `other`: it is also told of the death of another process, whose object it lets go of, and does not acknowledge that
    either. `late`: of the last object it is told after the end of the recording."""
    short = s.process(300, "short-lived")
    handles = list(range(1, 1 + objects))
    for handle in handles:
        short.main.gives(service.main, 20 + handle, 20 + handle, 0x9000 * handle)
        client.main.is_given(service.main, handle, 40 + handle, server_handle=20 + handle)
    ends = [short]
    if other:
        ends.append(s.process(500, "other"))
        ends[1].main.gives(service.main, 40, 24, 0x9000)
        client.main.is_given(service.main, 20, 50, server_handle=40)
        handles.append(20)
    for handle in handles:
        client.main.writes(watch(BC_REQUEST_DEATH_NOTIFICATION, handle, 0xD0 + handle))
    for process in ends:
        process.ends()
    last = handles.pop() if late else None
    for handle in handles:
        client.main.reads(*each_long(BR_DEAD_BINDER, 0xD0 + handle))
        if done:
            client.main.writes(*each_long(BC_DEAD_BINDER_DONE, 0xD0 + handle))
        if clears:
            client.main.writes(watch(BC_CLEAR_DEATH_NOTIFICATION, handle, 0xD0 + handle))
    for code in [8] * before + [7] * calls:
        client.main.sends(1, code, told=BR_DEAD_REPLY)
    gone = handles if lets_go else [handle for handle in handles if handle in (lets_go_of, 20)]
    if gone:
        client.main.writes(*each(BC_RELEASE, *gone))
    client.main.goes_on(2)
    s.wait(1100)
    if late:
        s.stops()
        client.main.reads(*each_long(BR_DEAD_BINDER, 0xD0 + last))


@case("D9:1", when="before the clear")
@case("D3:1 U4:1", when="before the clear", whose="other")
@case("D3:1 U4:1", when="before the clear", cookie=0xD2)
@case("D3:1 U4:1", when=each_of("after the clear", "before the death"))
@case("D3:1 U4:2", when="before the death", both=True)
def cookie_is_used_again(s, service, client, when, whose="client", cookie=0xD1, both=False):
    """A client is told of a death, which it does not acknowledge, and lets go of the handle. It, or another client,
    also asks for the death of another object, with the same cookie or another one. The first cookie is cleared. `both`:
    the other object dies too."""
    other, short, lasting = s.process(300, "other"), s.process(400, "short-lived"), s.process(500, "lasting")
    for handle, process in enumerate((short, lasting), 1):
        process.main.gives(service.main, 20 + handle)
        for one in client, other:
            one.main.is_given(service.main, handle, 40 + handle, server_handle=20 + handle)

    def asks_again(now):
        if now == when:
            (client if whose == "client" else other).main.writes(watch(BC_REQUEST_DEATH_NOTIFICATION, 2, cookie))

    asks_again("before the death")
    client.main.writes(watch(BC_REQUEST_DEATH_NOTIFICATION, 1, 0xD1))
    for process in (short, lasting) if both else (short,):
        process.ends()
        client.main.reads(*each_long(BR_DEAD_BINDER, 0xD1))
    asks_again("before the clear")
    if (when, whose, cookie) == ("before the clear", "client", 0xD1):
        client.main.writes(watch(BC_CLEAR_DEATH_NOTIFICATION, 2, 0xD1))
        client.main.reads(*each_long(BR_CLEAR_DEATH_NOTIFICATION_DONE, 0xD1))
    else:
        client.main.writes(watch(BC_CLEAR_DEATH_NOTIFICATION, 1, 0xD1))
    asks_again("after the clear")
    client.main.writes(*each(BC_RELEASE, 1))
    s.wait(1100)
    client.main.writes(ENTER)


# ---- what is held of the ended, of whose death nobody asked to be told


@case("H12:3", "real references to ended processes: 3 of 3 given by calls of code 4 H12 (held for 1.1",
      " after short-lived 400 ended)", "groups that are real: 1", "| given by calls of code 4 from handle; key ")
@case("H12:3", "3 of 5 given by calls of code 4 H12", alive=2)
@case("", wait=950)
@case("", dead=2)
@case("", dead=2, let_go=1)
@case("", of_one=True)
@case("", rests=True, wait=3000)
@case("", asks=True)
@case("D1:1 H12:3", reused=True)
@case("", let_go=1, wait=1000)
@case("H12:3", let_go=1, wait=1200)
@case("H12:3", let_go=-1, wait=1000)
@case("M2:3", lost=each_of("server", "short-lived"))
@case("H12:3", lost="client")
@case("", to_manager=True)
@case("", at_once=True)
@case("", collects=0)
@case("H12:3", collects=1)
@case("", collects=-1)
def listeners_of_the_dead(s, manager, client, server, dead=3, alive=0, wait=1100, of_one=False, rests=False, asks=False,
                          reused=False, let_go=0, lost=None, to_manager=False, at_once=False, collects=None):
    """A server, or the manager, keeps an object of each of some clients, of which some end, or of one that ends. It
    asks for their deaths, or did so for what had these handles before. It goes on, or rests. `let_go`: it let go of one
    100 ms after its process ended, or before. Or all came at once, and it is not known which is of whom. `collects`: it
    lets go of handles only by collecting garbage, and did so before they ended, or after that, or never. `lost`: of
    this process a frame is lost."""
    if collects is not None:
        server.is_called("system_server")
        server.main.is_given(manager.main, 90)
    holder = manager.main if to_manager else server.main

    def registers(other, *handles, asking=asks):
        if not to_manager:
            other.main.is_given(manager.main, 1, server_handle=3)
        for handle in handles:
            if to_manager:
                other.main.gives(manager.main, handle)
            else:
                calls_back(other.main, server.main, handle)
            if asking:
                holder.writes(watch(BC_REQUEST_DEATH_NOTIFICATION, handle, handle))

    if reused or let_go:
        brief = s.process(390, "brief")
        registers(brief, 20, asking=reused)
        if let_go < 0:
            holder.writes(*each(BC_RELEASE, 20))
        brief.ends()
        s.wait(100)
        if let_go >= 0:
            holder.writes(*each(BC_RELEASE, 20))
    others = [s.process(400 + at, "short-lived") for at in range(1 if of_one else dead + alive)]
    if lost:
        s.loses({"server": server, "short-lived": others[0], "client": client}[lost])
    if at_once:
        register_at_once(others, manager, server)
    elif of_one:
        registers(others[0], *range(20, 20 + dead))
    else:
        for handle, other in enumerate(others, 20):
            registers(other, handle)
    if collects == -1:
        server.main.writes(*each(BC_RELEASE, 90))
    for other in others[:dead]:
        other.ends()
    if collects == 1:
        server.main.writes(*each(BC_RELEASE, 90))
    s.wait(wait)
    if not rests:
        holder.asks(manager.main) if holder is not manager.main else holder.writes(ENTER)


def register_at_once(others, manager, server):
    """All send their objects oneway before the server gets one."""
    for other in others:
        other.main.is_given(manager.main, 1, server_handle=3)
    sent = [other.main.sends(1, 6, ONE_WAY, node_object(0x9900), offsets(0)) for other in others]
    for handle, one in enumerate(sent, 20):
        server.main.frees(server.main.gets(one, 0x9000, of_handle(2, handle)))
        server.main.writes(*each(BC_ACQUIRE, handle))


@case("H12:3", "3 of 3 given by calls of code 4 H12", dead=3, others=2)
@case("", dead=2, others=1)
@case("H12:3", "3 of 3 given by calls of code 4 H12", dead=3, others=2, elsewhere=True)
@case("", dead=2, others=2, elsewhere=True)
def listeners_of_two_ways(s, manager, server, dead, others, elsewhere=False):
    """A server keeps the objects of so many that end, and as many came by another code, or to another server."""
    second = s.process(310, "second")
    second.main.gives(manager.main, 5, node=0x9000)
    clients = [s.process(400 + at, "short-lived") for at in range(dead + others)]
    for handle, client in enumerate(clients, 20):
        is_other = handle >= 20 + dead
        client.main.is_given(manager.main, 1, server_handle=5 if is_other and elsewhere else 3)
        calls_back(client.main, (second if is_other and elsewhere else server).main, handle,
                   code=6 if is_other and not elsewhere else 4)
    for client in clients:
        client.ends()
    s.wait(1100)
    for one in server, second:
        one.main.asks(manager.main)
