"""More sessions as in cases.py: handles, nodes, deaths, clears, frees, objects, and oneway sends that never came."""

from checks.kit.captures import (BC_ACQUIRE, BC_ACQUIRE_DONE, BC_CLEAR_DEATH_NOTIFICATION, BC_DEAD_BINDER_DONE,
                                 BC_DECREFS, BC_EXIT_LOOPER, BC_INCREFS, BC_RELEASE, BC_REQUEST_DEATH_NOTIFICATION,
                                 BR_ACQUIRE, BR_CLEAR_DEATH_NOTIFICATION_DONE, BR_DEAD_BINDER, BR_FAILED_REPLY,
                                 BR_RELEASE, ENTER, each, each_long, node, of_handle, offsets, record, watch)
from checks.viewer.sessions.cases import case, each_of
from checks.viewer.sessions.session import DONE, ONE_WAY, UPDATE_TXN, Sent


# ---- handles and nodes


@case("H1:1", met="from-start")
@case("P1:1", met="in-mid-life")
@case("M1:1", "defect: references held | client", met="from-start", lost=True)
@case("P1:1", met="from-start", unseen=True)
def handle_from_nowhere(s, service, client, lost=False, unseen=False):
    """A process takes a handle that nobody gave it; or it got a delivery with objects that the recorder left out."""
    address = service.main.gets(client.main.sends(0, 5))
    body, listed = (of_handle(2, 7), offsets(0)) if unseen else (b"data", b"")
    client.main.answered(service.main.replies(address, body if not unseen else b"", b""), body, listed, seen=not unseen)
    s.loses(client, lost)
    client.main.writes(*each(BC_ACQUIRE, 7))


@case("H1:1 P1:1")
def handle_of_an_unseen_object(s):
    """Two deliveries with objects come that the recorder left out, the second one after the process took a handle that
    nobody was seen to give. Another process, which got none, takes one too. None calls the manager."""
    client, other = s.process(200, "client"), s.process(300, "other")
    for handle in 7, 8:
        sent = Sent(other.main, 3, ONE_WAY, of_handle(2, handle), offsets(0))
        client.main.frees(client.main.gets(sent, 0x500, seen=False))
        client.main.writes(*each(BC_ACQUIRE, 7) if handle == 7 else [])
    other.main.writes(*each(BC_ACQUIRE, 7))


@case("H2:1", "(1 time too often; given by replies to code 5 of service 100 node 0x0: 1 of 1 that came so)")
@case("H2:1", "(3 times too often; given by replies to code 5 of service 100 node 0x0: 3 of 3 that came so)", again=3)
@case("H2:1", "(2 times too often; given by replies to code 5 of service 100 node 0x0: 2 of 5 that came so)", again=2,
      well=3)
@case("H2:1", "(2 times too often; given by replies to code 5 of service 100 node 0x0: 2 of 2 that came so)", again=2,
      weakly=True)
@case("P1:1", met="in-mid-life")
@case("M1:1", lost=True)
def let_go_too_often(s, service, client, again=1, well=0, weakly=False, lost=False):
    """One handle after another of the same number is taken, and let go of twice; then others once."""
    for at in range(again + well):
        client.main.is_given(service.main, 1, node=0x100 * (at + 1), weakly=weakly)
        s.loses(client, lost)
        client.main.writes(*each(BC_DECREFS if weakly else BC_RELEASE, *[1] * (2 if at < again else 1)))


def told_dead(s, count, wait, clients=1, ends=None):
    """The client holds handles of processes of whose death it is told; or each of several clients those of others. It
    may end so long before the end."""
    service, client = s.two()
    holders = [client.main, *(s.process(500 + at, "client").main for at in range(1, clients))]
    others = [s.process(300 + at, "short-lived") for at in range(count * clients)]
    for at, other in enumerate(others, 1):
        holder = holders[(at - 1) // count]
        other.main.gives(service.main, at + 20, code=20 + at)
        holder.is_given(service.main, at, server_handle=at + 20, code=40 + at)
        holder.writes(watch(BC_REQUEST_DEATH_NOTIFICATION, at, 0xD + at))
    for at, other in enumerate(others, 1):
        holder = holders[(at - 1) // count]
        other.ends()
        holder.reads(*each_long(BR_DEAD_BINDER, 0xD + at))
        holder.writes(*each_long(BC_DEAD_BINDER_DONE, 0xD + at))
        service.main.writes(*each(BC_RELEASE, at + 20))
    s.wait(wait)
    if ends is not None:
        client.ends()
        s.wait(ends)
        service.main.writes(ENTER)


@case("H3:1", "; given by replies to code 41 of service 100 node 0x0: 1 of 1 that came so)", count=1, wait=1100)
@case("", count=each_of(1, 2), wait=900)
@case("", count=2, wait=900, clients=2)
@case("H3:3", count=3, wait=200)
@case("H3:3", count=3, wait=200, has_side=False)
@case("", count=3, wait=50)
@case("", count=1, wait=500, ends=600)
def proxies_of_the_dead(s, count, wait, clients=1, ends=None):
    told_dead(s, count, wait, clients, ends)


@case("H3:1", "(told at 1464; ")
def proxy_told_dead_twice(s, service, client):
    """A process asks twice for the death of an object, and is told so first long, and then shortly before the end. The
    service has two threads."""
    service.looper(1)
    other = s.process(300, "short-lived")
    client.main.is_passed(other.main, service.main, 1, 21)
    for cookie in 0xD, 0xE:
        client.main.writes(watch(BC_REQUEST_DEATH_NOTIFICATION, 1, cookie))
    other.ends()
    for cookie in 0xD, 0xE:
        client.main.reads(*each_long(BR_DEAD_BINDER, cookie))
        client.main.writes(*each_long(BC_DEAD_BINDER_DONE, cookie))
        s.wait(600)
    service.main.writes(*each(BC_RELEASE, 21))


@case("H4:1", takes=2, releases=each_of(0, 1), threads=1)
@case("", takes=2, releases=2, threads=1)
@case("", takes=1, releases=0, threads=1)
@case("", takes=2, releases=0, threads=2)
@case("H4:1", takes=3, releases=0, threads=2)
@case("", takes=3, releases=1, threads=2)
@case("H4:1", takes=2, releases=0, threads=1, weak=True)
@case("H4:1", takes=3, releases=0, threads=2, weak=True)
@case("C5:1", takes=3, releases=0, threads=2, calls=1)
@case("C5:1 H4:1", takes=4, releases=0, threads=2, calls=1)
@case("C5:2", takes=4, releases=0, threads=2, calls=2)
@case("C5:1 H4:1", takes=2, releases=0, threads=1, calls=1)
@case("C5:1", takes=3, releases=0, threads=2, calls=1, weak=True)
def taken_again(s, service, client, takes, releases, threads, weak=False, calls=0):
    """A handle is taken several times, by one thread or by two in turns. `calls`: so many of them are in a call."""
    client.main.is_given(service.main, 1, take=False)
    both = [client.main, client.thread(1)][:threads]
    take, release = (BC_INCREFS, BC_DECREFS) if weak else (BC_ACQUIRE, BC_RELEASE)
    for at in range(takes):
        both[at % threads].writes(*each(take, 1))
    for at in range(releases):
        both[-1].writes(*each(release, 1))
    for one in both[:calls]:
        one.sends(0, 1)
    s.wait(300)


@case("H4:2")
def taken_again_beside(s, service, client):
    """A thread takes each of two handles twice, and one that it holds weakly once at a time. Another thread calls by
    the first one and takes a fourth, and another process takes a handle of the same number."""
    for handle in 1, 2, 3, 4:
        client.main.is_given(service.main, handle, take=False)
    client.main.writes(*each(BC_ACQUIRE, 1, 1, 2, 2), *each(BC_INCREFS, 3), *each(BC_ACQUIRE, 3), *each(BC_RELEASE, 3),
                       *each(BC_ACQUIRE, 3))
    beside = client.thread(1)
    beside.asks(service.main, 1, 1, 0x100)
    beside.writes(*each(BC_ACQUIRE, 4))
    s.process(300, "other").main.is_given(service.main, 1)
    s.wait(300)


@case("H11:1", "16 times, and let go of 0 times; 5 held at half of its time, 16 at the end)", gains=(4, 1, 6, 5))
@case("H11:1", "2 held at half of its time, 12 at the end)", gains=(1, 1, 5, 5))
@case("H4:1", "11 times, and let go of 0 times)", gains=(1, 1, 5, 4))
@case("H4:1", gains=each_of((1, 1, 11, 0), (1, 1, 0, 11), (60, 41, 5, 5)))
@case("H11:1", "23 times, and let go of 11 times; 2 held", gains=(1, 1, 16, 5), drops=(0, 0, 11, 0))
@case("H11:1", "12 times, weakly, and let go of 0 times; 2 held", gains=(1, 1, 5, 5), weak=True)
@case("H4:1", gains=(1, 1, 5, 5), lost=True)
@case("H11:1", "2 held at half of its time, 12 at the end)", gains=(1, 1, 5, 5), has_side=False)
@case("H11:1", "2 held at half of its time, 12 at the end)", gains=(1, 1, 5, 5), rests=1900)
@case("H4:1", gains=(1, 1, 5, 5), rests=2100)
def more_references(s, service, client, gains, drops=(0, 0, 0, 0), weak=False, lost=False, rests=0):
    """References to one object are taken and let go of, so many in each quarter of what is recorded of a client. At the
    end it may rest."""
    client.main.is_given(service.main, 1, take=False)
    take, release = (BC_INCREFS, BC_DECREFS) if weak else (BC_ACQUIRE, BC_RELEASE)
    s.loses(client, lost)
    for gained, dropped in zip(gains, drops):
        client.main.writes(*each(take, *[1] * gained))
        client.main.writes(*each(release, *[1] * dropped))
        client.main.asks(service.main, times=0 if s.has_side else 20)
        s.wait(1000)
    s.wait(rests)


@case("", first=2, then=1)
@case("", first=2, then=1, weak=True)
def taken_again_before(s, service, client, first, then, weak=False):
    """An earlier generation of a handle was taken twice; this one is taken once at a time, and held in another way."""
    take, release, other = (BC_INCREFS, BC_DECREFS, BC_ACQUIRE) if weak else (BC_ACQUIRE, BC_RELEASE, BC_INCREFS)
    client.main.is_given(service.main, 1, take=False)
    client.main.writes(*each(take, *[1] * first))
    client.main.writes(*each(release, *[1] * first))
    client.main.is_given(service.main, 1, take=False, node=0x800)
    client.main.writes(*each(other, 1))
    for _ in range(then):
        client.main.writes(*each(take, 1))
        client.main.writes(*each(release, 1))
    client.main.writes(*each(take, 1))
    s.wait(300)


@case("H6:2 H7:2", "normal references held: 1 of 2", "normal references, balanced: 1 of -",
      "normal own objects held by others: 1 of -", "normal own objects, balanced: 1 of -")
def handles_and_nodes(s, service, client):
    """A handle that is held and one that is not, and the same of nodes."""
    for handle in 1, 2:
        client.main.is_given(service.main, handle)
    client.main.writes(*each(BC_RELEASE, 2))
    for ptr in 0x100, 0x200:
        service.main.reads(node(BR_ACQUIRE, ptr, 0))
        service.main.writes(node(BC_ACQUIRE_DONE, ptr, 0))
    service.main.reads(node(BR_RELEASE, 0x200, 0))


@case("U4:1", then=2, ends=0)
@case("U6:1", then=1, ends=0)
@case("M1:1", then=2, ends=0, lost=True)
@case("T1:1", then=2, ends=1, wait=50)
@case("U4:1", then=2, ends=1, wait=150)
def not_acknowledged(s, service, client, then, ends, wait=200, lost=False):
    """The driver asks for a reference, and the process does not acknowledge it, but goes on or ends."""
    client.main.asks(service.main)
    s.loses(client, lost)
    client.main.reads(node(BR_ACQUIRE, 0x500, 0x501))
    client.main.goes_on(then)
    s.wait(wait)
    if ends:
        client.ends()
        s.wait(300)


@case("H18:3", "node 0x901 (handed over with code 5)", "node 0x902 (handed over with code 6)",
      "real references never acknowledged: 3 of ")
@case("H18:4", count=5, done=1)
@case("U4:3", "U4 ()", count=4, done=1)
@case("U4:2", count=2)
@case("M1:3", lost=True)
@case("U4:2 U6:1", then=1)
@case("H18:3 U4:1", "node 0x901 (handed over with code 5)", other=True)
@case("H18:3 U4:1", death=True)
@case("U4:3", count=2, death=True)
@case("H18:3 H4:1", "node 0x901 (handed over with code 5)", again=True)
def nodes_not_acknowledged(s, count=3, done=0, lost=False, then=2, other=False, death=False, again=False):
    """The driver asks for references to the objects of a client, which acknowledges some, and goes on. Another process,
    whose object has the same address, handed it over before, and does not acknowledge it; or a death is not
    acknowledged either. Or the client hands its first object over once more."""
    service, client = s.two()
    s.loses(client, lost)
    if other:
        third = s.process(300, "third")
        third.main.gives(service.main, 30, code=20, node=0x901)
        third.main.reads(node(BR_ACQUIRE, 0x901, 0))
        third.main.goes_on(2)
    if death:
        short = s.process(310, "short-lived")
        client.main.is_passed(short.main, service.main, 31, 31, node=0xA00)
        client.main.writes(watch(BC_REQUEST_DEATH_NOTIFICATION, 31, 0xD))
        short.ends()
        client.main.reads(*each_long(BR_DEAD_BINDER, 0xD))
    for at in range(1, count + 1):
        client.main.gives(service.main, at, code=4 + at, node=0x900 + at)
        client.main.reads(node(BR_ACQUIRE, 0x900 + at, 0))
        if at <= done:
            client.main.writes(node(BC_ACQUIRE_DONE, 0x900 + at, 0))
    if again:
        client.main.gives(service.main, 1, code=21, node=0x901)
    client.main.goes_on(then)
    s.wait(200)


# ---- deaths and clears


def watching(s, met="from-start", weakly=False):
    service, client = s.two(met)
    client.main.is_given(service.main, 1, take=not weakly)
    client.main.writes(*(each(BC_INCREFS, 1) if weakly else []), watch(BC_REQUEST_DEATH_NOTIFICATION, 1, 0xD))
    return service, client


@case("T1:1", then=2, wait=60, ends=True)
@case("T1:1", then=2, wait=60, ends=True, first=200)
@case("U4:1", then=2, wait=150, ends=True)
@case("U4:1", then=2, wait=200)
@case("U6:1", then=1, wait=50)
@case("U5:1", then=1, wait=200)
@case("M1:1", then=2, wait=200, lost=True)
@case("T1:1", then=2, wait=60, ends=True, thread=True)
def clear_not_confirmed(s, then, wait, ends=False, lost=False, thread=False, first=0):
    _, client = watching(s)
    s.wait(first)
    s.loses(client, lost)
    clearing = client.thread(1) if thread else client.main
    clearing.writes(watch(BC_CLEAR_DEATH_NOTIFICATION, 1, 0xD))
    clearing.goes_on(then)
    s.wait(wait)
    if ends:
        clearing.ends() if thread else client.ends()
        s.wait(300)


@case("T1:1", wait=900)
@case("U4:1", wait=1100)
@case("U4:1", wait=900, leaves=each_of("", "before"))
@case("T1:1", wait=900, leaves="before, after")
@case("U4:1", wait=900, of="service")
@case("U4:1", wait=500, ends=False)
@case("T1:1 U6:1", wait=900, keeps=True)
def clears_and_leaves(s, wait, leaves="after", of="client", ends=True, keeps=False):
    """A client clears its request, and its other threads, or one of the service, leave the pool after that or before;
    then the client ends, or goes on. It may also keep the buffer of a reply."""
    service, client = watching(s)
    if keeps:
        client.main.asks(service.main, free=False)
    loopers = [(client if of == "client" else service).looper(at) for at in (1, 2)]
    if "before" in leaves:
        loopers[0].writes(record(BC_EXIT_LOOPER))
    client.main.writes(watch(BC_CLEAR_DEATH_NOTIFICATION, 1, 0xD))
    client.main.goes_on(2)
    if "after" in leaves:
        loopers[1].writes(record(BC_EXIT_LOOPER))
    s.wait(wait)
    if ends:
        client.ends()
    s.wait(300)


@case("U4:1")
def death_and_leaves(s):
    """A client does not acknowledge a death, and its other thread leaves the pool half a second before it ends."""
    service, client = watching(s)
    other = client.looper(1)
    service.ends()
    client.main.reads(*each_long(BR_DEAD_BINDER, 0xD))
    client.main.goes_on(2)
    other.writes(record(BC_EXIT_LOOPER))
    s.wait(500)
    client.ends()
    s.wait(300)


@case("U4:1")
def buffer_of_a_thread_that_ends(s, service, client):
    """A thread of a service replies to a call, keeps its buffer, and ends soon after that; the service goes on."""
    other = service.looper(1)
    sent = client.main.sends(0, 1)
    other.gets(sent)
    client.main.answered(other.replies())
    client.main.asks(other, 2)
    s.wait(50)
    other.ends()
    s.wait(300)


@case("D10:1", "given by replies to code 5 of service 100 node 0x0 (the request is at 708)",
      "real clears with another cookie: 1 of - given by replies to code 5 of service 100 node 0x0 D10")
@case("U6:1", cookie=0xD)
@case("U6:1", asks=False)
@case("U6:1", clears=True)
@case("D2:1", again=0xE)
@case("D10:1 D2:1", again=0xF)
@case("U6:1", met="in-mid-life")
@case("M1:1", lost=True)
@case("D10:1", reused=True)
@case("D10:1", ends=True)
def clear_with_another_cookie(s, service, client, cookie=0xE, asks=True, clears=False, again=None, lost=False,
                              reused=False, ends=False):
    """A client asks for the death of an object, or does so only for what had this handle before, and clears with a
    cookie. Before that it may clear with the right one, or ask again with another one."""
    for round in (1, 2) if reused else (2,):
        client.main.is_given(service.main, 1, node=0x100 * round)
        if asks:
            client.main.writes(watch(BC_REQUEST_DEATH_NOTIFICATION, 1, 0xE if round == 1 else 0xD))
        if round == 1:
            client.main.writes(*each(BC_RELEASE, 1))
    s.loses(client, lost)
    if clears:
        client.main.writes(watch(BC_CLEAR_DEATH_NOTIFICATION, 1, 0xD))
        client.main.reads(*each_long(BR_CLEAR_DEATH_NOTIFICATION_DONE, 0xD))
    if again:
        client.main.writes(watch(BC_REQUEST_DEATH_NOTIFICATION, 1, again))
    client.main.writes(watch(BC_CLEAR_DEATH_NOTIFICATION, 1, cookie))
    if ends:
        client.ends()


@case("T1:1", wait=60, ends=True)
@case("U4:1", wait=150, ends=True)
@case("D3:1 U4:1", wait=200, clears=True)
def death_not_acknowledged(s, wait, ends=False, clears=False):
    _, client = watching(s)
    client.main.reads(*each_long(BR_DEAD_BINDER, 0xD))
    if clears:
        client.main.writes(watch(BC_CLEAR_DEATH_NOTIFICATION, 1, 0xD))
    client.main.goes_on(2)
    s.wait(wait)
    if ends:
        client.ends()
        s.wait(300)


@case("D6:1", "cookie 0xd", clears=2, confirmed=2)
@case("D4:1 D6:1", clears=2, confirmed=3)
@case("D4:1", clears=1, confirmed=2)
@case("M1:1", clears=1, confirmed=2, lost=True)
@case("P1:1", clears=1, confirmed=2, met="in-mid-life")
@case("D4:1", clears=1, confirmed=2, called=True)
def cookie_again(s, service, client, clears, confirmed, lost=False, called=False):
    """Requests of several handles with one cookie are cleared, and then all are confirmed. An object of the process may
    have that cookie, too, and get something."""
    for handle in range(1, clears + 1):
        client.main.is_given(service.main, handle)
        client.main.writes(watch(BC_REQUEST_DEATH_NOTIFICATION, handle, 0xD))
    s.loses(client, lost)
    client.main.writes(*(watch(BC_CLEAR_DEATH_NOTIFICATION, handle, 0xD) for handle in range(1, clears + 1)))
    if called:
        client.main.frees(client.main.gets(service.main.sends(7, 3, ONE_WAY), 0x500, cookie=0xD))
    client.main.reads(*each_long(BR_CLEAR_DEATH_NOTIFICATION_DONE, *[0xD] * confirmed))


@case("D4:1 U6:1", death=each_of(False, True))
def answer_of_another(s, death):
    """A clear waits for its confirmation, and one of another cookie comes; or a death for its acknowledgement, and a
    confirmation of its cookie comes."""
    _, client = watching(s)
    if death:
        client.main.reads(*each_long(BR_DEAD_BINDER, 0xD))
    else:
        client.main.writes(watch(BC_CLEAR_DEATH_NOTIFICATION, 1, 0xD))
    client.main.reads(*each_long(BR_CLEAR_DEATH_NOTIFICATION_DONE, 0xD if death else 0xE))


@case("D4:1", deaths=1, done=2)
@case("D6:1", deaths=2, done=2)
def death_acknowledged_again(s, deaths, done):
    _, client = watching(s)
    client.main.reads(*each_long(BR_DEAD_BINDER, *[0xD] * deaths))
    client.main.writes(*each_long(BC_DEAD_BINDER_DONE, *[0xD] * done))


@case("U6:1", "cookie 0xd")
def only_a_death(s):
    """The capture has nothing but a death."""
    s.process(200, "client").main.reads(*each_long(BR_DEAD_BINDER, 0xD))


@case("D1:1", release=True)
@case("P1:1", release=True, met="in-mid-life")
@case("P1:1", release=True, met="before-file", held=1)
@case("D1:1", release=True, met="before-file", held=2)
@case("D1:1", release=True, weakly=True)
@case("D5:1", release=False)
@case("D5:1", release=False, met="in-mid-life")
@case("D2:1 D5:1", "the one before is at", release=False, again=True)
def request_left(s, release, again=False, met="from-start", held=None, weakly=False):
    """A request stays. Its handle is let go of, or not; a flight recorder had met this handle before, or another."""
    if held:
        s.tell(f"handle 0 200 {held}")
    _, client = watching(s, met, weakly)
    if again:
        client.main.writes(watch(BC_REQUEST_DEATH_NOTIFICATION, 1, 0xE))
    if release:
        client.main.writes(*each(BC_DECREFS if weakly else BC_RELEASE, 1))


@case("D1:1", release=True)
@case("D5:1", release=False)
@case("D5:1", release=False, takes=0)
def request_of_the_manager(s, service, client, release, takes=1):
    """A request for the context manager, whose handle is let go of, or not, or was never taken."""
    client.main.asks(service.main)
    client.main.writes(*each(BC_ACQUIRE, *[0] * takes), watch(BC_REQUEST_DEATH_NOTIFICATION, 0, 0xD))
    if release:
        client.main.writes(*each(BC_RELEASE, 0))


@case("D1:1 D5:1")
def request_of_a_number_again(s):
    """A request for an object whose handle is let go of, and one for the next object of the same number."""
    service, client = watching(s)
    client.main.writes(*each(BC_RELEASE, 1))
    client.main.is_given(service.main, 1, node=0x800)
    client.main.writes(watch(BC_REQUEST_DEATH_NOTIFICATION, 1, 0xE))


# ---- frees, objects, flags


@case("F1:1", "reply to code 1", met="from-start")
@case("M1:1", met="from-start", lost=True)
def freed_twice(s, service, client, lost=False):
    address = client.main.asks(service.main)
    s.loses(client, lost)
    client.main.frees(address)


@case("F2:1", met="from-start")
@case("P1:1", met="in-mid-life")
@case("M1:1", met="from-start", lost=True)
def freed_what_never_came(s, service, client, lost=False):
    s.loses(client, lost)
    client.main.frees(0x1230)


@case("O1:1 E5:1", sent=True)
@case("O2:1", sent=False)
def bad_object(s, service, client, sent):
    """An object at an offset that is no multiple of four is sent, and refused; or is read."""
    body, listed = bytes(32), offsets(2)
    if sent:
        client.main.sends(0, 1, body=body, listed=listed, told=BR_FAILED_REPLY)
    else:
        address = service.main.gets(client.main.sends(0, 1, body=body), 0, body, listed)
        client.main.answered(service.main.replies(address))


@case("O1:1 E6:1 U6:1", "a reply to code 1 ", sent=True)
@case("O2:1", "a reply ()", sent=False)
def bad_object_in_reply(s, service, client, sent):
    """An object at an offset that is no multiple of four is replied, and the caller gets an error; or is read."""
    client.main.asks(service.main)
    address = service.main.gets(client.main.sends(0, 1))
    body, listed = bytes(32), offsets(2)
    if sent:
        service.main.replies(None, body, listed)
        client.main.reads(DONE, record(BR_FAILED_REPLY))
    else:
        client.main.answered(service.main.replies(address, body), body, listed)


@case("O3:2")
def unknown_flag(s, service, client):
    address = service.main.gets(client.main.sends(0, 1, flags=0x80))
    client.main.answered(service.main.replies(address))


# ---- oneway sends that never came


@case("W1:1", flags=ONE_WAY | UPDATE_TXN)
@case("W3:1", "W3 by service 100: 1", flags=ONE_WAY)
@case("W3:1", flags=ONE_WAY | 0x20)
@case("U6:1", flags=ONE_WAY, wait=50)
@case("M1:1", flags=ONE_WAY, lost=True)
@case("E3:1", flags=ONE_WAY, wait=50, ends=True)
@case("U1:1", flags=ONE_WAY, wait=190, good=3, took=100)
@case("W3:1", flags=ONE_WAY, wait=1100, good=3, took=100)
@case("U6:1", flags=ONE_WAY, wait=300, good=3, took=100)
def oneway_never_came(s, service, client, flags, wait=200, good=0, took=0, lost=False, ends=False):
    client.main.asks(service.main)
    for _ in range(good):
        sent = client.main.sends(0, 7, flags)
        s.wait(took)
        service.main.frees(service.main.gets(sent))
    s.loses(client, lost)
    client.main.sends(0, 7, flags)
    s.wait(wait)
    if ends:
        service.ends()
        s.wait(300)


# ---- frames that are lost at the ends


@case("M1:1", lost=True)
@case("H1:1", lost=False)
def first_frame_lost(s, lost):
    """The first frame of a process may have got the handle that its second one lets go of."""
    client = s.process(200, "client")
    s.loses(client, lost)
    client.main.writes(*each(BC_RELEASE, 7))


@case("M2:3", lost=True)
@case("U3:3", lost=False)
def last_frame_lost(s, service, client, lost):
    """The last frame may have freed three replies."""
    client.main.asks(service.main, 2, free=False, times=3)
    client.main.asks(service.main, 3)
    s.wait(200)
    s.loses(client, lost)
