"""More sessions as in cases.py: with something else beside what a rule is about, of another path, process, thread or
cookie, or of another section, which the rule must leave alone."""

from checks.kit.captures import (BC_ACQUIRE, BC_CLEAR_DEATH_NOTIFICATION, BC_CLEAR_FREEZE_NOTIFICATION,
                                 BC_DEAD_BINDER_DONE, BC_DECREFS, BC_INCREFS, BC_RELEASE, BC_REQUEST_DEATH_NOTIFICATION,
                                 BC_REQUEST_FREEZE_NOTIFICATION, BC_TRANSACTION, BR_CLEAR_DEATH_NOTIFICATION_DONE,
                                 BR_CLEAR_FREEZE_NOTIFICATION_DONE, BR_DEAD_BINDER, BR_FAILED_REPLY, BR_REPLY, ENTER,
                                 changed, each, each_long, frozen, of_handle, offsets, record, u32, u64, watch)
from checks.viewer.sessions.book_cases import begun
from checks.viewer.sessions.cases import case, each_of, with_server
from checks.viewer.sessions.freeze_cases import watching
from checks.viewer.sessions.kept_cases import Quarters
from checks.viewer.sessions.name_cases import ONE, TWO
from checks.viewer.sessions.session import DONE, ONE_WAY, STATUS_CODE, UPDATE_TXN, Sent, node_object


# ---- two paths that differ in one thing


def two_paths(s, other):
    """A caller, and for each of two paths the server, and of calls there the handle, ptr, code and status: they differ
    only in `other`."""
    manager, client, server = with_server(s)
    first = server, 1, 0x9000, 7, 1
    if other == "code":
        return client, first, (server, 1, 0x9000, 8, 1)
    if other == "status":
        return client, first, (server, 1, 0x9000, 7, 2)
    if other == "node":
        client.main.is_passed(server.main, manager.main, 2, 4, node=0x9100)
        return client, first, (server, 2, 0x9100, 7, 1)
    if other == "process":
        twin = s.process(301, "server")
        client.main.is_passed(twin.main, manager.main, 2, 4, node=0x9000)
        return client, first, (twin, 2, 0x9000, 7, 1)
    for handle, code in (2, 5), (3, 6):
        client.main.is_given(server.main, handle, code, via=1, ptr=0x9000)
    return client, (server, 2, 0x200, 7, 1), (server, 3, 0x300, 7, 1)


@case("R1:3 R2:1", other="code")
@case("R1:4 R2:1", other="status", first=(4, 0), second=(1, 0))
@case("R1:3 R2:1", other=each_of("node", "process", "way"))
@case("R2:4", other=each_of("code", "status", "node", "process", "way"), first=(2, 0), second=(2, 0))
def statuses_of_two_paths(s, other, first=(3, 0), second=(1, 1)):
    """So many calls of each path are answered with its status, and so many without one."""
    client, *paths = two_paths(s, other)
    for (server, handle, ptr, code, status), (wrong, right) in zip(paths, (first, second)):
        for _ in range(wrong):
            address = server.main.gets(client.main.sends(handle, code), ptr)
            client.main.answered(server.main.replies(address, u32(status), flags=STATUS_CODE))
        client.main.asks(server.main, code, handle, ptr, times=right)


@case("U3:3 U4:1", other=each_of("code", "node", "process"))
@case("U4:4", other=each_of("code", "node", "process"), first=(2, 0), second=(2, 0))
def replies_of_two_paths(s, other, first=(3, 0), second=(1, 1)):
    """So many replies of each path are kept, and so many are freed."""
    client, *paths = two_paths(s, other)
    for (server, handle, ptr, code, _), (kept, freed) in zip(paths, (first, second)):
        for at in range(kept + freed):
            client.main.asks(server.main, code, handle, ptr, free=at >= kept)
    client.main.asks(paths[0][0].main, 9, *paths[0][1:3])
    s.wait(200)


@case("U3:3")
def replies_kept_by_two(s, service, client):
    """Two processes keep all replies to a code, and none of them keeps many."""
    for process, kept in (client, 2), (s.process(300, "other"), 1):
        process.main.asks(service.main, 7, free=False, times=kept)
        process.main.asks(service.main, 2)
    s.wait(200)


@case("U3:3 U4:1", calls=(3, 0), oneway=(1, 1))
@case("U4:4", calls=(2, 0), oneway=(2, 0))
def calls_and_oneway_sends_kept(s, service, client, calls, oneway):
    """Of calls and of oneway sends with one code a service keeps so many, and frees so many."""
    for flags, (kept, freed) in (0, calls), (ONE_WAY, oneway):
        for at in range(kept + freed):
            address = service.main.gets(client.main.sends(0, 1, flags))
            if at >= kept:
                service.main.frees(address)
            if not flags:
                client.main.answered(service.main.replies())
    client.main.asks(service.main, 2)
    s.wait(200)


@case("U3:4 T1:1", before=4)
@case("U4:2 T1:2", before=2, leaving=2)
@case("U3:4 U6:1", before=4, wait=50, last=1, leaving=0, ends=False)
@case("U4:2 U6:1", before=2, wait=50, last=1, leaving=0, ends=False)
def replies_kept_to_the_end(s, service, client, before, leaving=1, last=0, wait=200, ends=True):
    """So many replies are kept for long, then so many shortly before the process ends, which its thread goes on after,
    or does not."""
    client.main.asks(service.main, free=False, times=before)
    client.main.asks(service.main, 2)
    s.wait(200)
    client.main.asks(service.main, free=False, times=leaving + last)
    client.main.asks(service.main, 2, times=leaving)
    if ends:
        client.ends()
    s.wait(wait)


# ---- strays and crossed calls


def sends_two(thread, handle=0):
    """Two oneway sends in one write. Returns the first one."""
    sent = Sent(thread, 7, ONE_WAY, b"", b"")
    thread.writes(*[sent.record(BC_TRANSACTION, handle)] * 2)
    return sent


def second_refused(thread):
    thread.reads(DONE, record(BR_FAILED_REPLY))


@case("L1:1", late=True)
@case("S1:1", late=False)
def refusal_read(s, service, client, late):
    """The refusal of one of two sends is read after the end of the recording."""
    client.main.asks(service.main)
    service.main.frees(service.main.gets(sends_two(client.main)))
    s.stops(late)
    second_refused(client.main)


@case("S1:1 S3:2", "the send at")
def crossed_within_a_call(s, service, client):
    """While a thread serves a call within its own, the second of its two oneway sends is refused. The error reply
    crosses the served call, the reply to that crosses the outer call, whose answer is a stray."""
    client.main.gives(service.main, 7)
    outer = service.main.gets(client.main.sends(0, 1))
    served = client.main.gets(service.main.sends(7, 2), 0x9700)
    looper = service.looper(1)
    looper.frees(looper.gets(sends_two(client.main)))
    second_refused(client.main)
    service.main.answered(client.main.replies(served))
    client.main.answered(service.main.replies(outer))


@case("S1:1 S3:1 U4:1", keeps=True)
@case("S1:1 S3:1 S4:1", before=True)
@case("S1:1 S3:1 S4:1", after=each_of("thread", "process"))
def strays_beside_a_crossed_call(s, service, client, keeps=False, before=False, after=""):
    """As `after_a_crossed_call`. The buffer of the served call is kept; or its thread replies to nothing before; or
    another thread does afterwards, of the same process or of another one."""
    client.main.gives(service.main, 7)
    if before:
        service.main.replies()
    address = service.main.gets(client.main.sends(0, 1))
    client.main.frees(client.main.gets(sends_two(service.main, 7), 0x9700))
    second_refused(service.main)
    client.main.answered(service.main.replies(None if keeps else address))
    if after:
        (client if after == "process" else service).thread(1).replies()
    client.main.asks(service.main)
    s.wait(200)


@case("P1:1", known=False)
@case("S4:1", known=True)
def stray_of_one_of_two(s, known):
    """Of two processes one was met from its start and the other in mid-life. One of them reads an answer to nothing."""
    both = [s.process(100, "first"), s.process(200, "second", "in-mid-life")]
    for process in both:
        process.main.writes(ENTER)
    reads_answer(both[0 if known else 1].main)


@case("P1:1 S4:1")
def strays_of_two_threads(s):
    """Of a process that was met in mid-life, and whose calls the driver's books have, one thread was in no call. The
    other one reads first, and may have been in a write since before the recording."""
    _, client = begun(s)
    client.main.writes(ENTER)
    reads_answer(client.main)
    reads_answer(client.thread(1))


def reads_answer(thread):
    """Reads an answer to nothing, and frees it."""
    address = thread.process.address()
    thread.reads(Sent(None, 0, 0, b"", b"").record(BR_REPLY, 0, address))
    thread.frees(address)


# ---- requests, deaths and clears


def watches(thread, handle, cookie):
    thread.writes(watch(BC_REQUEST_DEATH_NOTIFICATION, handle, cookie))


@case("D2:1 D5:2", "the one before is at", other=each_of("process", "handle"))
@case("D1:2", lets_go=True)
@case("D2:1 D5:1", cleared=True)
@case("D2:1 D5:1 U6:1", frozen_too=True)
@case("D2:1 D5:1 U6:1", other="handle", cleared=True, told=True)
def requested_again(s, service, client, other="", lets_go=False, cleared=False, frozen_too=False, told=False):
    """A handle is requested twice, with two cookies. Another process, or another handle, has only a request with the
    second cookie, by which a death is told or not. Or the handle is let go of; or the second request is cleared, or its
    cookie is also that of a freeze notification that is not acknowledged."""
    client.main.is_given(service.main, 1)
    watches(client.main, 1, 0xD)
    watches(client.main, 1, 0xE)
    if other:
        asker, handle = (s.process(300, "other"), 1) if other == "process" else (client, 2)
        asker.main.is_given(service.main, handle, node=0x200)
        watches(asker.main, handle, 0xE)
    if told:
        client.main.reads(*each_long(BR_DEAD_BINDER, 0xE))
    if lets_go:
        client.main.writes(*each(BC_RELEASE, 1))
    if cleared:
        client.main.writes(watch(BC_CLEAR_DEATH_NOTIFICATION, 1, 0xE))
    if frozen_too:
        client.main.writes(watch(BC_REQUEST_FREEZE_NOTIFICATION, 1, 0xE))
        client.main.reads(frozen(0xE, 1))


@case("U6:2", death=("first", 0xD), clear=each_of(("second", 0xD), ("first", 0xE)))
@case("D3:1 U6:1", death=("first", 0xD), clear=("first", 0xD))
@case("U6:2", death=("first", 0xD), clear=("first", 0xD), death_is="freeze")
@case("U6:2", death=("first", 0xD), clear=("first", 0xD), clear_is="freeze")
@case("D4:1 U6:1", death=("first", 0xD), clear=("first", 0xD), death_is="answer")
@case("D3:1 U6:1", death=("first", 0xD), clear=("first", 0xD), death_is="freeze", clear_is="freeze")
@case("U6:2", death=("first", 0xD), clear=("second", 0xD), death_is="freeze", clear_is="freeze")
@case("U6:2", death=("first", 0xD), clear=("first", 0xE), death_is="freeze", clear_is="freeze")
def told_and_cleared(s, service, client, death, clear, death_is="death", clear_is="death"):
    """A process is told of a death, or freeze, by a cookie, and does not acknowledge it, or acknowledges a death that
    was not told; and a clear with a cookie, by this process or another one, is not confirmed. Requests for deaths have
    the same cookies as those for freezes."""
    both = {"first": client, "second": s.process(300, "second")}
    for process in both.values():
        for handle, cookie in (1, 0xD), (2, 0xE):
            process.main.is_given(service.main, handle)
            for asks in BC_REQUEST_DEATH_NOTIFICATION, BC_REQUEST_FREEZE_NOTIFICATION:
                process.main.writes(watch(asks, handle, cookie))
    who, cookie = death
    if death_is == "answer":
        both[who].main.writes(*each_long(BC_DEAD_BINDER_DONE, cookie))
    else:
        both[who].main.reads(*(each_long(BR_DEAD_BINDER, cookie) if death_is == "death" else [frozen(cookie, 1)]))
    who, cookie = clear
    clears = BC_CLEAR_DEATH_NOTIFICATION if clear_is == "death" else BC_CLEAR_FREEZE_NOTIFICATION
    both[who].main.writes(watch(clears, 1 if cookie == 0xD else 2, cookie))


@case("D4:1 U6:1")
def confirmed_freeze_without_a_clear(s):
    """A clear of a freeze notification is confirmed that nobody made, while a notification with its cookie is not
    acknowledged."""
    _, client = watching(s)
    client.main.reads(frozen(0xF, 1))
    client.main.reads(*each_long(BR_CLEAR_FREEZE_NOTIFICATION_DONE, 0xF))


@case("D8:3 U4:1", deaths=(3, 1))
@case("D8:3 U4:1", deaths=(3,), clears=1)
@case("U4:3", deaths=(2,), clears=1)
def deaths_of_two(s, service, client, deaths, clears=0):
    """So many deaths are told to each process, and not acknowledged; and clears of the first one are not confirmed."""
    for at, told in enumerate(deaths):
        process = s.process(300 + at, "server")
        for cookie in range(1, 1 + told + clears):
            process.main.is_given(service.main, cookie, node=0x100 * cookie, take=False)
            watches(process.main, cookie, cookie)
        process.main.reads(*each_long(BR_DEAD_BINDER, *range(1, 1 + told)))
        for handle in range(1 + told, 1 + told + (0 if at else clears)):
            process.main.writes(watch(BC_CLEAR_DEATH_NOTIFICATION, handle, handle))
        process.main.goes_on(2)
    s.wait(200)


@case("D4:1 D6:1", events="done death death done done")
@case("D4:3", events=each_of("death done done done other", "done done death done confirm"))
@case("D4:2", events=each_of("confirm done", "elsewhere done"))
def more_answers(s, service, client, events):
    """Deaths with one cookie are acknowledged, also before they are told or again, and clears with that cookie
    confirmed that nobody made. `other`: an acknowledgement with another cookie; `elsewhere`: by another process."""
    other = s.process(300, "other")
    for event in events.split():
        thread = other.main if event == "elsewhere" else client.main
        cookie = 0xE if event == "other" else 0xD
        if event == "death":
            thread.reads(*each_long(BR_DEAD_BINDER, cookie))
        elif event == "confirm":
            thread.reads(*each_long(BR_CLEAR_DEATH_NOTIFICATION_DONE, cookie))
        else:
            thread.writes(*each_long(BC_DEAD_BINDER_DONE, cookie))


@case("D1:1", before=200, met="from-start")
@case("P1:1", before=0, met="in-mid-life")
def freeze_of_one_of_two(s, before, met):
    """A handle is let go of after a freeze was told, long after the recording began, or by a process met in mid-life
    beside one met from its start."""
    first, service, client = s.process(50, "first"), s.process(100, "service", met), s.process(200, "client", met)
    first.main.writes(ENTER)
    s.wait(before)
    service.main.writes(ENTER)
    client.main.is_given(service.main, 1)
    client.main.writes(watch(BC_REQUEST_FREEZE_NOTIFICATION, 1, 0xF))
    client.main.reads(frozen(0xF, 1))
    client.main.writes(*each(BC_RELEASE, 1))


# ---- frees


def freed_once(s):
    """A server, a client of it, and a buffer of the client that was freed: the reply to a call. The manager has another
    interface with the same code."""
    manager, client, server = with_server(s)
    client.main.asks(manager.main, 7, body=TWO)
    return server, client, manager, client.main.asks(server.main, 7, 1, 0x9000, body=ONE)


@case("F1:1", "\nIOne code 7 (at ", of="call")
@case("F1:1", "\nreply to IOne code 7 (at ", of="reply")
@case("F1:1 F2:1", "\nreply to IOne code 7 (at ", of="reply", also="nothing")
@case("F2:1", of="reply", also="elsewhere")
def freed_twice_beside(s, of, also=""):
    """The buffer of a call, or of a reply, is freed twice, before and after those of other calls. The process also
    frees what it never got; or another one alone frees that address."""
    server, client, manager, address = freed_once(s)
    if of == "call":
        address = server.main.gets(client.main.sends(1, 7, body=ONE), 0x9000)
        client.main.answered(server.main.replies(address))
    client.main.asks(manager.main, 7, body=TWO)
    if also == "elsewhere":
        s.process(400, "other").main.frees(address)
    else:
        (server if of == "call" else client).main.frees(address)
    if also == "nothing":
        client.main.frees(0x1230)


@case("F1:2", "(at 2472)", "(at 3012)", again=True)
@case("F1:1", again=False)
@case("F1:1 U6:1", keeps=True)
def freed_and_given_again(s, again=False, keeps=False):
    """A buffer is freed twice, and then one comes at the same address, which is kept, or freed once or twice."""
    server, client, _, address = freed_once(s)
    client.main.frees(address)
    client.next = address - 0x1000
    client.main.asks(server.main, 7, 1, 0x9000, free=not keeps)
    if again:
        client.main.frees(address)


# ---- references


TAKES = {"A": BC_ACQUIRE, "R": BC_RELEASE, "I": BC_INCREFS, "D": BC_DECREFS}


@case("", changes=each_of("IAARR", "AIIDD"))
@case("H4:1", "(2 times, and let go of 0 times)", changes="AA")
@case("H4:1", "(2 times, and let go of 1 time)", changes="AAR")
@case("H4:1", "(3 times, weakly, and let go of 0 times)", changes="IIAARRI")
@case("H4:1", "(2 times, weakly, and let go of 0 times)", changes="AII")
@case("H4:1", "(2 times, weakly, and let go of 1 time)", changes="IID")
@case("C4:1 H4:1 A1:2", changes="AA", called=True)
@case("H4:1 H11:1", changes="AA", more=True)
def taken_and_let_go(s, service, client, changes, called=False, more=False):
    """A handle is acquired, released, taken weakly and let go of so, in this order. A call to it is never answered; or
    another handle is taken more and more often."""
    client.main.is_given(service.main, 1, take=False)
    client.main.is_given(service.main, 2, take=False)
    for change in changes:
        client.main.writes(*each(TAKES[change], 1))
    for gained in (1, 1, 5, 5) if more else ():
        client.main.writes(*each(BC_ACQUIRE, *[2] * gained))
        s.wait(1000)
    if called:
        service.main.gets(client.main.sends(1, 8), 0x100)
    s.wait(300)


@case("H3:1")
def dead_taken_again(s, service, client):
    """A handle was taken twice, and its process holds it long after its death was told."""
    client.main.is_given(service.main, 1)
    client.main.writes(*each(BC_ACQUIRE, 1))
    watches(client.main, 1, 0xD)
    client.main.reads(*each_long(BR_DEAD_BINDER, 0xD))
    client.main.writes(*each_long(BC_DEAD_BINDER_DONE, 0xD))
    s.wait(1100)


@case("H4:1", "handle 66, service 100 node 0x4200", count=66)
@case("H4:1", "handle 65, service 100 node 0x4100", count=65)
@case("H4:1", "handle 64, service 100 node 0x4000", count=64)
@case("H4:1", "handle 3, service 100 node 0x300", count=3)
def taken_of_many(s, service, client, count):
    """A reply gives so many objects, of which the client takes the last one twice."""
    theirs = b"".join(node_object(0x100 * at) for at in range(1, count + 1))
    ours = b"".join(of_handle(2, at) for at in range(1, count + 1))
    address = service.main.gets(client.main.sends(0, 5))
    got = client.main.answered(service.main.replies(address, theirs, offsets(*range(0, 24 * count, 24))), ours,
                               free=False)
    client.main.writes(*each(BC_ACQUIRE, count, count))
    client.main.frees(got)
    s.wait(300)


@case("H4:1 H5:4", twice=1)
@case("C4:1 H5:4 A1:2", called=True)
@case("C4:1 H9:8 A1:2", "(4 held at half of its time, 8 at the end; 8 of 8 that are kept are in use)", called=True,
      grows=True)
def kept_beside(s, manager, client, server, twice=0, called=False, grows=False):
    """A client keeps what replies gave it. Another one of these it took twice, or a call to one is never answered."""
    Quarters(s, client, manager).plays(server, (2, 2, 2, 2) if grows else (1, 2, 1, 0), 2 if grows else 0,
                                       twice=(0, 0, 0, twice), uses=grows)
    if called:
        server.main.gets(client.main.sends(100, 9), 0x100 * 100)
    s.wait(300)


# ---- oneway sends


@case("W1:1 W5:1", flags=ONE_WAY | UPDATE_TXN, freed=False)
@case("W1:1", flags=ONE_WAY | UPDATE_TXN, held=20, wait=20)
@case("W2:1", wait=70)
@case("W3:1", wait=200)
@case("E3:1 W2:1", wait=20, late=True)
@case("W2:1 W3:1", wait=20, late=True, other="process")
@case("W3:1", wait=50, other=each_of("node", "cookie"))
@case("W3:1 W5:1", freed=False, other="cookie")
def oneway_beside_another(s, service, client, flags=ONE_WAY, held=300, wait=0, freed=True, other="", late=False):
    """As `oneway_after_another`, and the process does more before it ends. A send replaces the one before it, or goes
    to another object: of another address, process or cookie. `late`: one more follows, shortly before the end or, of
    two processes, to the one that ends."""
    given(client, service, 1, 0x9100)
    if other == "process":
        given(s.process(300, "twin"), service, 2, 0x9100)
    elif other:
        given(client, service, 2, 0x9200 if other == "node" else 0x9100, 0x77 if other == "cookie" else 0)
    looper, main = client.looper(1), service.main
    for _ in range(3):
        looper.frees(looper.gets(main.sends(1, 7, ONE_WAY), 0x9100))
    address = looper.gets(main.sends(1, 7, ONE_WAY), 0x9100)
    main.sends(2 if other else 1, 7, flags)
    if late and other:
        main.sends(1, 7, flags)
    s.wait(held)
    if late and not other:
        main.sends(1, 7, flags)
    if freed:
        looper.frees(address)
    s.wait(wait)
    client.main.writes(ENTER)
    if freed:
        client.ends()
    s.wait(500)


def given(giver, taker, handle, ptr, cookie=0):
    """An object of a process with this cookie is handed over."""
    body, listed = changed(node_object(ptr), (16, u64(cookie))), offsets(0)
    address = taker.main.gets(giver.main.sends(0, 4, body=body, listed=listed), 0, of_handle(2, handle))
    taker.main.writes(*each(BC_ACQUIRE, handle))
    giver.main.answered(taker.main.replies(address))


@case("W3:1 U6:1", kept=True)
@case("O3:2 W3:1", kept=False)
def oneway_to_a_twin(s, manager, client, server, kept):
    """Two processes have an object at the same address. A oneway send to one of them never comes. That process keeps a
    reply of the other one that has the flag of a oneway transaction, or makes oneway sends to it with an unknown
    flag."""
    client.main.gives(manager.main, 7, node=0x9000)
    if kept:
        address = server.main.gets(client.main.sends(1, 7), 0x9000)
        client.main.answered(server.main.replies(address, flags=ONE_WAY), free=False)
    else:
        server.main.frees(server.main.gets(client.main.sends(1, 7, ONE_WAY | 0x80), 0x9000))
    manager.main.sends(7, 9, ONE_WAY)
    s.wait(300)
