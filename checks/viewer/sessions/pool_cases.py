"""More sessions as in cases.py: pools of threads that calls use up, whether these or those that wait are answered or
not."""

from checks.kit.captures import BC_ACQUIRE, BC_EXIT_LOOPER, ENTER, each, record
from checks.viewer.sessions.cases import case, each_of
from checks.viewer.sessions.name_cases import ONE
from checks.viewer.sessions.session import ONE_WAY, Sent


def waits_for_one(s, service, caller, victim, took=1100, idle=0, code=10, through=None):
    """The caller's call keeps the only looper of a service, which is free then for a while; a victim's call waits as
    long. `through`: what the looper does meanwhile."""
    address = service.main.gets(caller.main.sends(0, code))
    waiting = victim.main.sends(0, 1)
    s.wait(took)
    if through:
        through()
    caller.main.answered(service.main.replies(address))
    s.wait(idle)
    return waiting


def is_served(service, victim, waiting, by=None):
    (by or victim.main).answered(service.main.replies(service.main.gets(waiting)))


@case("Q1:1", "code 10 at service 100 node 0x0", "3 calls waited up to 1.1 s (the median is 1 ms) for its 1 looper: ",
      "2 of victim 301, 1 of victim 300", "Q1 by service 100: 1", ": code 10 in thread 100")
@case("Q2:1", "Q2 at 3160: code 10", "2 calls waited up to 1.21 s", victims=2, longer=100)
@case("Q2:1", "2 calls waited up to 1.1 s (the median is 1 ms)", "1 of victim 300, 1 of victim 301", victims=2)
@case("Q2:1", "2 calls waited up to 1.1 s (the median is 1 ms)", victims=2, good=0)
@case("Q4:1", took=900)
@case("", victims=1, free=True)
@case("Q2:1", "for its 1 looper", victims=1, free=each_of("later", "exits", "ends", "only calls"))
@case("Q2:1", victims=1, took=1020, idle=180)
@case("", victims=1, took=900, idle=300)
@case("Q1:1", usual=110, took=1150)
@case("Q2:1", usual=120, took=1150)
@case("", victims=1, lost=True)
@case("Q2:1", "for 1 looper: ", met="in-mid-life", victims=1)
def calls_wait(s, service, client, victims=3, took=1100, longer=0, idle=0, good=4, usual=0, free=None, lost=False):
    """Slow calls keep the only looper of a service, one after another, each so much longer than the one before, and
    other calls wait meanwhile. Before, some waited as usual. Another thread is free, or becomes a looper later, or is
    none any more, or has ended, or only makes calls."""
    others = [s.process(300, "victim"), s.process(301, "victim")]
    for _ in range(good):
        sent = client.main.sends(0, 1)
        s.wait(usual)
        client.main.answered(service.main.replies(service.main.gets(sent)))
    second = service.thread(1) if free else None
    if free in (True, "exits", "ends"):
        second.writes(ENTER)
    if free == "exits":
        second.writes(record(BC_EXIT_LOOPER))
    if free == "ends":
        second.ends()
    if free == "only calls":
        second.writes(*each(BC_ACQUIRE, 0))
    s.loses(service, lost)
    for at in range(victims):
        waiting = waits_for_one(s, service, client, others[at % 2 if victims < 3 else at > 0], took + longer * at, idle,
                                through=(lambda: second.writes(ENTER)) if free == "later" else None)
        is_served(service, others[at % 2 if victims < 3 else at > 0], waiting)


@case("C11:2 C7:1 A1:4", "real calls without an answer", "C11 by service 100: 2",
      "(open for ≥ 1.1 s; 2 wait for it; client 200 got it at ",
      " and thread 201 has done nothing since; in a ring with the call at ",
      " of client 200, code 3 to service 100 node 0x0", "; in a ring with the call at ",
      "not got: its only looper is in a call of its own, code 2 since",
      " of service 100, code 2 to client 200 node 0x9700")
@case("C4:1 C7:2 A1:4", wait=900)
@case("C6:1 C7:2 A1:4", by="another process")
@case("C6:1 C7:2 A1:4", active=70)
@case("C11:2 C7:1 A1:4", active=150)
@case("C5:1 C6:1 C7:2 A1:4", to_another=True)
@case("A1:6 C6:1 C7:3", onward="back")
@case("A1:6 C6:1 C7:1 C11:2", onward="main")
@case("C11:2 C7:2 A1:4", "; in a ring with the call at 1144 of client 200, code 3 to service", times=2)
@case("M2:2 C7:1 A1:4", lost="client")
@case("C6:2 C7:2 A1:6", served=True)
@case("C6:1 C7:2 T1:1 A1:4", " and thread 201 has done nothing since)", gone=True)
def calls_back_to_a_full_pool(s, service, client, wait=1100, by="another thread", active=0, times=1, lost=None,
                              served=False, to_another=False, onward=None, gone=False):
    """The only looper of a service serves a call, and calls a client meanwhile. Another thread of the client calls
    back, or another process calls the service, and no thread of the service is free. `served`: a second looper serves
    that, and never replies. `active`: the client's looper does something so long before the end. In place of that the
    client calls another service, or does so by its looper or its main thread; that one never replies. `gone`: the
    thread that calls back ends at once, and a call of another process waits."""
    second = service.looper(1) if served else None
    client.main.gives(service.main, 7)
    back, other = client.looper(1), s.process(300, "other")
    if to_another or onward:
        late = s.process(302, "late")
        client.main.is_passed(late.main, service.main, 8, 8)
    s.loses(client, lost)
    service.main.gets(other.main.sends(0, 10))
    back.gets(service.main.sends(7, 2), 0x9700)
    for at in range(times):
        sent = (client.thread(2 + at) if by == "another thread" else s.process(301, "late").main).sends(
            8 if to_another else 0, 3)
    if onward:
        late.main.gets((back if onward == "back" else client.main).sends(8, 4), 0x9800)
    if gone:
        sent.sender.ends()
    if to_another or gone:
        s.process(303, "waiting").main.sends(0, 3)
    if second:
        second.gets(sent)
        s.process(301, "late").main.sends(0, 3)
    if active:
        s.wait(wait - active)
        back.writes(ENTER)
    s.wait(active or wait)


@case("Q2:1", "code 10 at service 100 node 0x0", more=150)
@case("Q2:1", "code 10, code 11 at service 100 (", more=300)
@case("Q2:1", "code 11, code 10 at service 100 (", more=1000)
@case("Q2:1", "code 11, code 10 at service 100 (", more=600, times=2)
def kept_by_two_methods(s, service, client, more, times=1):
    """A call waits for a call that takes long, and for one or two of another method that take some time, or as long."""
    victim, other = s.process(300, "victim"), s.process(301, "other")
    waiting = None
    for _ in range(times):
        address = service.main.gets(client.main.sends(0, 11))
        waiting = waiting or victim.main.sends(0, 1)
        s.wait(more)
        client.main.answered(service.main.replies(address))
    address = service.main.gets(other.main.sends(0, 10))
    s.wait(1000)
    other.main.answered(service.main.replies(address))
    is_served(service, victim, waiting)


@case("Q2:1", "3 calls waited up to 1.1 s", "3 of client 200")
@case("Q2:1", "4 of client 200", times=4, pause=2000)
@case("Q2:1", "2 of client 200, 1 of victim 300", victims=(1,))
@case("Q1:1", "3 of victim 300", victims=(0, 1, 2))
@case("Q2:1", "3 of client 200, 2 of victim 300", times=5, victims=(0, 4))
@case("Q1:1", "3 of client 200, 3 of victim 300", times=6, victims=(0, 1, 5))
@case("Q1:1", "3 of victim 300, 1 of client 200", times=4, victims=(0, 1, 2), keeps=(3,))
@case("Q1:1", "3 of victim 300, 1 of client 200", times=4, victims=(1, 2, 3), keeps=(0,))
@case("Q1:1", "6 of client 200", times=6, keeps=(3, 4, 5))
def waits_for_its_own(s, service, client, times=3, victims=(), keeps=(), pause=0):
    """A client calls the only looper of a service twice at once, several times, so that one of its calls waits for the
    other one; or the victim's call waits; or the victim keeps the looper this time."""
    victim, second = s.process(300, "victim"), client.thread(1)
    client.main.asks(service.main, times=4)
    for at in range(times):
        s.wait(pause)
        keeper, caller = victim.main if at in keeps else client.main, victim.main if at in victims else second
        address = service.main.gets(keeper.sends(0, 10))
        waiting = caller.sends(0, 1)
        s.wait(1100)
        keeper.answered(service.main.replies(address))
        caller.answered(service.main.replies(service.main.gets(waiting)))


@case("Q1:1", "3 of user 300", share=0.15, took=1150)
@case("Q2:1", "3 of user 300", share=0.25, took=1150)
@case("Q4:1", "3 of user 300", share=0.15, took=350)
@case("", share=0.25, took=350)
@case("Q2:1", "3 of user 300", share=0.15, took=1150, own=2, loopers=2)
@case("Q1:1", "3 of user 300", share=0.15, took=1150, own=1, loopers=2)
def waits_partly_for_its_own(s, service, client, share, took, own=1, loopers=1):
    """Three times a call of a process waits for the loopers of a service. For a part of that time other calls of it
    keep some of them, and all else those of a client do."""
    user, pool = s.process(300, "user"), [service.main, *(service.looper(at) for at in range(1, loopers))]
    client.main.asks(service.main, times=4)
    second, users, clients = user.thread(1), *(
        [one.thread(10 + at) for at in range(loopers)] for one in (user, client))
    for _ in range(3):
        first = [(by, by.sends(0, 10)) for by in [*users[:own], *clients[own:]]]
        begun = [(looper, by, looper.gets(sent)) for looper, (by, sent) in zip(pool, first)]
        then = [(looper, by, by.sends(0, 10)) for looper, by in zip(pool, clients[:own])]
        waiting = second.sends(0, 1)
        s.wait(took * share)
        ends = [(looper, by, address) for looper, by, address in begun[own:]]
        for looper, by, address in begun[:own]:
            by.answered(looper.replies(address))
        ends += [(looper, by, looper.gets(sent)) for looper, by, sent in then]
        s.wait(took * (1 - share))
        for looper, by, address in ends:
            by.answered(looper.replies(address))
        is_served(service, user, waiting, second)


@case("Q1:1", "6 calls waited up to 1.6", "(the median is 1 ms) for its 1 looper: 3 of victim 300, 3 of victim 350",
      "Q1 by service 100: 1")
@case("Q1:1", "18 calls waited up to 1.6", "(the median is 1.6", good=0, each=3)
@case("Q2:1", "6 calls waited up to 1.12 s (the median is 931 ms)", good=0, each=3, took=300, last=360)
@case("Q2:1", "6 calls waited up to 1.6", own=True)
def starves(s, service, client, good=30, each=1, own=False, took=550, last=550):
    """A slow client calls the only looper of a service again and again. Two victims call it by turns, with so many
    threads, and the looper serves each for a moment; so at any time one of them waits. The last two of the slow calls
    may take longer. `own`: all calls are of one process."""
    victims = [client, client] if own else [s.process(300, "victim"), s.process(350, "victim")]
    callers = [[one.thread(5 + at + 2 * nth) for nth in range(each)] for at, one in enumerate(victims)]
    callers[0][0].asks(service.main, 1, times=good)
    waiting = []
    for at in range(7):
        address = service.main.gets(client.main.sends(0, 10))
        s.wait(took if at < 5 else last)
        late, waiting = waiting, [(one, one.sends(0, 1)) for one in callers[at % 2]] if at < 6 else []
        s.wait(took if at < 5 else last)
        client.main.answered(service.main.replies(address))
        for caller, sent in late:
            caller.answered(service.main.replies(service.main.gets(sent)))


@case("Q2:1", "(the median is 1 ms) for its 2 loopers", "; the loopers wait for slow 302", "Q2 by slow 302: 1")
@case("Q1:1", "(the median is 1 ms) for its 2 loopers", "Q1 by slow 302: 1", quiet=3)
@case("Q2:1", quiet=2)
def starved_by_its_client(s, service, client, quiet=0):
    """Two processes each call a service by three threads at once, again and again, and its two loopers ask a slow
    client within that. The processes delay themselves; some quiet ones call the service once, and wait too."""
    slow = s.process(302, "slow")
    slow.main.gives(service.main, 8)
    loopers, serving = [service.main, service.looper(1)], [slow.looper(1), slow.looper(2)]
    users = [s.process(310 + at, "user") for at in range(2)]
    threads = [one.thread(5 + at) for at in range(3) for one in users]
    client.main.asks(service.main, times=40)
    waiting = [(one, one.sends(0, 10)) for one in threads]
    waiting += [(one, one.sends(0, 10)) for one in (s.process(330 + at, "quiet").main for at in range(quiet))]
    for again in range(9):
        taken = [(*one, looper, serves) for one, looper, serves in zip(waiting, loopers, serving)]
        taken = [(one, looper, looper.gets(sent), serves) for one, sent, looper, serves in taken]
        taken = [(*one, one[3].gets(one[1].sends(8, 12), 0x9800)) for one in taken]
        s.wait(600)
        for one, looper, address, serves, got in taken:
            looper.answered(serves.replies(got))
            one.answered(looper.replies(address))
        waiting = waiting[2:] + [(one, one.sends(0, 10)) for one, *_ in taken if one in threads and again < 5]


@case("Q3:1", "code 10 at service 100 node 0x0 (3 calls waited up to 161 ms for its 2 loopers: 3"
      " of victim 300; 6 of client 200 kept them busy)", "Q3 by client 200: 1",
      "maybe a queue behind the calls of one process: 1", "defect: a queue behind the calls of one process | client")
@case("", took=85)
@case("", by=(0, 0))
@case("Q3:1", "code 10, code 11, code 12 at service 100", codes=(10, 11, 12))
@case("", own=True)
@case("Q3:1", by=(0, 0, 0, 0, 0, 1), codes=(10, 11))
@case("Q4:1", "3 calls waited up to 161 ms", "3 of victim 300)", "Q4 by service 100: 1",
      "explained a queue behind one method: 1", by=(0, 1, 2))
@case("Q4:1", by=(0, 0, 0, 1))
@case("", by=each_of((0, 0, 0, 1), (0, 1, 2)), codes=(10, 11))
@case("Q4:1", by=(0, 1, 2, 3, 4, 5), codes=(10, 10, 10, 10, 10, 11))
@case("", by=(0, 1))
@case("", by=(0, 1, 2), took=85, last=150)
@case("Q4:1", loopers=1)
@case("Q3:1", "9 of client 200 kept them busy", loopers=1, at_once=3)
@case("Q3:1", "7 of client 200 kept them busy", loopers=1, at_once=3, alone=True)
@case("Q4:1", loopers=1, victims=3, by=(0,))
@case("Q4:1", loopers=1, victims=3, by=(0,), at_once=2)
@case("Q3:1", loopers=1, victims=3, by=(0,), at_once=3)
@case("Q2:1", "1 call waited up to 1.0", last=1000)
@case("Q3:1", "3 calls waited up to 9", last=900)
def queue(s, took=150, by=(0, 0, 0), codes=(10,), loopers=2, victims=1, at_once=1, own=False, last=None, alone=False):
    """Clients keep the loopers of a service busy for a while, by turns, each looper with so many calls of one code, and
    calls of a victim wait meanwhile. `alone`: the first time it is one call."""
    service, client = s.two()
    pool = [service.main, *(service.looper(at) for at in range(1, loopers))]
    clients = [client, *(s.process(201 + at, "client") for at in range(max(by)))]
    callers = [[one.thread(5 + at) for at in range(loopers * at_once)] for one in clients]
    victim = client if own else s.process(300, "victim")
    waiting = [victim.main, *(victim.thread(at) for at in range(1, victims))]
    victim.main.asks(service.main, times=4 * len(by))
    for at, which in enumerate(by):
        count = loopers * (1 if alone and at == 0 else at_once)
        sent = [(one, one.sends(0, codes[at % len(codes)])) for one in callers[which][:count]]
        late = [one.sends(0, 1) for one in waiting]
        for begin in range(0, len(sent), loopers):
            kept = [(one, looper, looper.gets(call)) for (one, call), looper in zip(sent[begin:begin + loopers], pool)]
            s.wait((last if last and at == len(by) - 1 else took) * loopers / count)
            for one, looper, address in kept:
                one.answered(looper.replies(address))
        for one, call in zip(waiting, late):
            one.answered(service.main.replies(service.main.gets(call)))


@case("Q3:1 Q4:1", "3 of client 200 kept them busy", "code 10 at service 100 node 0x0 (4 calls waited")
def keeps_two_services(s, manager, client):
    """A client keeps the only looper of a service busy, and half of the time that of another one, where another client
    does so by turns; calls of a victim wait at both."""
    service, other, victim = s.process(400, "second"), s.process(201, "other"), s.process(300, "victim")
    service.main.writes(ENTER)
    service.main.gives(manager.main, 9, node=0x9000)
    for one in client, victim:
        one.main.is_given(manager.main, 7, server_handle=9)
    for _ in range(8):
        victim.main.asks(manager.main)
        victim.main.asks(service.main, 1, 7, 0x9000)
    mine, waits = [[one.thread(5 + at) for at in range(3)] for one in (client, victim)]
    for callers, waiting, handle, looper, ptr in (
            (mine, waits, 7, service.main, 0x9000),
            *(([one], waits[:1], 0, manager.main, 0) for one in (mine[0], other.main, mine[0], other.main))):
        for by, call in [(by, by.sends(handle, 1 if by in waits else 10)) for by in (*callers, *waiting)]:
            address = looper.gets(call, ptr)
            s.wait(0 if by in waits else 150)
            by.answered(looper.replies(address))


@case("Q1:1", "3 of user 300")
def kept_over_two_waits(s, service, client):
    """A process waits for the two loopers of a service, which a client keeps, and at last a call of its own. That one
    goes on, while a call of another process waits for the second looper."""
    pool, user, other = (service.main, service.looper(1)), s.process(300, "user"), s.process(301, "other")
    client.main.asks(service.main, times=4)
    kept = [(by, looper, looper.gets(by.sends(0, 10))) for by, looper in zip((client.main, client.thread(1)), pool)]
    own, waiting = user.main.sends(0, 10), [(by, by.sends(0, 1)) for by in (user.thread(at) for at in (1, 2, 3))]
    s.wait(950)
    by, looper, address = kept[0]
    by.answered(looper.replies(address))
    address = looper.gets(own)
    s.wait(150)
    by, second, kept_address = kept[1]
    by.answered(second.replies(kept_address))
    for one, sent in waiting:
        one.answered(second.replies(second.gets(sent)))
    s.wait(100)
    kept_address = second.gets(by.sends(0, 10))
    late = other.main.sends(0, 1)
    s.wait(1100)
    by.answered(second.replies(kept_address))
    other.main.answered(second.replies(second.gets(late)))
    user.main.answered(looper.replies(address))


@case("Q1:2", "3 of other 300", "3 of client 200")
def waits_elsewhere(s, service, client):
    """A client keeps the only looper of a service, and waits for that of another one meanwhile, which others keep."""
    other, busy = s.process(300, "other"), s.process(400, "busy")
    busy.main.writes(ENTER)
    busy.main.gives(service.main, 9, node=0x9000)
    for one in client, other:
        one.main.is_given(service.main, 7, server_handle=9)
        one.main.asks(busy.main, 1, 7, 0x9000, times=2)
    keepers = client.thread(1), other.thread(1)
    for _ in range(3):
        first = service.main.gets(keepers[0].sends(0, 11))
        at_service = other.main.sends(0, 1)
        second = busy.main.gets(keepers[1].sends(7, 10), 0x9000)
        at_busy = client.main.sends(7, 1)
        s.wait(1100)
        keepers[1].answered(busy.main.replies(second))
        client.main.answered(busy.main.replies(busy.main.gets(at_busy, 0x9000)))
        keepers[0].answered(service.main.replies(first))
        other.main.answered(service.main.replies(service.main.gets(at_service)))


@case("Q2:1 Q4:1", "3 calls waited up to 905 ms for its 1 looper", "1 call waited up to 1.1 s (the median is 21 ms)")
def two_used_up(s, service, client):
    """Two services are used up, one of them for longer, whose calls wait for a while also before."""
    victim, slower = s.process(300, "victim"), s.process(400, "slower")
    slower.main.writes(ENTER)
    slower.main.gives(service.main, 9, node=0x9000)
    for one in client, victim:
        one.main.is_given(service.main, 7, server_handle=9)
    client.main.asks(service.main, times=10)
    for _ in range(4):
        sent = client.main.sends(7, 1)
        s.wait(20)
        client.main.answered(slower.main.replies(slower.main.gets(sent, 0x9000)))
    address = slower.main.gets(client.main.sends(7, 10), 0x9000)
    waiting = victim.main.sends(7, 1)
    s.wait(1100)
    client.main.answered(slower.main.replies(address))
    victim.main.answered(slower.main.replies(slower.main.gets(waiting, 0x9000)))
    for _ in range(3):
        is_served(service, victim, waits_for_one(s, service, client, victim, 900))


@case("", late=True)
@case("Q2:1", "1 call waited up to 1.1 s (the median is 21 ms) for its 1 looper: 1 of other 301", late=False)
def alike_to_two_services(s, manager, client, late):
    """Two threads of a process make the same call at once, by handles that were there before the recording, to two
    services: it is not known which one came to which. They wait for long, or for a moment again and again."""
    one, _ = services = [s.process(number, "service") for number in (400, 401)]
    for at, service in enumerate(services):
        service.main.writes(ENTER)
        service.main.gives(manager.main, 50 + at, node=0x9000)
        client.main.is_given(manager.main, 7 + at, server_handle=50 + at)
    victim, other = s.process(300, "victim"), s.process(301, "other")
    other.main.is_given(manager.main, 7, server_handle=50)
    threads, clients = [victim.thread(at) for at in (1, 2)], [client.thread(at) for at in (1, 2)]
    for _ in range(4):
        sent = client.main.sends(7, 2)
        s.wait(20)
        client.main.answered(one.main.replies(one.main.gets(sent, 0x9000)))
    for _ in range(1 if late else 8):
        kept = [service.main.gets(by.sends(7 + at, 10), 0x9000)
                for at, (service, by) in enumerate(zip(services, clients)) if late]
        waiting = [by.sends(17 + at, 1) for at, by in enumerate(threads)]
        s.wait(1100 if late else 0)
        for service, by, address in zip(services, clients, kept):
            by.answered(service.main.replies(address))
        got = [service.main.gets(sent, 0x9000) for service, sent in zip(services, waiting)]
        replies = [service.main.replies(address) for service, address in zip(services, got)]
        for by, reply in zip(threads, replies):
            by.answered(reply)
    if not late:
        address = one.main.gets(client.main.sends(7, 10), 0x9000)
        sent = other.main.sends(7, 1)
        s.wait(1100)
        client.main.answered(one.main.replies(address))
        other.main.answered(one.main.replies(one.main.gets(sent, 0x9000)))


@case("Q2:1", "1 call waited up to 1.1 s (the median is 21 ms) for its 1 looper")
def calls_that_come_back(s, service, client):
    """The only looper of a service is used up by a call. Before, calls waited for a while, and others came back to it
    within those that it made."""
    client.main.gives(service.main, 7)
    for _ in range(4):
        sent = client.main.sends(0, 3)
        s.wait(20)
        served = service.main.gets(sent)
        within = client.main.gets(service.main.sends(7, 2), 0x9700)
        client.main.asks(service.main, 4)
        service.main.answered(client.main.replies(within))
        client.main.answered(service.main.replies(served))
    victim = s.process(300, "victim")
    is_served(service, victim, waits_for_one(s, service, client, victim))


@case("Q2:2", "code 10 at service 101 node 0x9000", "code 10 at another 102 node 0x9000")
def pools_at_one_address(s, manager, client):
    """Calls of one code keep the loopers of two services, whose objects have the same address."""
    victim = s.process(300, "victim")
    for at, name in enumerate(("service", "another")):
        service = s.process(101 + at, name, enters=True)
        service.main.gives(manager.main, 50 + at, node=0x9000)
        for caller in client, victim:
            caller.main.is_given(manager.main, 7 + at, server_handle=50 + at)
        address = service.main.gets(client.main.sends(7 + at, 10), 0x9000)
        waiting = victim.main.sends(7 + at, 1)
        s.wait(1100)
        client.main.answered(service.main.replies(address))
        victim.main.answered(service.main.replies(service.main.gets(waiting, 0x9000)))


@case("Q2:1", "code 10, code 10 at service 100 (")
def kept_at_two_objects(s, service, client):
    """Calls of one code keep the only looper of a service, at two of its objects, for about as long."""
    victim = s.process(300, "victim")
    client.main.is_given(service.main, 1)
    waiting = None
    for handle, ptr in (0, 0), (1, 0x100):
        address = service.main.gets(client.main.sends(handle, 10), ptr)
        waiting = waiting or victim.main.sends(0, 1)
        s.wait(600)
        client.main.answered(service.main.replies(address))
    is_served(service, victim, waiting)


@case("Q2:1", "for its 2 loopers", busy=True)
@case("", busy=False)
@case("", busy=False, short=True)
def two_loopers(s, service, client, busy, short=False):
    """Of two loopers one is in a call, and the other one, too, or in none, or in short ones."""
    victim, other, second = s.process(300, "victim"), s.process(301, "other"), service.looper(1)
    address = second.gets(other.main.sends(0, 10)) if busy else None
    if short:
        other.main.asks(second)
    waiting = waits_for_one(s, service, client, victim, through=(lambda: other.main.asks(second)) if short else None)
    is_served(service, victim, waiting)
    if busy:
        other.main.answered(second.replies(address))


@case("Q2:1", "the loopers wait for third 302", "Q2 by third 302: 1", share=0.85)
@case("Q2:1", "Q2 by service 100: 1", share=0.75)
@case("Q2:1", "a call of its own, code 12 at service 100", "the loopers wait for third 302", share=1)
@case("Q2:1", "a call of its own, IOne code 12 at service 100", "the loopers wait for third 302", share=1, named=True)
def kept_by_another(s, service, client, share, named=False):
    """A looper waits for a third process in a call that it serves, for so much of the time; or in a call of its own,
    without serving any."""
    victim, third = s.process(300, "victim"), s.process(302, "third")
    third.main.gives(service.main, 8)
    if share < 1:
        address = service.main.gets(client.main.sends(0, 10))
    waiting = victim.main.sends(0, 1)
    got = third.main.gets(service.main.sends(8, 12, body=ONE if named else b""), 0x9800)
    s.wait(1100 * share)
    service.main.answered(third.main.replies(got))
    s.wait(1100 * (1 - share))
    if share < 1:
        client.main.answered(service.main.replies(address))
    is_served(service, victim, waiting)


@case("Q2:1", "a call of its own, IOne code 12 at service 100")
def kept_by_who_knows(s, service, client):
    """A looper waits in a call of its own to a handle that was there before the recording."""
    victim = s.process(300, "victim")
    client.main.asks(service.main)
    waiting = victim.main.sends(0, 1)
    service.main.sends(9, 12, body=ONE)
    s.wait(1100)
    service.main.answered(Sent(None, 0, 0, b"", b""))
    is_served(service, victim, waiting)


@case("A1:4 C7:2 Q1:1 U1:1", "the loopers wait for third 302", "Q1 by third 302: 1", wait=50)
@case("A1:4 C6:1 C7:2", "C6 by third 302: 1", wait=12000)
@case("A1:4 C7:2 Q1:1 U2:1", wait=12000, late=True)
def kept_by_another_to_the_end(s, service, client, wait, late=False):
    """A slow process answers the calls for which the only looper of a service waits, one after another; the last one is
    under way at the end, or hangs. Meanwhile another call waits, at the end for long or, if `late`, not."""
    victim, third = s.process(300, "victim"), s.process(302, "third")
    third.main.gives(service.main, 8)
    for at in range(4):
        address = service.main.gets(client.main.sends(0, 10))
        waiting = None if late and at == 3 else victim.main.sends(0, 1)
        got = third.main.gets(service.main.sends(8, 12), 0x9800)
        if at < 3:
            s.wait(1100)
            service.main.answered(third.main.replies(got))
            client.main.answered(service.main.replies(address))
            is_served(service, victim, waiting)
    s.wait(wait)
    if late:
        victim.main.sends(0, 1)
        s.wait(500)


@case("A1:4 C7:3 Q1:2 U1:1", "the loopers wait for third 302", "Q1 by third 302: 2", wait=50)
@case("A1:4 C6:1 C7:3", "C6 by third 302: 1", wait=12000)
@case("A1:6 C6:1 C7:4 Q1:2 U1:1", "C6 by stuck 304: 1", "Q1 by third 302: 2", wait=50, beside=True)
def kept_by_another_pool(s, service, client, wait, beside=False):
    """The only looper of a service waits for the only looper of a slow process, which serves another call; the last
    such call is under way at the end, or hangs. Beside that another pool is used up by a call that hangs."""
    victim, third, other = s.process(300, "victim"), s.process(302, "third"), s.process(303, "other")
    other.main.is_passed(third.main, service.main, 1, 8)
    if beside:
        stuck, caller = s.process(304, "stuck"), s.process(305, "caller")
        stuck.main.writes(ENTER)
        caller.main.is_passed(stuck.main, service.main, 2, 9)
        caller.main.asks(stuck.main, 12, 2, 0x9900)
        stuck.main.gets(caller.main.sends(2, 12), 0x9900)
        caller.thread(1).sends(2, 12)
    for at in range(4):
        got = third.main.gets(other.main.sends(1, 12), 0x9800)
        address = service.main.gets(client.main.sends(0, 10))
        waiting, queued = victim.main.sends(0, 1), service.main.sends(8, 12)
        if at < 3:
            s.wait(1100)
            other.main.answered(third.main.replies(got))
            service.main.answered(third.main.replies(third.main.gets(queued, 0x9800)))
            client.main.answered(service.main.replies(address))
            is_served(service, victim, waiting)
    s.wait(wait)


@case("Q2:1", "oneway code 7 at service 100 node 0x0", by=0)
@case("", by=1)
@case("", by=0, share=0.6)
@case("", by=0, share=0.6, idle=True)
@case("Q2:1", "oneway code 7 at service 100 node 0x0", by=0, calls=True)
@case("Q2:1", "oneway code 7 at service 100 node 0x0", by=0, earlier=True)
def kept_by_a_oneway_transaction(s, service, client, by, share=1, calls=False, earlier=False, idle=False):
    """The only looper is in a oneway transaction for so much of the time, and frees it at its end; or another thread
    frees it. Meanwhile it calls another process, or an earlier call waited for a while. `idle`: the oneway transaction
    comes after the rest of the time."""
    victim, threads = s.process(300, "victim"), (service.main, service.thread(1))
    third = s.process(302, "third")
    third.main.gives(service.main, 8)
    if earlier:
        is_served(service, victim, waits_for_one(s, service, client, victim, 150))
    sent = None if idle else client.main.sends(0, 7, ONE_WAY)
    waiting = victim.main.sends(0, 1) if idle else None
    if idle:
        s.wait(1100 * (1 - share))
    address = service.main.gets(sent or client.main.sends(0, 7, ONE_WAY))
    waiting = waiting or victim.main.sends(0, 1)
    if calls:
        service.main.asks(third.main, 2, 8, 0x9800, took=300)
    s.wait((800 if calls else 1100) * share)
    threads[by].frees(address)
    s.wait(0 if idle else 1100 * (1 - share))
    is_served(service, victim, waiting)


@case("", holds=True)
@case("Q2:1", "code 10 at service 100", holds=False)
def after_a_call_of_its_own(s, service, client, holds):
    """The only looper of a service asks another process, and does nothing then but keep the buffer of the answer, while
    a call waits for it; or it did so in a call that it goes on to serve."""
    victim, third = s.process(300, "victim"), s.process(302, "third")
    third.main.gives(service.main, 8)
    served = None if holds else service.main.gets(client.main.sends(0, 10))
    kept = service.main.asks(third.main, 2, 8, 0x9800, free=not holds)
    s.wait(50)
    waiting = victim.main.sends(0, 1)
    s.wait(1100)
    if holds:
        service.main.frees(kept)
    else:
        client.main.answered(service.main.replies(served))
    is_served(service, victim, waiting)


@case("Q2:1 W5:1", "for its 2 loopers")
def keeps_a_oneway_transaction(s, service, client):
    """One of two loopers got a oneway transaction, and has done nothing since; the other one is in a call, and another
    call waits."""
    victim, second = s.process(300, "victim"), service.looper(1)
    second.gets(client.main.sends(0, 7, ONE_WAY))
    is_served(service, victim, waits_for_one(s, service, client, victim))


@case("C7:1 A1:2 Q2:1", "it waited 1.1 s for a looper", since=50)
@case("U2:1 A1:2 Q2:1", since=150)
@case("C7:1 A1:2 Q2:1", since=150, usual=20)
@case("C7:1 A1:2", "it waited 305 ms for a looper", since=50, took=300)
@case("U2:1 A1:2", since=50, took=90)
def still_served(s, service, client, since, usual=0, took=1100):
    """A call that waited for a looper has one for so long, at the end."""
    victim = s.process(300, "victim")
    victim.main.asks(service.main, 1, took=usual, times=4)
    service.main.gets(waits_for_one(s, service, client, victim, took))
    s.wait(since)


@case("C7:1 Q2:1", "it waited 1.15 s for a looper")
@case("U6:1", lost=True)
def waits_to_the_end(s, service, client, lost=False):
    """The only looper is in a call to nearly the end, and free then: the call that waits is not got. Or it may have
    been, in a frame that is lost."""
    waits_for_one(s, service, client, s.process(300, "victim"))
    s.wait(50)
    s.loses(service, lost)


def after_another(s):
    """A service whose only looper has served no call yet, and a client. Another thread served one, and has ended."""
    service, client = s.two()
    other = service.thread(1)
    client.main.asks(other)
    other.ends()
    return service, client


@case("C7:1 U6:1", "its only looper is in a call of its own, code 4")
def kept_by_a_call_that_nobody_got(s):
    """The only looper of a service is in a call of its own, and a call to the service waits. Calls alone are found."""
    service, client = after_another(s)
    service.main.sends(9, 4)
    client.main.sends(0, 1)
    s.wait(50)


@case("W2:2 W5:1", "; 2 wait for it")
def kept_from_oneway_transactions(s):
    """The only looper of a service is in a oneway transaction, and two others wait. Of calls nothing is found."""
    service, client = after_another(s)
    service.main.gets(client.main.sends(0, 7, ONE_WAY))
    for _ in range(2):
        client.main.sends(0, 7, ONE_WAY)
    s.wait(50)


@case("A1:4 C7:1 C8:2")
def kept_by_a_ring_of_locks(s):
    """Both loopers of a service are in calls of a ring of locks, and another call waits for long."""
    service, client = s.two(enters=False)
    one, two, back = service.looper(1), service.looper(2), client.looper(1)
    client.main.gives(one, 7)
    for _ in range(3):
        client.main.asks(one, 11)
        two.asks(back, 2, 7, 0x9700)
    one.gets(client.main.sends(0, 11))
    back.gets(two.sends(7, 2), 0x9700)
    s.process(300, "victim").main.sends(0, 1)
    s.wait(1100)


@case("A1:4 C6:1 C7:2 Q1:1 U1:1", "C6 by third 302: 1", "Q1 by service 100: 1")
def kept_while_its_main_thread_waits(s):
    """The only looper of a service is used up by calls that take long, one of which is under way at the end. Meanwhile
    the main thread waits for another pool, in which a call hangs."""
    service, client = s.two(enters=False)
    looper, third, other = service.looper(1), s.process(302, "third"), s.process(303, "other")
    third.main.gives(looper, 8)
    other.main.is_given(looper, 1, server_handle=8)
    other.main.asks(third.main, 12, 1, 0x9800)
    victim = s.process(300, "victim")
    victim.main.asks(looper, times=4)
    for _ in range(3):
        address = looper.gets(client.main.sends(0, 10))
        waiting = victim.main.sends(0, 1)
        s.wait(1100)
        client.main.answered(looper.replies(address))
        victim.main.answered(looper.replies(looper.gets(waiting)))
    third.main.gets(other.main.sends(1, 12), 0x9800)
    service.main.sends(8, 12)
    looper.gets(client.main.sends(0, 10))
    s.wait(1200)
    victim.main.sends(0, 1)
