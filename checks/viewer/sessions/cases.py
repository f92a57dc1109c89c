"""Small sessions on either side of each threshold and order of the rules, with the rules that their findings get:
calls, oneway sends and buffers. state_cases.py has the others.

A case is a function that plays a session, which begins with the processes that its parameters name: see `begun`. Its
text counts the rules of all findings: `C4:1 A1:1` is one finding with rule C4 and one with A1.
"""

import functools
import inspect
import itertools
from typing import Callable, NamedTuple

from checks.kit.captures import (BC_DEAD_BINDER_DONE, BC_EXIT_LOOPER, BC_RELEASE, BC_REPLY,
                                 BC_REQUEST_DEATH_NOTIFICATION, BC_TRANSACTION, BR_DEAD_BINDER, BR_DEAD_REPLY,
                                 BR_FAILED_REPLY, BR_FROZEN_REPLY, BR_NOOP, BR_ONEWAY_SPAM_SUSPECT, BR_REPLY, ENTER,
                                 MAX_32, SORTS, each, each_long, offsets, record, u32, watch)
from checks.viewer.sessions.session import ACCEPT_FDS, DONE, ONE_WAY, STATUS_CODE, Sent, Session


class Case(NamedTuple):
    name: str
    play: Callable[[Session], None]
    due: str
    words: tuple[str, ...]
    has_side: bool

    def played(self) -> Session:
        session = Session(self.has_side)
        self.play(session)
        return session


CASES: list[Case] = []
PROCESSES = {"manager", "service", "client", "server"}


def begun(play):
    """A session that begins as its function asks, by parameters without a default: with `server` by with_server, with
    `service`, `manager` or `client` by `two`, which gets what is given as `met`."""
    asked = PROCESSES & {name for name, one in inspect.signature(play, follow_wrapped=False).parameters.items()
                         if one.default is one.empty}
    if not asked:
        return play

    @functools.wraps(play)
    def whole(s, met="from-start", **given):
        there = dict(zip(("manager", "client", "server"), with_server(s) if "server" in asked else s.two(met)))
        there["service"] = there["manager"]
        play(s, **{name: there[name] for name in asked}, **given)
    return whole


class Each(NamedTuple):
    """Values of a parameter: there is a case with each of them."""
    values: tuple


def each_of(*values):
    return Each(values)


def case(due, *words, has_side=True, **given):
    """A case of a function: the counts of the rules that its findings must get, and words of notes and paths. Where a
    value is Each, there are as many cases."""
    def add(play):
        play = begun(play)
        listed = [value.values[::-1] if isinstance(value, Each) else [value] for value in given.values()]
        for values in itertools.product(*listed):
            add_one(play, dict(zip(given, values)))
        return play

    def add_one(play, given):
        name = " ".join([play.__name__, *(f"{key}={value}" for key, value in given.items())])
        CASES.append(Case(name if has_side else f"{name} without a side list", lambda s: play(s, **given), due, words,
                          has_side))
    return add


# ---- calls that wait


@case("C4:1 A1:2", "(open for ≥ 201 ms; service 100 got it at", "has done nothing since", "C4 by service 100: 1",
      wait=200)
@case("U6:1 A1:2", "U6 by service 100: 1", wait=50)
def never_answered(s, service, client, wait):
    service.main.gets(client.main.sends(0, 1))
    s.wait(wait)


@case("C6:1 C7:2 A1:2", "its only looper is in code 10 since", "2 sends wait", "2 wait for it", "C6 by service 100: 1",
      "C7 by service 100: 2", wait=1100)
@case("C4:1 C7:2 A1:2", "2 wait for it", wait=900)
@case("U6:1 C7:2 A1:2", wait=20)
@case("U6:1 C7:2 A1:2 Q2:1", "code 10 at service 100 node 0x0", wait=1100, took=150)
@case("U6:1 C7:2 A1:2", wait=900, took=150)
@case("C6:1 C7:2 A1:2", "its only looper is in code 10 since", wait=1100, enters=False)
@case("C6:1 C7:2 A1:2", "its only looper is in code 10 since", "2 wait for it", wait=1100, killed=True)
def others_queue(s, wait, took=0, enters=True, killed=False):
    """The only looper of a service never answers, and two more calls wait for it. Earlier calls of the first one's code
    took as long; or the looper has not said that it is one, but takes calls; or the service is killed after the last
    frame."""
    service, client = s.two(enters=enters)
    client.main.asks(service.main, 2, times=5)
    client.main.asks(service.main, 10, took=took, times=2 if took else 0)
    service.main.gets(client.main.sends(0, 10))
    for number in 300, 301:
        s.process(number, "other").main.sends(0, 1)
    s.wait(wait)
    if killed:
        service.ends()


@case("C4:1 C6:1 C7:2 A1:4")
def two_pools(s, service, client):
    """The only loopers of two services never answer. At one of them another call waits for long, at the other not."""
    server = s.process(300, "server", enters=True)
    client.main.is_passed(server.main, service.main, 1, 3, node=0x9000)
    server.main.gets(client.main.sends(1, 10), 0x9000)
    service.main.gets(client.thread(1).sends(0, 10))
    s.process(400, "other").main.sends(0, 1)
    s.wait(1100)
    client.thread(2).sends(1, 1)
    s.wait(20)


@case("C3:2 A1:4", mains=True)
@case("U6:2 A1:4", mains=True, wait=50)
@case("C9:2 A1:4", "its main thread waits for the call at", mains=False)
def embrace_of_mains(s, service, client, mains, wait=300):
    """The loopers of two processes wait for their main threads, which wait for each other. The other way: the second
    call is not by the main thread."""
    client.main.is_given(service.main, 1)
    looper, back = service.looper(1), client.looper(1)
    looper.gets(client.main.sends(0, 11))
    back.gets((service.main if mains else service.looper(2)).sends(7, 2), 0x500)
    s.wait(wait)


def with_each_other(s):
    """A service and a client that each have an object of the other, with a looper of the client."""
    service, client = s.two()
    client.main.gives(service.main, 7)
    return service, client, client.looper(1)


@case("C8:2 A1:4", "service 100 got it at", "thread 101 has done nothing since; in a ring with the call at ",
      " of service 100, code 2 to client 200 node 0x9700", " of client 200, code 11 to service 100 node 0x0",
      "C8 by service 100: 1", "C8 by client 200: 1")
@case("C9:2 A1:4", "; in a ring with the call at ", "C9 by service 100: 1", good=2)
@case("U6:2 A1:4", wait=50)
@case("U6:2 A1:4", took=30, wait=250)
@case("C8:2 A1:4", took=30, wait=350)
@case("C8:2 A1:4", active=190)
@case("U2:2 A1:4", active=210)
@case("U2:1 U6:1 A1:4", slow=30, wait=250)
@case("C8:2 A1:4", slow=30, wait=350)
@case("M2:2 A1:4", lost=True)
@case("C4:1 C8:2 A1:6", "of service 100, code 2 to client 200 node 0x9700", before=True)
@case("C8:2 A1:4 C5:15", others=15)
@case("U2:2 A1:4 C5:16", others=16)
def ring_of_locks(s, good=3, took=0, wait=300, active=0, lost=False, others=0, slow=0, before=False):
    """Threads of two processes serve a call of the other one and do nothing more. Before, both calls took so long, and
    the second one some more. One of the threads may have done something later. Other threads of its process are in
    calls, too, one of them of a call that came before and is served."""
    service, client, back = with_each_other(s)
    one, two = service.looper(1), service.looper(2)
    for _ in range(good):
        client.main.asks(one, 11, took=took)
        two.asks(back, 2, 7, 0x9700, took=took + slow)
    s.loses(service, lost)
    sink = s.process(300, "sink") if others or before else None
    if sink:
        sink.main.gives(service.main, 8)
    if before:
        sink.main.gets(service.thread(9).sends(8, 3), 0x9800)
    one.gets(client.main.sends(0, 11))
    back.gets(two.sends(7, 2), 0x9700)
    for at in range(others):
        service.thread(10 + at).sends(8, 3)
    s.wait(active)
    if active:
        one.writes(ENTER)
    s.wait(wait - active)


@case("C7:1 C10:1 A1:4", "client 200 got it at", "thread 200 has done nothing since, within its own call at ",
      "C10 by client 200: 1", "groups that are real: 1", wait=1100)
@case("C7:1 C4:1 A1:4", wait=900)
@case("C7:1 C10:1 A1:4", wait=1100, good=3)
@case("C7:1 U2:1 A1:4", wait=900, good=3)
@case("C7:1 U1:1 A1:4", wait=1100, good=3, took=600)
@case("C7:1 U6:1 A1:4", wait=1100, good=3, took=120)
@case("C7:1 C10:1 A1:4", wait=1300, good=3, took=120)
@case("C7:1 C4:1 A1:4", wait=1100, active=True)
@case("C3:2 A1:4", wait=1100, other=True)
@case("C4:1 M2:1 A1:4", wait=1100, lost=True)
@case("C7:4 C10:1 A1:4", "4 wait for it", wait=1100, queue=3)
@case("C3:2 C7:1 A1:4", wait=1100, main_calls=True)
def comes_back_and_hangs(s, wait, good=0, took=0, active=False, other=False, lost=False, queue=0, main_calls=False):
    """A call is served by a call back, which the thread that waits gets, and never replies. Earlier ones took so long.
    Or that thread writes something later, or another thread of its process gets the call back. More calls may wait for
    the service, also one of the main thread of that process."""
    service, client, back = with_each_other(s)
    service.main.asks(back, 2, 7, 0x9700, took=took, times=good)
    s.loses(client, lost)
    calls = back if main_calls else client.main
    service.main.gets(calls.sends(0, 11))
    hanging = back if other else calls
    hanging.gets(service.main.sends(7, 2), 0x9700)
    if main_calls:
        client.main.sends(0, 12)
    if active:
        s.wait(10)
        hanging.writes(ENTER)
    for number in range(queue):
        s.process(300 + number, "other").main.sends(0, 1)
    s.wait(wait)


@case("C9:3 A1:6", then="round")
@case("C4:1 C9:2 A1:6", then="back")
@case("C7:1 C9:2 A1:6", then="on")
@case("C8:3 A1:6", then="on", good=3)
@case("C4:2 A1:4", then="no more")
@case("C4:2 C7:1 A1:6", then="aside")
def ring_of_three(s, then, good=0):
    """A client calls a service, another thread of which calls a third process, another thread of which calls the client
    or the service. Or the thread of the service that serves the client calls the third process, and that one calls the
    client, or another thread of the service does."""
    service, client, back = with_each_other(s)
    third = s.process(300, "third")
    third.main.gives(service.main, 8)
    third.main.is_given(service.main, 4, server_handle=7)
    one, two, other = service.looper(1), service.looper(2), service.looper(3)
    ours, last = third.looper(1), third.looper(2)
    caller = one if then in ("on", "aside") else two
    for _ in range(good):
        client.main.asks(one, 11)
        caller.asks(ours, 12, 8, 0x9800)
        last.asks(back, 2, 4, 0x9700)
    one.gets(client.main.sends(0, 11))
    ours.gets(caller.sends(8, 12), 0x9800)
    if then == "back":
        other.gets(last.sends(0, 13))
    elif then != "no more":
        back.gets(two.sends(7, 2) if then == "aside" else last.sends(4, 2), 0x9700)
    s.wait(300)


@case("C3:2 C6:1 C7:1 A1:4", "3 wait for it; not got: its only looper is in code 3 since", "C3 by service 100: 2")
def embrace_through_a_pool(s):
    """A looper of the client serves a call, and waits for its main thread. That one calls the service, whose looper
    waits for its own main thread, which calls back and gets no thread of the client. Another call waits at the
    service."""
    service, client = s.two(enters=False)
    other = s.process(300, "other")
    other.main.is_passed(client.main, service.main, 1, 7)
    looper, back = service.looper(1), client.looper(1)
    back.gets(other.main.sends(1, 3), 0x9700)
    looper.gets(client.main.sends(0, 2))
    service.main.sends(7, 4)
    s.process(301, "late").main.sends(0, 1)
    s.wait(1100)


@case("C6:2 A1:4 C7:1", "its 2 loopers are in", free=False)
@case("C4:2 A1:4 C5:1", "C5 by service 100: 1", free=True)
@case("C6:2 A1:4 C7:1", free=True, exits=True)
@case("C4:2 A1:4 C5:1", free=False, rests=True)
def pool_of_two(s, service, client, free, exits=False, rests=False):
    """Two loopers of a service are in calls, and a third call waits; or a third looper is free, and did not get it; or
    that one is no looper any more. `rests`: the one that is free is the main thread."""
    first, second = service.looper(3) if rests else service.main, service.looper(1)
    if free:
        third = service.looper(2)
        if exits:
            third.writes(record(BC_EXIT_LOOPER))
    first.gets(client.main.sends(0, 10))
    second.gets(s.process(300, "other").main.sends(0, 11))
    s.process(301, "third").main.sends(0, 1)
    s.wait(1100)


@case("C6:1 C7:1", "its only looper is in oneway code 7 since", wait=1100)
@case("W5:1 C7:1", wait=20)
def pool_in_oneway(s, service, client, wait):
    """The only looper of a service is in a oneway transaction, and a call waits."""
    client.main.asks(service.main, 2)
    service.main.gets(client.main.sends(0, 7, ONE_WAY))
    client.main.sends(0, 1)
    s.wait(wait)


@case("C6:1 C7:2 A1:2", "2 loopers are in ", "a call from before the capture", serves=1)
@case("C6:1 C7:2 A1:2", "2 loopers are in ", "a call from before the capture", serves=1, nested=True)
@case("C6:1 C7:2 A1:2", "a looper is in code 10 since", serves=0)
@case("C6:1 C7:2 A1:2 P1:1", "a looper is in code 10 since", serves=1, replies=1)
@case("C6:1 C7:2 A1:2 P1:1", "2 loopers are in ", "a call from before the capture", serves=2, replies=1)
@case("C6:1 C7:2 A1:2", "a looper is in code 10 since", serves=1, ends=True)
@case("C6:1 C7:2 A1:2", "a looper is in code 10 since", serves=1, process=200)
def pool_of_a_flight_recorder(s, serves, replies=0, ends=False, process=100, nested=False):
    """Before its first file, a flight recorder saw a looper get calls. It still serves them, with another one within
    or not; or it replies now, or ends; or a thread of another process got them. The other looper of the service never
    answers, and two calls wait."""
    s.tell(f"calls 0 {process} 101 made={1 - serves if serves < 2 else 0} served={serves}")
    service, client = s.two("before-file", enters=False)
    other = service.thread(1)
    client.main.asks(other if nested else service.main, 2)
    for _ in range(replies):
        other.writes(Sent(None, 0, 0, b"", b"").record(BC_REPLY))
        other.reads(DONE)
    if ends:
        other.ends()
    service.main.gets(client.main.sends(0, 10))
    for number in 300, 301:
        s.process(number, "other").main.sends(0, 1)
    s.wait(1100)


@case("C5:2", "not got: a looper is in a call from before the capture", serves=1)
@case("C5:2", "; not got)", serves=0)
def only_looper_serves_on(s, serves):
    """The only looper of a service got a call before the first file of a flight recorder, and never answers. Two calls
    wait. Another thread of the service only makes calls."""
    s.tell(f"calls 0 300 301 made=0 served={serves}")
    manager, client = s.two("before-file")
    server = s.process(300, "server", "before-file")
    client.main.is_passed(server.main, manager.main, 1, 3, node=0x9000)
    client.main.sends(1, 1)
    client.thread(1).sends(1, 1)
    s.wait(1100)


@case("T1:1", "replied at", ends=1)
@case("C1:1", "replied at", "C1 by client 200: 1", wait=200)
@case("C2:1", "replied at", wait=50)
def answer_unread(s, service, client, ends=0, wait=0):
    """A call is answered after its thread has ended; or long, or shortly, before the end."""
    client.main.asks(service.main, times=3)
    address = service.main.gets(client.main.sends(0, 2))
    s.wait(300)
    if ends:
        client.ends()
    service.main.replies(address)
    s.wait(wait)


# ---- calls that failed


@case("E3:1", "E3 by short-lived 300: 1", sends=1, after=500)
@case("E13:1", "told at 1380", "E13 by client 200: 1", sends=1, after=1500)
@case("E13:2", "told at", sends=2, after=each_of(10, 500))
@case("E1:2", "told at", "E1 by client 200: 2", sends=2, after=1500)
@case("E1:3", "told at", sends=3, after=10)
@case("E1:10", "told at", sends=10, after=1500)
@case("E3:3", sends=1, after=10, threads=3)
@case("E13:4", "told at", sends=2, after=10, threads=2)
@case("E13:2 E3:1", "told at", sends=2, after=10, once=1)
@case("E3:3", sends=1, after=10, codes=3)
@case("E13:4", "told at", sends=2, after=10, codes=2)
def calls_the_dead(s, service, client, sends, after, threads=1, once=0, codes=1):
    """The client is told of a death, and calls the dead object, each of some threads so many times with each of some
    codes; `once`: so many more threads call it once each."""
    other = s.process(300, "short-lived")
    client.main.is_passed(other.main, service.main, 1, 3)
    client.main.writes(watch(BC_REQUEST_DEATH_NOTIFICATION, 1, 0xD))
    other.ends()
    client.main.reads(*each_long(BR_DEAD_BINDER, 0xD))
    client.main.writes(*each_long(BC_DEAD_BINDER_DONE, 0xD), *each(BC_RELEASE, 1))
    s.wait(after)
    callers = [client.main, *(client.thread(1 + at) for at in range(threads + once - 1))]
    for one in callers[:threads] * sends + callers[threads:]:
        for code in range(1, 1 + codes):
            one.sends(1, code, told=BR_DEAD_REPLY)


@case("E3:2")
def news_during_calls(s, service, client):
    """Two threads are in calls of an object when a third reads of its death."""
    other = s.process(300, "short-lived")
    client.main.is_passed(other.main, service.main, 1, 3)
    client.main.writes(watch(BC_REQUEST_DEATH_NOTIFICATION, 1, 0xD))
    both = client.main, client.thread(1)
    for one in both:
        one.sends(1, 1)
    other.ends()
    reader = client.thread(2)
    reader.reads(*each_long(BR_DEAD_BINDER, 0xD))
    reader.writes(*each_long(BC_DEAD_BINDER_DONE, 0xD), *each(BC_RELEASE, 1))
    for one in both:
        one.reads(record(BR_DEAD_REPLY))


@case("E3:2", crossing=True)
@case("E3:2", crossing=True, before=1100)
@case("E3:2")
@case("E3:2", wait=900)
@case("E2:1 E3:1", "told at", wait=1100)
@case("E2:2 E3:1", "told at", sends=2)
@case("E3:3", then=1)
@case("E2:2 E3:2", "told at", then=2)
@case("E11:10 E3:1", "told at", "E11 by client 200: 10", sends=10, pause=110)
@case("E2:9 E3:1", sends=9, pause=150)
@case("E2:10 E3:1", sends=10, pause=90)
@case("E11:10 E3:1", wait=1100, sends=10)
@case("E2:10 E3:1", sends=5, pause=250, then=5)
def dead_reply_before(s, service, client, crossing=False, sends=1, before=0, wait=0, then=0, pause=0):
    """Two threads call an object that ends, both before it ends; or the second after the first has read so, soon or
    not, once or more often, with pauses. `then`: so many times the first one calls it again."""
    one, two = client.main, client.thread(1)
    one.sends(0, 1)
    s.wait(before)
    if crossing:
        two.sends(0, 1)
    one.reads(record(BR_DEAD_REPLY))
    s.wait(wait)
    for at in range(sends):
        if not crossing:
            two.sends(0, 1)
        two.reads(record(BR_DEAD_REPLY))
        s.wait(pause)
    for _ in range(then):
        one.sends(0, 1, told=BR_DEAD_REPLY)


@case("E3:4", times=2)
@case("E2:4 E3:2", times=3)
def two_dead_objects(s, service, client, times):
    """A thread calls two objects that have ended, so many times each."""
    client.main.is_given(service.main, 1)
    for _ in range(times):
        for handle in 0, 1:
            client.main.sends(handle, 1, told=BR_DEAD_REPLY)


@case("E4:1", "E4 by service 100: 1", then="nothing")
@case("E4:1", then=each_of("oneway", "work"))
@case("E8:1", "service 100 was frozen, and got a call again at", "E8 by service 100: 1", then="call")
def frozen(s, service, client, then):
    """A call is refused, since its server is frozen, which was called before. Then it gets a call, or a oneway
    transaction, which does not say that it was thawed, or does something of its own, or nothing."""
    client.main.asks(service.main)
    client.main.sends(0, 1, told=BR_FROZEN_REPLY)
    if then == "call":
        client.main.asks(service.main)
    elif then == "oneway":
        service.main.frees(service.main.gets(client.main.sends(0, 7, ONE_WAY)))
    elif then == "work":
        service.main.writes(ENTER)


@case("E8:2", "E8 by service 100: 2", freezes=((2,),))
@case("E4:3", "one of 3 calls that its thread made while service 100 was frozen", "E4 by client 200: 3",
      freezes=((3,),))
@case("E8:4", freezes=((2,), (2,)))
@case("E4:3 E8:1", "E8 by service 100: 1", freezes=((3,), (1,)))
@case("E8:4", freezes=((2, 2),))
@case("E4:3 E8:2", freezes=((2, 3),))
@case("E4:2", "E4 by service 100: 2", freezes=((2,),), thaws=False)
@case("E4:3", "E4 by client 200: 3", freezes=((3,),), thaws=False)
@case("E8:4", freezes=((2,),), servers=2)
@case("E4:4", "E4 by service 100: 2", "E4 by server 300: 2", freezes=((2,),), servers=2, thaws=False)
@case("E12:10", "one of 10 calls that its thread made while service 100 was frozen", "E12 by client 200: 10",
      freezes=((10,),), pause=120)
@case("E12:10", freezes=((10,),), pause=120, thaws=False)
@case("E4:9", "E4 by client 200: 9", freezes=((9,),), pause=150)
@case("E4:10", freezes=((10,),), pause=100)
@case("E4:10", freezes=((5,), (5,)), pause=250)
def goes_on_calling_the_frozen(s, service, client, freezes, thaws=True, servers=1, pause=0):
    """In each freeze of a service threads make so many calls, with pauses; then it is thawed, and gets a call.
    `servers`: so many are frozen at the same time, and called by the same threads."""
    frozen = [(0, 0, service)]
    if servers > 1:
        server = s.process(300, "server", enters=True)
        client.main.is_passed(server.main, service.main, 1, 3, node=0x9000)
        frozen.append((1, 0x9000, server))
    threads = [client.main, *(client.thread(1 + at) for at in range(max(map(len, freezes)) - 1))]
    for handle, ptr, process in frozen:
        client.main.asks(process.main, 1, handle, ptr)
    for calls in freezes:
        for one, times in zip(threads, calls):
            for handle, _, _ in frozen * times:
                one.sends(handle, 1, told=BR_FROZEN_REPLY)
                s.wait(pause)
        for handle, ptr, process in frozen if thaws else ():
            client.main.asks(process.main, 1, handle, ptr)


@case("R1:3", "code 7 to service 100 node 0x0: -74 EBADMSG", "R1 by client 200: 3",
      "defect: calls answered with an error | client on binder | code 7 to service: -74 EBADMSG", wrong=3, right=0)
@case("R1:3", "R1 by service 100: 3", "(1 defects)",
      "defect: calls answered with an error | service on binder | code 7 to service: -74 EBADMSG", wrong=3, right=0,
      others=1)
@case("R2:2", wrong=2, right=0)
@case("R1:4", wrong=4, right=1)
@case("R2:3", wrong=3, right=1)
def answered_with_a_status(s, service, client, wrong, right, others=0):
    """Calls are answered with a status; the last ones are of another process."""
    other = s.process(300, "other") if others else None
    client.main.asks(service.main, 7, times=right)
    for at in range(wrong):
        caller = client if at < wrong - others else other
        address = service.main.gets(caller.main.sends(0, 7))
        caller.main.answered(service.main.replies(address, (-74 & MAX_32).to_bytes(4, "little"), flags=STATUS_CODE))


@case("", value=0)
@case("R2:1", value=1)
@case("", value=1, redacted=True)
def status_of_no_error(s, value, redacted=False):
    """Of a redacted capture it is not known whether the status is an error."""
    if redacted:
        s.lines[0] = s.lines[0].replace("machine=x86_64", "machine=x86_64 payloads=redacted")
    service, client = s.two()
    address = service.main.gets(client.main.sends(0, 7))
    client.main.answered(service.main.replies(address, u32(value), flags=STATUS_CODE))


def with_server(s):
    """A manager, a client, and a server that the client has handle 1 of, by way of the manager."""
    manager, client = s.two()
    server = s.process(300, "server")
    client.main.is_passed(server.main, manager.main, 1, 3, node=0x9000)
    return manager, client, server


@case("R1:4", "code 1 to objects given by replies to code 5 of server 300 node 0x9000: 1")
def status_of_many_objects(s, client, server):
    """Each of four objects that came the same way gets one call, and answers with a status."""
    for handle in range(2, 6):
        client.main.is_given(server.main, handle, via=1, ptr=0x9000)
        address = server.main.gets(client.main.sends(handle, 1), 0x100 * handle)
        client.main.answered(server.main.replies(address, u32(1), flags=STATUS_CODE))
        client.main.writes(*each(BC_RELEASE, handle))


@case("E5:1 U6:4", "3 oneway sends with 3,072 bytes waited or were held at service 100: 3 sends from client 200",
      "E5 by client 200: 1")
@case("E5:1 U6:4", "2 sends from other 300, 1 send from client 200", "E5 by other 300: 1",
      "defect: sends that were refused (BR_FAILED_REPLY) | other on binder | oneway to service; ", others=2)
@case("E5:1 U6:4", "2 sends from client 200, 1 send from other 300", "E5 by client 200: 1", others=1)
@case("E5:1 W5:1 W2:3", "E5 by other 300: 1", others=2, got=1)
@case("E5:1 W5:2 W2:2", "E5 by service 100: 1",
      "defect: sends that were refused (BR_FAILED_REPLY) | service on binder | oneway to service; ", others=2, got=2)
@case("E5:2 U6:4", "E5 by other 300: 1", "E5 by client 200: 1", others=2, call=True)
def oneway_space_full(s, service, client, others=0, got=0, call=False):
    """A oneway send is refused, after three of which two may be of another process. The service gets some of the three.
    A call of the same process is refused, too, or not."""
    client.main.asks(service.main)
    other = s.process(300, "other")
    sent = [(other if at < others else client).main.sends(0, 7, ONE_WAY, bytes(1020), seen=False) for at in range(3)]
    for one in sent[:got]:
        service.main.gets(one, seen=False)
    client.main.writes(Sent(None, 7, ONE_WAY, bytes(1020), b"").record(BC_TRANSACTION))
    client.main.reads(record(BR_FAILED_REPLY))
    client.main.sends(0, 7, ONE_WAY, bytes(4), seen=False)
    if call:
        client.main.sends(0, 7, told=BR_FAILED_REPLY)


@case("E5:1 W11:3 W3:1", "(the driver refused the one at ")
@case("E5:1 W3:4", call=True)
@case("E5:1 W3:4", other_receiver=True)
@case("E4:1 W3:4", kind=BR_FROZEN_REPLY)
@case("E5:2 W11:4", "(the driver refused the one at 2012)", again=True)
def full_at_a_frozen(s, service, client, call=False, other_receiver=False, kind=BR_FAILED_REPLY, again=False):
    """A client takes none of three oneway sends, and the driver refuses another one to it, or a call, or one to another
    client. Then one more is taken, and maybe one more refused."""
    other = s.process(300, "other")
    client.main.gives(service.main, 1)
    other.main.gives(service.main, 2)
    for _ in range(3):
        service.main.sends(1, 7, ONE_WAY, bytes(1020), seen=False)
    refused = Sent(None, 7, 0 if call else ONE_WAY, bytes(1020), b"")
    service.main.writes(refused.record(BC_TRANSACTION, 2 if other_receiver else 1))
    service.main.reads(record(kind))
    service.main.sends(1, 7, ONE_WAY, bytes(4), seen=False)
    if again:
        service.main.writes(refused.record(BC_TRANSACTION, 1))
        service.main.reads(record(kind))
    s.wait(300)


@case("E7:1", "code 7 to service 100 node 0x0")
def spam(s, service, client):
    client.main.asks(service.main)
    sent = Sent(client.main, 7, ONE_WAY, b"", b"")
    client.main.writes(sent.record(BC_TRANSACTION))
    client.main.reads(record(BR_ONEWAY_SPAM_SUSPECT))
    service.main.frees(service.main.gets(sent))


# ---- oneway sends


@case("E3:3", "service 100 to client 200 code 7: 3 of 3", "service 100 to brief 302 code 7: 0 of 1", short=3)
def oneway_to_short_lives(s, service, client, short):
    """A service sends alike to a long-lived client and to short-lived ones that end before it comes. Each of the
    long-lived one's is delivered, and only these."""
    client.main.gives(service.main, 1)
    looper = client.looper(1)
    for number in range(300, 300 + short):
        brief = s.process(number, "brief")
        brief.main.gives(service.main, number)
        sent = service.main.sends(1, 7, ONE_WAY, b"same")
        service.main.sends(number, 7, ONE_WAY, b"same")
        brief.ends()
        s.wait(1)
        looper.frees(looper.gets(sent, 0x9100))
        service.main.writes(*each(BC_RELEASE, number))


@case("W2:1", freed=True, wait=50)
@case("W3:1", freed=True, wait=200)
@case("W2:1 W6:1", freed=False, wait=200)
def oneway_after_another(s, service, client, freed, wait):
    """A oneway send waits for the one before it, which is freed before the end of its process, or not at all."""
    client.main.gives(service.main, 1)
    looper = client.looper(1)
    for _ in range(3):
        looper.frees(looper.gets(service.main.sends(1, 7, ONE_WAY), 0x9100))
    address = looper.gets(service.main.sends(1, 7, ONE_WAY), 0x9100)
    service.main.sends(1, 7, ONE_WAY)
    s.wait(300)
    if freed:
        looper.frees(address)
    s.wait(wait)
    if freed:
        client.ends()
    s.wait(200)


@case("U2:1", writes=4)
@case("U4:1", writes=1, reads=4)
@case("U4:1", writes=1, empty=4)
def oneway_kept_by_a_thread_that_goes_on(s, service, client, writes, reads=0, empty=0):
    """A oneway transaction is not freed, and its thread writes and reads so often after it, or writes nothing."""
    for _ in range(3):
        service.main.frees(service.main.gets(client.main.sends(0, 7, ONE_WAY)))
    service.main.gets(client.main.sends(0, 7, ONE_WAY))
    service.main.goes_on(writes)
    for _ in range(reads):
        service.main.reads(record(BR_NOOP))
    for _ in range(empty):
        service.main.writes()
    s.wait(300)


@case("W2:1")
def oneway_after_another_of_its_object(s, service, client):
    """As the first of these; and later ones come, and are freed at once, by the same ptr in another process, and in the
    same process by another ptr, by another cookie, and as a call. One more goes to a handle whose node is not known."""
    twin, main = s.process(300, "twin"), client.main
    address = service.main.gets(main.sends(0, 7, ONE_WAY))
    main.sends(0, 7, ONE_WAY)
    for thread, handle, ptr, cookie in (twin.main, 5, 0, 0), (service.main, 6, 0x100, 0), (service.main, 8, 0, 7):
        thread.frees(thread.gets(main.sends(handle, 7, ONE_WAY), ptr, cookie=cookie))
    client.thread(1).asks(service.looper(1), 7)
    main.sends(9, 7, ONE_WAY)
    s.wait(300)
    service.main.frees(address)
    s.wait(50)
    service.ends()
    s.wait(200)


@case("W2:1 W5:1", "(its handler has been at work for 502 ms; 1 waits for it)", "groups that are maybe: 0", wait=500)
@case("W2:1 W5:1", wait=950)
@case("W2:1 W6:1", "maybe oneway handlers at work: 1 of 1 oneway code 7 at client 200 node 0x9100 W6 (its handler has"
      " been at work for 1.1 s; 1 waits for it)", wait=1100)
@case("W2:3 W6:1", "3 wait for it", wait=1100, sends=3)
@case("W5:1", "(its handler has been at work for 1.1 s)", wait=1100, sends=0)
@case("W2:1 W5:1", wait=950, good=2)
@case("W2:1 W6:1", wait=950, good=3)
@case("W2:1 W5:1", wait=50, good=3)
@case("U4:1 W2:1", wait=500, goes_on=True)
@case("U6:1 W2:1", wait=50, goes_on=True)
@case("W2:1 W5:1", "(1 waits for it)", wait=0, has_side=False)
@case("U6:1 W2:1 W5:1", wait=500, beside=True)
def oneway_handler(s, service, client, wait, sends=1, good=0, goes_on=False, beside=False):
    """The handler of a oneway transaction is at work for so long, and other sends wait for it; or its thread goes on.
    Earlier ones were quick. Beside it a client keeps its last reply, which says that it is oneway."""
    client.main.gives(service.main, 1)
    looper = client.looper(1)
    for _ in range(good):
        looper.frees(looper.gets(service.main.sends(1, 7, ONE_WAY), 0x9100))
    looper.gets(service.main.sends(1, 7, ONE_WAY), 0x9100)
    if goes_on:
        looper.writes(ENTER)
    for _ in range(sends):
        service.main.sends(1, 7, ONE_WAY)
    if beside:
        other = s.process(300, "other")
        address = service.main.gets(other.main.sends(0, 1))
        other.main.answered(service.main.replies(address, flags=ONE_WAY), free=False)
    s.wait(wait)


@case("W2:3 W9:1", "real received transactions never freed: 1 of 1 oneway code 7 at client 200 node 0x9100 W9",
      "W9 by client 200: 1")
@case("U4:1 W2:2", sends=2)
@case("U4:1 W2:3", wait=950)
@case("U4:1 W2:4", sends=2, late=2)
@case("U4:1 W2:3", good=3, took=120)
@case("W2:3 W10:1", "real oneway handlers at work: 1 of 4 oneway code 7 at client 200 node 0x9100 W10 (its handler has"
      " been at work for 1.11 s; 3 wait for it)", good=3, goes_on=False)
@case("W2:3 W6:1", good=2, goes_on=False)
@case("W2:2 W6:1", good=3, goes_on=False, sends=2)
@case("W2:3 W5:1", good=3, took=120, goes_on=False)
@case("W2:3 W6:1", good=3, goes_on=False, wait=950)
@case("M2:1 W2:3", lost=True)
@case("U4:1 W2:3", has_side=False)
def blocked_object(s, service, client, wait=1100, sends=3, late=0, good=0, took=0, goes_on=True, lost=False):
    """A oneway transaction is not freed, sends wait for it, some of them only lately, and its thread goes on or not.
    Earlier ones took so long."""
    client.main.gives(service.main, 1)
    looper = client.looper(1)
    s.loses(client, lost)
    for _ in range(good):
        address = looper.gets(service.main.sends(1, 7, ONE_WAY), 0x9100)
        s.wait(took)
        looper.frees(address)
    looper.gets(service.main.sends(1, 7, ONE_WAY), 0x9100)
    for _ in range(sends):
        service.main.sends(1, 7, ONE_WAY)
    if goes_on:
        looper.writes(ENTER)
    s.wait(wait / 2)
    for _ in range(late):
        service.main.sends(1, 7, ONE_WAY)
    s.wait(wait / 2)


@case("W5:1 W3:1", kept=each_of("node", "process"))
@case("U6:1 W3:1", kept="call")
def oneway_beside_another(s, service, client, kept):
    """A oneway send does not come, while its receiver keeps a delivery for which it does not wait: a oneway one at
    another node, one at a node of this address in another process, or a call at its own node."""
    for handle in (1, 2):
        client.main.gives(service.main, handle)
    looper = client.looper(1)
    if kept == "node":
        looper.gets(service.main.sends(2, 7, ONE_WAY), 0x9200)
    elif kept == "process":
        other = s.process(300, "other")
        other.main.gives(service.main, 3, node=0x9100)
        other.looper(1).gets(service.main.sends(3, 7, ONE_WAY), 0x9100)
    else:
        looper.gets(service.main.sends(1, 7), 0x9100)
        service.main.answered(looper.replies())
    service.main.sends(1, 7, ONE_WAY)
    s.wait(200)


# ---- buffers


def kept_buffers(s, kept, good, then=4, wait=200, held=0, lost=False, ends=False, name="client"):
    """A service gets calls of code 1, answers all, and does not free the buffers of some. Then it serves code 2."""
    service, client = s.two()
    for at in range(kept + good):
        address = service.main.gets(client.main.sends(0, 1))
        s.wait(held if at < good else 0)
        client.main.answered(service.main.replies(address if at < good else None))
    s.loses(service, lost)
    client.main.asks(service.main, 2, times=then)
    s.wait(wait)
    if ends:
        service.ends()
        s.wait(500)


@case("U3:3", kept=3, good=0)
@case("U4:2", kept=2, good=0)
@case("U3:4", kept=4, good=1)
@case("U4:3", kept=3, good=1)
@case("M2:3", kept=3, good=0, lost=True)
@case("U2:1", kept=1, good=3)
@case("U4:1", kept=1, good=2)
@case("M2:1", kept=1, good=3, lost=True)
@case("U2:1", kept=1, good=3, then=3)
@case("U4:1", kept=1, good=3, then=2)
@case("U6:1", kept=1, good=each_of(3, 0), wait=60)
@case("U4:1", kept=1, good=0, wait=110)
@case("U2:1", kept=1, good=3, wait=1000, held=90)
@case("U4:1", kept=1, good=3, wait=1000, held=120)
@case("U1:1", kept=1, good=3, wait=100, held=150)
@case("T1:2", kept=2, good=0, wait=60, ends=True)
@case("U4:2", kept=2, good=0, wait=110, ends=True)
def buffers(s, **given):
    kept_buffers(s, **given)


@case("M2:1")
@case("U2:1", code=8)
@case("U2:1", ptr=0x100)
def buffer_of_a_path_with_a_lost_frame(s, service, client, code=7, ptr=0):
    """A client keeps a reply, and a frame of another one is lost, which calls by the same code and object, or another
    one of these."""
    other = s.process(300, "other")
    for free in True, True, True, False:
        client.main.asks(service.main, 7, free=free)
    other.main.asks(service.main, code, 5 if ptr else 0, ptr)
    s.loses(other)
    client.main.asks(service.main, 2, times=4)
    s.wait(300)


ERRORS = "all 3 that are kept have at most 12 bytes, all 3 that were freed at least 40: look at what follows an error)"


@case("U2:3", ERRORS)
@case("U4:3", "reply to code 7 of service 100 node 0x0 ()", freed=(40, 40))
@case("U2:2", "reply to code 7 of service 100 node 0x0 ()", kept=(12, 12))
@case("U2:3", ERRORS, kept=(4, 12, 8), freed=(40, 48, 44))
@case("U2:3", "reply to code 7 of service 100 node 0x0 ()", kept=(12, 12, 40))
@case("U2:3", "reply to code 7 of service 100 node 0x0 ()", freed=(40, 40, 40, 12))
@case("U3:3", "reply to code 7 of service 100 node 0x0 ()", others=(40, 40, 40), freed=())
@case("U2:3", ERRORS, others=(4, 4, 4))
@case("U3:3", "reply to code 7 of service 100 node 0x0 ()", freed=(), other_code=(40, 40, 40))
def small_replies(s, service, client, kept=(12, 12, 12), freed=(40, 40, 40), others=(), other_code=()):
    """A client does not free some replies, and frees others, of these sizes. Another client frees all, or there are
    replies to another code."""
    other = s.process(300, "other")

    def asks(thread, code, size, free):
        address = service.main.gets(thread.sends(0, code))
        thread.answered(service.main.replies(address, bytes(size)), free=free)

    for size in kept:
        asks(client.main, 7, size, False)
    for size in freed:
        asks(client.main, 7, size, True)
    for size in others:
        asks(other.main, 7, size, True)
    for size in other_code:
        asks(client.main, 9, size, True)
    client.main.asks(service.main, 8, times=4)
    s.wait(300)


@case("U3:3", kept=3)
@case("U4:2", kept=2)
@case("U3:4", kept=4, good=1)
@case("U4:3", kept=3, good=1)
@case("U4:1 U3:3", kept=3, others=1)
@case("U3:3", kept=1, others=2, freed=0)
@case("U4:3", kept=1, others=2, freed=1)
@case("U2:1", kept=1, good=3)
@case("U4:1", kept=1, good=2)
@case("U2:1", kept=1, good=3, held=50, wait=100)
@case("U4:1", kept=1, good=3, held=50, wait=20)
@case("U2:1 U6:1", kept=1, last=True, takes=0)
@case("M2:3", kept=1, others=2, freed=0, lost=True)
@case("U3:3", kept=3, freed=0, lost=True)
def replies_to_several(s, kept, good=0, others=0, freed=4, takes=60, then=4, wait=200, held=0, last=False, lost=False):
    """A client keeps some replies, and frees others, at once. Each of some other clients keeps one, and another one
    frees all, which takes long. Or that one keeps its last reply, too, or a frame of it is lost."""
    service, client = s.two()
    slow = s.process(300, "slow", enters=True)
    s.loses(slow, lost)
    for at in range(kept + good):
        address = client.main.asks(service.main, free=False)
        if at >= kept:
            s.wait(held)
            client.main.frees(address)
    for number in range(others):
        other = s.process(400 + number, "other")
        other.main.asks(service.main, free=False)
        other.main.asks(service.main, 2, times=then)
    for _ in range(freed):
        address = slow.main.asks(service.main, free=False)
        s.wait(takes)
        slow.main.frees(address)
    if last:
        slow.main.asks(service.main, free=False)
    client.main.asks(service.main, 2, times=then)
    s.wait(wait)


NOT_TAKEN = "the driver takes nothing behind it in the same write, no BC_FREE_BUFFER either"
SAYS_NOTHING = "code 1 at service 100 node 0x0 ()"


@case("U4:1 T1:1", "went to a caller that had ended: " + NOT_TAKEN)
@case("E6:1 U4:1", "failed: " + NOT_TAKEN, ends=False, fails=True)
@case("U4:1 U6:1", SAYS_NOTHING, ends=False)
@case("U4:1 T1:1", SAYS_NOTHING, more=True)
@case("U4:1 T1:1", SAYS_NOTHING, late=True)
def free_behind_a_reply(s, ends=True, fails=False, more=False, late=False):
    """A service replies, and frees the buffer of the call in the same write, behind the reply. The caller has ended, or
    gets an error in place of the reply. Or the driver took a command behind the reply, or the caller ends later."""
    service, client, other = *s.two(), s.process(300, "other")
    service.main.gets(client.main.sends(0, 1))
    if ends and not late:
        client.ends()
    service.main.writes(Sent(None, 0, 0, b"1234", b"").record(BC_REPLY), *([ENTER] if more else []))
    if ends and late:
        client.ends()
    service.main.reads(DONE)
    if not ends:
        client.main.reads(DONE, record(BR_FAILED_REPLY) if fails else Sent(None, 0, 0, b"", b"").record(BR_REPLY))
    other.main.asks(service.main, 2, times=4)
    s.wait(300)


@case("U6:1", kept=1)
@case("U4:1 U5:1", kept=2)
@case("U4:1 U6:1", kept=2, wait=50, between=200)
@case("U4:2 U5:1", kept=3)
def last_buffer(s, service, client, kept, wait=500, between=0):
    """A thread keeps the last reply that it got, and another before it or not."""
    for _ in range(kept):
        s.wait(between)
        client.main.asks(service.main, free=False)
    s.wait(wait)


@case("U1:1", wait=300, held=1)
@case("U4:1", wait=1200, held=1)
@case("U4:1", wait=300, held=0)
def few_frames(s, service, client, wait, held):
    """A reply that is held over one more call at the end, as the ones before it were, or over more than these."""
    for _ in range(3):
        address = client.main.asks(service.main, free=False)
        client.main.asks(service.main, 2, times=held)
        client.main.frees(address)
    client.main.asks(service.main, free=False)
    client.main.asks(service.main, 2)
    s.wait(wait)


# ---- calls


@case("U2:1 A1:2", good=3, took=1, wait=150)
@case("U6:1 A1:2", good=3, took=1, wait=80)
@case("U1:1 A1:2", good=3, took=100, wait=190)
@case("U6:1 A1:2", good=3, took=100, wait=230)
@case("U2:1 A1:2", good=3, took=100, wait=1100)
@case("U6:1 A1:2", good=3, took=100, wait=900)
@case("C4:1 A1:2", good=2, took=100, wait=1100)
@case("C4:3 A1:6", good=3, took=600, wait=1300, calls=3)
@case("U6:2 A1:4", good=3, took=600, wait=1300, calls=2)
@case("U6:3 A1:6", good=2, took=600, wait=1300, calls=3)
@case("U1:3 A1:6", good=3, took=600, wait=1100, calls=3)
@case("U6:3 A1:6", good=3, took=100, wait=900, calls=3)
@case("M2:1 A1:2", good=3, took=100, wait=1100, lost=each_of(1, 0))
def slow_answers(s, service, client, good, took, wait, lost=None, calls=1):
    """A call takes long, or several of several threads. `lost`: a frame of the service, 0, or of the client, 1, is
    lost."""
    client.main.asks(service.main, took=took, times=good)
    if lost is not None:
        s.loses((service, client)[lost])
    for at in range(calls):
        (service.looper(at) if at else service.main).gets((client.thread(at) if at else client.main).sends(0, 1))
    s.wait(wait)


@case("A1:2 T1:1", wait=50)
@case("A1:2 C4:1", wait=400)
def caller_ends(s, service, client, wait):
    """A caller ends while its call is served: soon, or long after."""
    service.main.gets(client.main.sends(0, 1))
    s.wait(wait)
    client.ends()
    s.wait(300)


@case("E4:1", kind=BR_FROZEN_REPLY)
@case("E3:1", kind=BR_DEAD_REPLY)
@case("E5:1", "E5 by client 200: 1", kind=BR_FAILED_REPLY)
@case("E6:1", "E6 by service 100: 1", kind=BR_FAILED_REPLY, confirmed=True)
@case("M3:1", kind=BR_FAILED_REPLY, lost=True)
def failed_call(s, service, client, kind, confirmed=False, lost=False):
    client.main.asks(service.main)
    s.loses(client, lost)
    client.main.sends(0, 1)
    client.main.reads(*([DONE] if confirmed else []), record(kind))


@case("E6:1", "E6 by client 200: 1", "the call takes no file descriptors (TF_ACCEPT_FDS), and its reply has some")
@case("E6:1", "E6 by client 200: 1", sort=5)
@case("E6:1", "E6 by service 100: 1", sort=0)
@case("E6:1", "E6 by service 100: 1", flags=ACCEPT_FDS)
def reply_with_a_descriptor(s, service, client, flags=0, sort=4):
    """The driver can't deliver a reply with a file descriptor, or with several or another object, and its caller takes
    some, or none."""
    address = service.main.gets(client.main.sends(0, 1, flags=flags))
    service.main.replies(address, SORTS[sort], offsets(0))
    client.main.reads(DONE, record(BR_FAILED_REPLY))


@case("S1:1", "the send at", "S1 at 752: 1 of 2, 2 frames, 2000000 ns", "real sends that were refused: 1 of 2 code 7",
      "defect: sends that were refused | client", known=True)
@case("M3:1", "maybe closers of no call: 1 of 2 code 7", "defect: closers of no call | client", known=True, lost=True)
def refused_of_two(s, service, client, known, lost=False):
    """Of two oneway sends in one write the driver refuses the second."""
    client.main.asks(service.main)
    s.loses(client, lost)
    sent = Sent(None, 7, ONE_WAY, b"", b"").record(BC_TRANSACTION)
    client.main.writes(sent, sent)
    client.main.reads(DONE, record(BR_FAILED_REPLY))
    service.main.frees(service.main.gets(Sent(client.main, 7, ONE_WAY, b"", b"")))


@case("S1:1 S3:1", "the send at")
def after_a_crossed_call(s, service, client):
    """While a service serves a call, the driver refuses the second of two oneway sends in one write. The error reply
    crosses the served call, so the reply to that call is a stray."""
    client.main.gives(service.main, 7)
    address = service.main.gets(client.main.sends(0, 1))
    sent = Sent(None, 7, ONE_WAY, b"", b"").record(BC_TRANSACTION, 7)
    service.main.writes(sent, sent)
    service.main.reads(DONE, record(BR_FAILED_REPLY))
    client.main.frees(client.main.gets(Sent(service.main, 7, ONE_WAY, b"", b""), 0x9700))
    client.main.answered(service.main.replies(address))


@case("E5:1 S2:1", "refused at", "groups that are real: 1")
def reply_to_nothing(s, service, client):
    """The error and the reply are one finding."""
    client.main.asks(service.main)
    service.main.writes(Sent(None, 0, 0, b"", b"").record(BC_REPLY))
    service.main.reads(record(BR_FAILED_REPLY))


@case("S4:1 U6:1", met="from-start")
@case("P1:1 U6:1", met="in-mid-life")
@case("M1:1 U6:1", met="from-start", lost=True)
def answer_to_nothing(s, service, client, lost=False):
    s.loses(client, lost)
    client.main.reads(Sent(None, 0, 0, b"", b"").record(BR_REPLY, 0, client.address()))
    client.main.writes(record(BC_EXIT_LOOPER))


@case("C4:2 E6:2 U6:1 A1:4", n=3, wait=620)
@case("C4:3 E6:2 A1:4", n=3, wait=660)
@case("C4:2 E6:2 U6:1 A1:4", n=4, wait=640)
@case("C4:3 E6:2 A1:4", n=4, wait=670)
@case("C4:2 E6:2 U4:1 U6:1 A1:2", n=3, wait=590, of_buffers=True)
@case("C4:2 E6:2 U4:1 U5:1 A1:2", n=3, wait=620, of_buffers=True)
def older_than_usual(s, service, client, n, wait, of_buffers=False):
    """Calls of a code take from 20 ms to 200 ms, and their answers are held as long; two of another code fail after
    a second. Then a call of a third code is open for some ten times the median of these, or two answers are kept."""
    for took in (20, 60, 200, 65)[:n]:
        address = service.main.gets(client.main.sends(0, 2))
        s.wait(took)
        answer = client.main.answered(service.main.replies(address), free=False)
        s.wait(took)
        client.main.frees(answer)
    failing = client.thread(1), client.thread(2)
    for number, thread in enumerate(failing, 1):
        service.thread(number).gets(thread.sends(0, 3))
    s.wait(1000)
    for thread in failing:
        thread.reads(DONE, record(BR_FAILED_REPLY))
    if of_buffers:
        client.main.asks(service.main, 7, free=False, times=2)
    else:
        service.main.gets(client.main.sends(0, 7))
    s.wait(wait)
