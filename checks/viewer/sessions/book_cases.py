"""Sessions that were met in mid-life, with the driver's book of what they held then."""

from checks.kit.captures import (BC_ACQUIRE, BC_DEAD_BINDER_DONE, BC_RELEASE, BC_REPLY, BC_REQUEST_DEATH_NOTIFICATION,
                                 BR_CLEAR_DEATH_NOTIFICATION_DONE, BR_DEAD_BINDER, BR_RELEASE, BR_REPLY,
                                 BR_SPAWN_LOOPER, ENTER, each, each_long, node, record, watch)
from checks.viewer.sessions.cases import case, each_of
from checks.viewer.sessions.session import DONE, ONE_WAY, Sent


# ---- lines of the book `state`, as the kernel 6.1 writes them


def ref(handle, strong=1, weak=0, node=82):
    return f"  ref 87: desc {handle} node {node} s {strong} w {weak} d 0000000000000000\n"


def own(ptr, strong=1, weak=1, local=0, number=82):
    return f"  node {number}: u{ptr:016x} c{0:016x} hs {strong} hw {weak} ls {local} lw 0 is 1 iw 1 tr 1 proc 200\n"


def buffer(address, number=97):
    return f"  buffer {number}: {address:016x} size 28:0:0 delivered\n"


def thread(number, *lines):
    return f"  thread {number}: l 12 need_return 0 tr 0\n" + "".join(f"    {line}\n" for line in lines)


def transaction_of(kind, reply=1, code=3):
    return f"{kind} transaction 102: ff2116b3824dd9c0 from 200:200 to 100:100 code {code} flags 0 pri 0 r{reply}"


def call_of(number, caller, server, has, node=0, code=3):
    """The line of a call, from a process and a thread to another, in the list of the one that `has` it."""
    (pid, tid), (to, by) = caller, server
    told = f" node {node} size 0:0 offset 0" if node else ""
    return (f"{has} transaction {number}: ff2116b3824dd9c0 from {pid}:{tid} to {to}:{by} code {code:x} flags 10 pri"
            f" 0:120 r1{told}")


DEAD, CLEARED = "  has delivered dead binder\n", "  has cleared death notification\n"
REPLY = Sent(None, 0, 0, b"", b"").record(BC_REPLY)


def begun(s, client="", service="", early=False, **given):
    """A service and a client that the recorder met, and what the book has of them. Without `early` they do nothing
    until the copy is certain."""
    s.books("begin", of_200=client, of_100=service)
    s.wait(0 if early else 200)
    return s.two("in-mid-life", **given)


# ---- handles, nodes, requests


@case("H7:1", "before the recording: strong 1, weak 0", had=1, times=1)
@case("H6:1", "before the recording: strong 2, weak 0", had=2, times=1)
@case("H2:1", "(before the recording: strong 1, weak 0; 1 time too often)", had=1, times=2)
@case("H1:1", had=0, times=1)
@case("M1:1", had=0, times=1, lost=True)
@case("M1:1", had=1, times=2, lost=True)
@case("P1:1", had=0, times=1, early=True)
@case("P1:1", had=1, times=2, early=True)
@case("H7:1", had=1, times=1, early=True)
def lets_go(s, had, times, lost=False, early=False):
    """A process lets go of a handle that it held before, or did not."""
    service, client = begun(s, ref(7, had) if had else ref(8), own(0x700), early)
    s.loses(client, lost)
    client.main.writes(*each(BC_RELEASE, *[7] * times))


@case("D9:1 H7:1", had=1)
@case("H6:1 U4:1", had=2)
@case("D9:1 H7:1", had=1, asked=False, waits=False)
@case("H7:1 U4:1", had=1, asked=False, waits=each_of(True, None))
def lets_go_of_dead(s, had, asked=True, waits=None):
    """A process lets go of a handle that it held before, when it was told of the death, and does not acknowledge that.
    `asked`: it asked for the death after the recording began. `waits`: whether the book of the end has a death that
    waits for its acknowledgement; None without a book."""
    service, client = begun(s, ref(7, had), own(0x700))
    if asked:
        client.main.writes(watch(BC_REQUEST_DEATH_NOTIFICATION, 7, 0xD7))
    client.main.reads(*each_long(BR_DEAD_BINDER, 0xD7))
    client.main.writes(*each(BC_RELEASE, 7))
    client.main.goes_on(2)
    s.wait(1100)
    if waits is not None:
        s.books("end", of_200=DEAD if waits else "", of_100="")


@case("H6:1", had=1)
@case("H1:1", had=0)
def takes_again(s, had):
    """A handle that was held is taken once more, with one reference or none from before."""
    _, client = begun(s, ref(7) if had else "", own(0x700))
    client.main.writes(*each(BC_ACQUIRE, 7))


@case("H1:1", quiet=False)
def takes_later(s, quiet):
    """A process that was busy when the book was copied names a handle for the first time after that."""
    _, client = begun(s, early=not quiet)
    client.main.writes(ENTER)
    s.wait(200)
    client.main.writes(*each(BC_ACQUIRE, 7))


@case("H7:1", "before the recording: strong 1, weak 0", had=1)
@case("H6:1", "before the recording: strong 1, weak 1", had=1, weak=1)
@case("H2:1", had=0)
@case("H2:1", strong=0, had=1)
@case("P1:1", had=0, early=True)
def is_let_go(s, had, strong=1, weak=0, early=False):
    """Others let go of an object of a process, of which they had a reference before, or not."""
    service, _ = begun(s, "", own(0x700, strong, weak) if had else "", early)
    service.main.reads(node(BR_RELEASE, 0x700, 0))


@case("D1:1", had=0)
@case("D5:1", had=1)
@case("P1:1", had=0, early=True)
@case("D5:1 D2:1", "the one before is at", had=1, again=True)
def request_from_before(s, had, early=False, again=False):
    """A request of a handle stays that is let go of as often as it is taken in the recording."""
    service, client = begun(s, ref(1) if had else "", own(0x100), early)
    client.main.is_given(service.main, 1)
    client.main.writes(watch(BC_REQUEST_DEATH_NOTIFICATION, 1, 0xD))
    if again:
        client.main.writes(watch(BC_REQUEST_DEATH_NOTIFICATION, 1, 0xE))
    client.main.writes(*each(BC_RELEASE, 1))


# ---- calls, buffers, deaths, clears


@case("P2:1", lines=["outgoing"], answers=1)
@case("P2:1 P1:1", lines=["outgoing"], answers=2)
@case("P2:1 S4:1", lines=["outgoing"], answers=2, writes=True)
@case("P2:2", lines=["outgoing", "outgoing"], answers=2)
@case("P2:1", lines=each_of(["pending"], ["error"]), answers=1)
@case("P1:1", lines=["incoming"], answers=1)
@case("S4:1", lines=["incoming"], answers=1, writes=True)
@case("P1:1", lines=[], answers=1)
@case("S4:1", lines=[], answers=1, writes=True)
@case("P1:1", lines=[], answers=1, writes=True, early=True)
@case("P2:1", lines=["outgoing"], answers=1, early=True)
@case("M1:1", lines=[], answers=1, lost=True)
def answers_to_calls_from_before(s, lines, answers, writes=False, early=False, lost=False):
    """If the client reads first, it may have been in a write since before the recording, which the book lacks too."""
    told = ["transaction error: 29189" if kind == "error" else transaction_of(kind, int(kind != "pending"))
            for kind in lines]
    _, client = begun(s, thread(200, *told), early=early)
    s.loses(client, lost)
    if writes:
        client.main.writes(ENTER)
    for _ in range(answers):
        address = client.address()
        client.main.reads(Sent(None, 0, 0, b"", b"").record(BR_REPLY, 0, address))
        client.main.frees(address)


@case("P2:1", kind="incoming")
@case("S4:1", kind="outgoing")
@case("S4:1", kind="outgoing", reads=True)
@case("P1:1", kind="outgoing", early=True)
def reply_to_a_call_from_before(s, kind, reads=False, early=False):
    service, _ = begun(s, "", thread(100, transaction_of(kind)), early)
    server = service.main
    if reads:
        server = service.thread(101)
        server.reads(record(BR_SPAWN_LOOPER))
    server.writes(REPLY)
    server.reads(DONE)


@case("P2:1", had=[0x7238], frees=[0x7238])
@case("P2:1 F2:1", had=[0x7238], frees=[0x7238, 0x7238])
@case("P2:2", had=[0x7238, 0x7300], frees=[0x7300, 0x7238])
@case("F2:1", had=[0x7238], frees=[0x7230])
@case("P2:1", had=[0x238], frees=[0x7fff1238])
@case("F2:1", had=[0x238], frees=[0x7fff1230])
@case("F2:1", had=[0x7fff000238], frees=[0x7fff001238])
@case("P1:1", had=[], frees=[0x7238], early=True)
def frees_what_came_before(s, had, frees, early=False):
    """The second form of an address is how far a buffer is from the beginning of the mapping."""
    _, client = begun(s, "".join(buffer(address, number) for number, address in enumerate(had)), early=early)
    client.main.frees(*frees)


@case("P2:2", told=True, deaths=2)
@case("D4:2", told=False, deaths=2)
@case("P1:1", told=False, deaths=1, early=True)
def acknowledges_what_was_told_before(s, told, deaths, early=False):
    """The book says that deaths wait for acknowledgement, and not how many."""
    _, client = begun(s, DEAD if told else "", early=early)
    client.main.writes(*each_long(BC_DEAD_BINDER_DONE, *range(0xD, 0xD + deaths)))


@case("P2:1", waits=True, clears=1)
@case("P2:1 D4:1", waits=True, clears=2)
@case("D4:1", waits=False, clears=1)
@case("P1:1", waits=False, clears=1, early=True)
def confirms_what_was_cleared_before(s, waits, clears, early=False):
    _, client = begun(s, CLEARED if waits else "", early=early)
    client.main.reads(*each_long(BR_CLEAR_DEATH_NOTIFICATION_DONE, *range(0xD, 0xD + clears)))


@case("C6:1 C7:2 A1:2", "2 loopers are in ", "a call from before the capture", kind="incoming")
@case("C6:1 C7:2 A1:2", "a looper is in code 10 since", kind="outgoing")
@case("C6:1 C7:2 A1:2 P2:1", "a looper is in code 10 since", kind="incoming", replies=True)
def pool_from_before(s, kind, replies=False):
    """A looper serves a call from before the recording; the other one never answers, and two calls wait."""
    service, client = begun(s, "", thread(101, transaction_of(kind)), enters=False)
    client.main.asks(service.main, 2)
    if replies:
        other = service.thread(1)
        other.writes(REPLY)
        other.reads(DONE)
    service.main.gets(client.main.sends(0, 10))
    for number in 300, 301:
        s.process(number, "other").main.sends(0, 1)
    s.wait(1100)


# ---- calls that are in the book of the beginning and in that of the end


def through(s, calls, wait=300, again=None, does=lambda *both: None, **given):
    """Calls are open when the recording begins, and those of `again`, or the same, when it ends: each has a number, its
    caller and its server, with their threads; 0 is no thread. The processes 100 and 200 have frames; in 300 to 302 all
    hangs, so that they have none."""
    def book(calls):
        told = {pid: {} for pid in (100, 200, 300, 301, 302)}
        for number, caller, server in reversed(calls):
            told[caller[0]].setdefault(caller[1], []).append(call_of(number, caller, server, "outgoing"))
            told[server[0]].setdefault(server[1], []).append(
                call_of(number, caller, server, "incoming" if server[1] else "pending", server[0]))
        lines = {pid: own(0x700, number=pid) + "".join(
            f"  {line}\n" for line in threads.pop(0, [])) + "".join(
                thread(tid, *lines) for tid, lines in threads.items()) for pid, threads in told.items()}
        lines[200] += ref(7, node=100) + ref(8, node=301)
        return {f"of_{pid}": text for pid, text in lines.items()}
    for pid in (100, 200, 300, 301, 302):
        s.tell(f"met opening={pid} pid={pid} name=of-{pid}")
    s.books("begin", **book(calls))
    s.wait(200)
    service, client = s.two("in-mid-life", **given)
    client.main.writes(ENTER)
    does(service, client)
    s.wait(wait)
    s.books("end", **book(calls if again is None else again))


FIRST = (9569, (200, 201), (100, 101))


@case("B1:1", "thread 201 of client 200 waits for thread 101 of service 100", "code 3 to service 100 node 0x700",
      "B1 by service 100: 1", calls=[FIRST])
@case("B1:1", "thread 201 of client 200 waits for service 100, where no thread got it",
      calls=[(9569, (200, 201), (100, 0))])
@case("", calls=[FIRST], again=[])
@case("", calls=[], again=[FIRST])
@case("", calls=[FIRST], again=[(9570, *FIRST[1:])])
@case("B1:1", "thread 300 of of-300 300 waits for thread 301 of of-301 301", "code 3 to of-301 301 node 0x700",
      calls=[(9569, (300, 300), (301, 301))])
@case("B1:1 C7:1", "; the call from before by thread 301)",
      calls=[(9569, (300, 300), (301, 301)), (9570, (301, 301), (302, 302))])
@case("C3:2", "C3 by of-300 300: 1", "C3 by of-301 301: 1",
      calls=[(9569, (300, 300), (301, 0)), (9571, (301, 301), (300, 0))])
@case("C3:3", calls=[(9569, (300, 300), (301, 0)), (9571, (301, 301), (302, 0)), (9573, (302, 302), (300, 0))])
@case("C3:2", calls=[(9569, (200, 201), (100, 0)), (9571, (100, 101), (200, 0))])
@case("C3:2", calls=[(9569, (300, 300), (301, 305)), (9571, (301, 301), (300, 305))])
@case("C9:2", "in a ring with the call from before by thread 300 of of-300 300, code 3 to of-301 301 node 0x700",
      calls=[(9569, (300, 300), (301, 305)), (9571, (301, 306), (300, 305))])
@case("B1:1 C7:1", calls=[(9569, (300, 300), (301, 305)), (9571, (301, 305), (300, 300))])
def open_throughout(s, **given):
    through(s, **given)


CALL_IN_RUST = " transaction 9569: from 200:200 to 301 code 3 flags 10 elapsed 5ms node 7 size 0:0\n"
IN_RUST = f"""binder state:
proc 200
context binder
  thread 200: l 12 need_return false
    outgoing{CALL_IN_RUST}proc 301
context binder
  thread 301: l 12 need_return false
    incoming{CALL_IN_RUST}  node 7: u0000000000000700 c0000000000000701 hs true hw true cs 1 cw 1
"""


@case("B1:1", "thread 200 of of-200 200 waits for thread 301 of of-301 301", "code 3 to of-301 301 node 0x700",
      device="C")
@case("B1:1", "thread 200 of client 200 waits for thread 301 of of-301 301", device="Rust")
def throughout_in_the_other_driver(s, device):
    """Two processes have an opening of the driver in Rust, in which a call hangs. One of them has another opening, of a
    device of the same name: that is of the driver in C, or it is this one."""
    s.lines[0] = s.lines[0].replace("\n", f" drivers=10:1:{device}\n")
    for pid in (200, 301):
        s.tell(f"met opening={pid + 1000} pid={pid} name=of-{pid}")
    s.books("begin", IN_RUST)
    _, client = s.two()
    client.main.writes(ENTER)
    s.wait(300)
    s.books("end", IN_RUST)


@case("C6:1 C7:2", "2 wait for it; thread 201 of client 200 waits for thread 101 of service 100", wait=1100)
@case("B1:1 C7:2", wait=900)
@case("C6:1 C7:2", to=8, server=(301, 301), wait=1100)
def throughout_in_a_pool(s, wait, to=7, server=(100, 101)):
    """The only looper of a service serves a call from before, and two calls wait for it."""
    def calls(_, client):
        client.main.sends(to, 1)
        client.thread(2).sends(to, 1)
    through(s, [(9569, (200, 201), server)], wait, does=calls, enters=False)


@case("C7:1 W5:1", "a looper is in oneway code 1 since 300 ms; 1 send waits")
def throughout_before_a_pool(s):
    """The looper of a service is in a oneway transaction, and a call from before waits for it."""
    def calls(service, client):
        looper = service.looper(1)
        looper.gets(client.main.sends(7, 1, ONE_WAY), 0x700)
    through(s, [(9569, (200, 201), (100, 0))], does=calls, enters=False)


@case("U1:1", took=700, wait=200)
@case("B1:1", took=700, wait=800)
def throughout_like_others(s, took, wait):
    """Others of its path took as long as the recording, or not."""
    def calls(service, client):
        callers = [client.thread(at) for at in range(10, 13)]
        served = [service.thread(at) for at in range(10, 13)]
        got = [one.gets(other.sends(7, 3), 0x700) for one, other in zip(served, callers)]
        s.wait(took)
        for one, other, address in zip(served, callers, got):
            other.answered(one.replies(address))
    through(s, [FIRST], wait, does=calls)


@case("C3:2 A1:2", wait=300)
@case("B1:1 U6:1 A1:2", wait=50)
def throughout_beside_a_call(s, wait):
    """The main thread of a service is in a call from before to the client, whose main thread makes a call that another
    thread of the service serves."""
    def calls(service, client):
        service.thread(1).gets(client.main.sends(7, 1), 0x700)
    through(s, [(9569, (100, 100), (200, 205))], wait, does=calls, enters=False)


@case("C4:1 C7:1 A1:2", "; the call at ", on=True)
@case("B1:1 C4:1 A1:2", on=False)
def throughout_goes_on(s, on):
    """The thread that serves a call from before, or another one, makes a call that is never answered."""
    def calls(service, client):
        sink = s.process(303, "sink")
        sink.main.gets(service.thread(1 if on else 2).sends(9, 4), 0x900)
    through(s, [FIRST], 300, does=calls)
