"""More sessions as in cases.py: calls that wait for a lock, which a thread of their service holds over a call of its
own."""

import itertools

from checks.kit.captures import BR_DEAD_REPLY, record
from checks.viewer.sessions.cases import case, each_of
from checks.viewer.sessions.session import Sent


# A handle that leads to a process of which nothing was recorded.
UNKNOWN = 77


class Scene:
    """A service that has an object of another process by handle 8, two clients in whose calls it calls that process,
    and six more, of which the first three call these methods of it a few times. It takes so long, and some times
    longer."""

    def __init__(self, s, usual=1, codes=(3,), slow=0):
        self.s, (self.service, self.keeper) = s, s.two()
        self.other, self.second = s.process(300, "other"), s.process(310, "keeper")
        self.other.main.gives(self.service.main, 8)
        self.loopers = [self.service.looper(at) for at in range(1, 10)]
        self.serving = [self.other.looper(at) for at in range(1, 8)]
        self.clients = [s.process(201 + at, "client") for at in range(6)]
        for at, (one, code) in enumerate(itertools.product(self.clients[:3], 4 * sorted(set(codes)))):
            one.main.asks(self.service.main, code, took=150 if at < slow else usual)

    def holds(self, looper=0, by=None, code=2, inner=1, handle=8, to=(0, 0)):
        """A looper gets a call, and calls the other process within it. Returns what ends both."""
        thread = self.loopers[-1 - looper]
        caller = (by or self.keeper).main
        held = thread.gets(caller.sends(to[0], code), to[1])
        serving = self.serving[looper]
        sent = thread.sends(handle, inner)
        got = serving.gets(sent, 0x9000 + 0x100 * handle) if handle < UNKNOWN else None

        def inner_ends(fails=False):
            if got is None:
                thread.answered(Sent(None, 0, 0, b"", b""))
            elif fails:
                thread.reads(record(BR_DEAD_REPLY))
            else:
                thread.answered(serving.replies(got))
        return inner_ends, lambda: caller.answered(thread.replies(held))

    def waits(self, codes=(3, 3, 3)):
        """Clients call methods of the service, and loopers of it get that. Returns what ends it."""
        calls = []
        for at, (one, code) in enumerate(zip(self.clients, codes)):
            looper = self.loopers[at]
            calls.append((one.main, looper, looper.gets(one.main.sends(0, code))))

        def all_end():
            for caller, looper, address in calls:
                caller.answered(looper.replies(address))
        return all_end


@case("V4:1", "V4 of service 100, slow lock: frame 98 at 7336, thread 108",
      "maybe a lock held over a call: 1 of - code 2 at service 100 node 0x0 V4 (3 calls waited up to 1.11 s, until"
      " its call at 7436 ended, code 1 to other 300: 3 of code 3)", "V4 by service 100: 1",
      "defect: a lock held over a call | service on binder | code 2 at service")
@case("", took=90)
@case("", took=70, late=60, earlier=True)
@case("V4:1", took=130)
@case("", codes=(3, 3))
@case("V4:1", "(4 calls waited up to 1.11 s, until its call at ", codes=(3, 3), times=2)
@case("", usual=120)
@case("V4:1", usual=100)
@case("", slow=5)
@case("V4:1", slow=4, codes=(3, 3), times=2)
@case("", late=120)
@case("V4:1", late=60)
@case("", came=each_of(-1, 1030))
@case("V4:1", came=950)
@case("", calls=False)
@case("A1:1 C4:1 E3:1 V4:1", fails=True)
@case("V4:1", ": 2 of code 8, 1 of code 4, 1 of code 5, 1 of code 6)", codes=(7, 6, 5, 4, 8, 8))
@case("", lost=True)
def holds_a_lock(s, took=1100, codes=(3, 3, 3), times=1, usual=1, late=0, came=0, calls=True, fails=False, lost=False,
                 earlier=False, slow=0):
    """A service calls another process within a call. Calls that came so long after that end when it ends, or some time
    later. `came` below 0: they came before. Or the service takes as long, and calls nobody. `earlier`: it called the
    other process for longer before. `slow` of the calls before took 150 ms."""
    scene = Scene(s, usual, codes, slow)
    if earlier:
        ends = scene.holds()
        s.wait(200)
        for end in ends:
            end()
    s.loses(scene.service, lost)
    for _ in range(times):
        early = scene.waits(codes) if came < 0 else None
        if calls:
            inner_ends, held_ends = scene.holds(1)
        s.wait(max(came, 0))
        all_end = early or scene.waits(codes)
        s.wait(took - max(came, 0))
        if calls:
            inner_ends(fails)
        s.wait(late)
        all_end()
        if calls:
            held_ends()


@case("", passes="same path")
@case("V4:1", "3 of code 3", passes=each_of("code", "object", "process", "own", "before"))
def others_meanwhile(s, passes):
    """While a service holds a lock over a call, another call passes through: of the same path, of another code, to
    another object, to another process that has the object at the same address; or a thread of the service calls the
    other process too, within no call. Or a call passes through just before."""
    scene = Scene(s)
    keeper, service, looper = scene.second, scene.service, scene.loopers[3]
    keeper.main.is_given(service.main, 2, node=0x200)
    third = s.process(320, "third")
    third.main.gives(service.main, 9, node=0x9000)
    if passes == "before":
        keeper.main.asks(looper, 3)
    inner_ends, held_ends = scene.holds()
    all_end = scene.waits()
    if passes == "same path":
        keeper.main.asks(looper, 3)
    elif passes == "code":
        keeper.main.asks(looper, 4)
    elif passes == "object":
        keeper.main.asks(looper, 3, 2, 0x200)
    elif passes == "process":
        service.main.asks(third.main, 3, 9, 0)
    own = [service.thread(20 + at) for at in range(3)] if passes == "own" else []
    asked = [(one, serving, serving.gets(one.sends(8, 1), 0x9800)) for one, serving in zip(own, scene.serving[3:])]
    s.wait(1100)
    inner_ends()
    for one, serving, got in asked:
        one.answered(serving.replies(got))
    all_end()
    held_ends()


@case("")
def all_wait_for_another(s):
    """Four calls within which a service calls another process, which answers all at once, the first one last."""
    scene = Scene(s, codes=(2,))
    ends = [scene.holds(at, one) for at, one in enumerate([scene.keeper, *scene.clients[:3]])]
    s.wait(1100)
    for inner_ends, _ in reversed(ends):
        inner_ends()
    for _, held_ends in ends:
        held_ends()


@case("V4:1", "code 2 at service 100 node 0x0 (3 calls waited up to 1.1", ends=(1, 0))
@case("V4:1", "code 5 at service 100 node 0x0 (3 calls waited up to 1.1", ends=(0, 1))
@case("V4:1", "code 2 at service 100 node 0x0 (3 calls waited up to 1.1", ends=(1, 0), come="between")
@case("", ends=(0, 1), come="between")
@case("V4:1", "code 5 at service 100 node 0x0 (3 calls waited up to 1", ends=(0, 1), come="later", between=160)
@case("V4:1", "code 2 at service 100 node 0x0 (3 calls waited up to 1.1", ends=(1, 0), third=True)
def two_hold(s, ends, come="", between=60, third=False):
    """Two threads of a service wait for another process at once, and are answered in this order, one a while after the
    other. The calls that wait come between the two, or when the first one has been answered. `third`: a third thread
    waits for a while, before the second one."""
    scene = Scene(s)
    first = scene.holds()
    if third:
        ended = scene.holds(2, scene.clients[3], 6)
        s.wait(150)
        for end in ended:
            end()
    all_end = scene.waits() if come == "between" else None
    both = [first, scene.holds(1, scene.second, 5)]
    all_end = all_end or (None if come else scene.waits())
    s.wait(1030)
    both[ends[0]][0]()
    all_end = all_end or scene.waits()
    s.wait(between)
    both[ends[1]][0]()
    all_end()
    for _, held_ends in both:
        held_ends()


@case("V5:1", codes=(2, 5))
@case("V4:2", "code 2 at service 100 node 0x0 (3 calls", "code 5 at service 100 node 0x0 (3 calls", ": 3 of code 3)",
      codes=(2, 5), waiting=3)
@case("V4:1", "(4 calls waited")
@case("V4:1", "(4 calls waited up to 1.11 s", "slow lock: frame", took=(600, 1100))
@case("V4:1", "(4 calls waited", inner=(1, 4))
@case("V4:1", "(4 calls waited", handles=(8, 9))
@case("V4:1", "(4 calls waited up to 1.11 s, until its call at ", " ended, code 1: 4 of code 3)",
      handles=(UNKNOWN, UNKNOWN))
@case("V5:1", to=((0, 0), (2, 0x200)))
@case("V4:2", "code 2 at service 100 node 0x200 (3 calls", ": 3 of code 3)", to=((0, 0), (2, 0x200)), waiting=3)
def one_after_another(s, codes=(2, 2), inner=(1, 1), handles=(8, 8), to=((0, 0), (0, 0)), waiting=2,
                      took=(1100, 1100)):
    """A service holds a lock over two calls of such codes to objects of such handles, one after the other, within calls
    of such codes to such objects of its own, and so many calls wait each time."""
    scene = Scene(s)
    scene.other.main.gives(scene.service.main, 9)
    scene.keeper.main.is_given(scene.service.main, 2)
    for at, code in enumerate(codes):
        inner_ends, held_ends = scene.holds(0, None, code, inner[at], handles[at], to[at])
        all_end = scene.waits((3,) * waiting)
        s.wait(took[at])
        inner_ends()
        all_end()
        held_ends()


# Two services, which have objects at the same addresses, and methods of these.
A, B, METHODS = 400, 500, [(number, code, ptr) for number in (400, 500) for code in (3, 4) for ptr in (0x9000, 0x9100)]


@case("V4:1", "code 2 at service 400 node 0x9000 (3 calls waited up to 1.1", ": 3 of code 3)",
      slow=((A, 4, 0x9000), (A, 3, 0x9100), (B, 3, 0x9000)))
@case("V4:1", "code 2 at service 500 node 0x9000 (3 calls waited up to 1.1", slow=((A, 3, 0x9000),))
@case("V4:2", "5 calls waited up to 1.15 s, until its call at 27672 ended", ": 4 of code 3, 1 of code 4)")
@case("V4:1", "5 calls waited up to 1.1", passes=True)
@case("V4:2", "5 calls waited up to 1.1", again=True)
def methods_wait(s, manager, client, slow=(), passes=False, again=False):
    """Two services each hold a lock over a call, and that of the second one ends later. Three calls of a method of each
    wait, and of the first one two of another method and of another object. Some take 150 ms at other times, too. Or a
    call to the second one passes. `again`: another thread of the first one waits for the other process meanwhile."""
    other = s.process(300, "other")
    other.main.gives(manager.main, 8)
    threads = [client.thread(at) for at in range(1, 13)]
    serving = [other.looper(at) for at in range(1, 4)]
    pools, handle = {}, {}
    for number in A, B:
        service = s.process(number, "service")
        pools[number] = [service.looper(at) for at in range(1, 9)]
        service.main.is_given(manager.main, 8, server_handle=8)
        for ptr in 0x9000, 0x9100:
            handle[number, ptr] = number // 10 + (ptr >> 8 & 0xF)
            service.main.gives(manager.main, handle[number, ptr], node=ptr)
            client.main.is_given(manager.main, handle[number, ptr], server_handle=handle[number, ptr])
    for number, code, ptr in METHODS:
        for _ in range(12 if (number, code, ptr) == (A, 3, 0x9000) else 4):
            took = 150 if (number, code, ptr) in slow else 0
            client.main.asks(pools[number][0], code, handle[number, ptr], ptr, took=took)
    held = []
    for number, serves in zip((A, B, A) if again else (A, B), serving):
        caller, keeper = threads.pop(), pools[number].pop()
        address = keeper.gets(caller.sends(handle[number, 0x9000], 2), 0x9000)
        held.append((caller, keeper, address, serves, serves.gets(keeper.sends(8, 1), 0x9800)))
    calls = []
    for number, code, ptr in [(A, 3, 0x9000)] * 3 + [(A, 4, 0x9000), (A, 3, 0x9100)] + [(B, 3, 0x9000)] * 3:
        caller, looper = threads.pop(), pools[number].pop()
        calls.append((caller, looper, looper.gets(caller.sends(handle[number, ptr], code), ptr)))
    if passes:
        client.main.asks(pools[B].pop(), 3, handle[B, 0x9000], 0x9000)
    s.wait(1100)
    for _, keeper, _, serves, got in [*held[2:], *held[:2]]:
        keeper.answered(serves.replies(got))
        s.wait(10)
    for caller, looper, address in [*calls, *(one[:3] for one in held)]:
        caller.answered(looper.replies(address))
