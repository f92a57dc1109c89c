"""More sessions as in cases.py: requests for a death of which nobody can read."""

from checks.kit.captures import (BC_ACQUIRE, BC_ENTER_LOOPER, BC_EXIT_LOOPER, BC_REGISTER_LOOPER,
                                 BC_REQUEST_DEATH_NOTIFICATION, BR_FAILED_REPLY, ENTER, each, of_handle, offsets,
                                 record, watch)
from checks.viewer.sessions.book_cases import thread
from checks.viewer.sessions.cases import case, each_of
from checks.viewer.sessions.session import ONE_WAY, node_object


def watches(s, watcher, wait=0):
    """Asks for the death of what its handle 1 leads to."""
    s.wait(wait)
    watcher.main.writes(watch(BC_REQUEST_DEATH_NOTIFICATION, 1, 0xD))


@case("D12:1", "real deaths that nobody reads: 1 of - handle 1, short-lived 300 node 0x9300 D12 (short-lived 300 ended"
      " 1.1 s before the end, and no thread of this process is a looper)", "groups that are real: 1",
      "D12 by watcher 400: 1", "defect: deaths that nobody reads | watcher on binder | handle, short-lived; ")
@case("D5:1", wait=900)
@case("D5:1", ends=False)
@case("D5:1", ends=False, other_ends=True)
@case("D12:1", serves_within=True)
@case("D12:1", "short-lived 300 ended 1.1 s before", asks=600, wait=1100)
@case("D5:1", asks=600, wait=900)
@case("D12:1", "short-lived 300 ended 1.1 s before", leaves=300)
@case("D5:1", wait=600, leaves=600)
@case("M1:1", lost="watcher")
@case("D12:1", lost="short-lived")
@case("D5:1", met="in-mid-life")
@case("D12:1", met="in-mid-life", book=(0, 0x10))
@case("D5:1", met="in-mid-life", book=each_of((0, 0x12), (0x11, 0)))
@case("D12:1", met="in-mid-life", book=(0x06,))
@case("D5:1", met="in-mid-life", book=(), moment="begin")
def death_without_a_reader(s, wait=1100, ends=True, asks=None, leaves=0, lost=None, met="from-start", book=None,
                           moment="end", other_ends=False, serves_within=False):
    """A process without a looper asks for the death of one that ends, before that or so long after it. `leaves`: then
    the recording goes on without it. `book`: the bits of its threads in the driver's book. `serves_within`: it serves a
    call that comes back to it."""
    service, _ = s.two()
    short, watcher = s.process(300, "short-lived"), s.process(400, "watcher", met)
    if moment == "begin" and book is not None:
        books_of(s, moment, book)
    watcher.main.is_passed(short.main, service.main, 1, 3)
    if asks is None:
        watches(s, watcher)
    if serves_within:
        watcher.main.gives(service.main, 4)
        address = service.main.gets(watcher.main.sends(0, 7))
        back = watcher.main.gets(service.main.sends(4, 8), 0x9400)
        service.main.answered(watcher.main.replies(back))
        watcher.main.answered(service.main.replies(address))
    if lost:
        s.loses({"watcher": watcher, "short-lived": short}[lost])
    if ends:
        short.ends()
    if other_ends:
        other = s.process(500, "other", enters=True)
        other.ends()
    if asks is not None:
        watches(s, watcher, asks)
    s.wait(wait)
    if moment == "end" and book is not None:
        books_of(s, moment, book)
    if leaves:
        watcher.ends()
        s.wait(leaves)


def books_of(s, moment, bits):
    """Of each thread of the process without a looper these bits, and what the service is."""
    s.books(moment, of_100=thread(100), of_400="".join(
        f"  thread {400 + at}: l {one:02x} need_return 0 tr 0\n" for at, one in enumerate(bits)))


@case("D5:1", loopers=("waits",))
@case("D5:1", loopers=("waits",), says=BC_REGISTER_LOOPER)
@case("D5:1", loopers=("unsaid",))
@case("D13:1 A1:2 C4:1", "maybe deaths that nobody reads: 1 of - handle 1, short-lived 300 node 0x9300 D13 (short-lived"
      " 300 ended 1.1", " s before the end, and 1 looper of this process had no time since)", "D13 by watcher 400: 1",
      loopers=("serves",))
@case("D13:1 A1:2 C4:1", loopers=("serves",), says=BC_REGISTER_LOOPER)
@case("D5:1 A1:2 C4:1", loopers=("serves",), wait=900)
@case("D5:1 A1:2 C4:1", loopers=("serves",), met="in-mid-life")
@case("M1:1 A1:2 C4:1", loopers=("serves",), lost=True)
@case("D5:1 A1:2 C4:1", loopers=each_of(("serves later",), ("waits", "serves")))
@case("D5:1 D13:1 A1:2 C4:1", "1 looper of this process had no time since", loopers=("serves",), beside=True)
@case("D5:1 E5:1", loopers=("is refused",))
@case("D13:1 A1:2 C5:1 C7:1", loopers=("serves, and calls later",))
@case("D13:1 A1:4 C4:2", "2 loopers of this process had no time since", loopers=("serves", "serves"))
@case("D13:1 A1:2 C4:1", "2 loopers of this process had no time since", loopers=("left", "serves"))
@case("D13:1", "1 looper of this process had no time since", loopers=("left",))
@case("D13:1", loopers=("ended",))
@case("D5:1", loopers=("back",))
@case("D13:1 C5:1", loopers=("calls",))
@case("D5:1", loopers=("called",))
@case("D13:1 W5:1", loopers=("oneway",))
@case("D5:1 W5:1", loopers=("oneway later",))
@case("D5:1", loopers=each_of(("freed oneway",), ("got a call",)))
def death_and_loopers(s, loopers, says=BC_ENTER_LOOPER, wait=1100, met="from-start", lost=False, beside=False):
    """A process with loopers, of which each does something else, asks for the death of one that ends. `beside`: so does
    one whose looper waits."""
    service, client = s.two()
    short, watcher = s.process(300, "short-lived"), s.process(400, "watcher", met)
    watcher.main.is_passed(short.main, service.main, 1, 3)
    client.main.is_passed(watcher.main, service.main, 1, 4)
    watches(s, watcher)
    if beside:
        second = s.process(500, "second")
        second.looper(1)
        second.main.is_given(service.main, 1, server_handle=3)
        watches(s, second)
    threads = [watcher.thread(1 + at) for at in range(len(loopers))]
    callers = [client.thread(1 + at) for at in range(len(loopers))]
    for what, one, caller in zip(loopers, threads, callers):
        if what != "unsaid":
            one.writes(record(says))
        before_the_death(s, what, one, caller, service)
    s.loses(watcher, lost)
    short.ends()
    for what, one, caller in zip(loopers, threads, callers):
        if what.endswith(" later"):
            before_the_death(s, what.removesuffix(" later").removeprefix("serves, and "), one, caller, service)
    s.wait(wait)


def before_the_death(s, what, looper, caller, service):
    """What a looper does."""
    if what in ("unsaid", "serves", "serves, and calls later", "got a call"):
        address = looper.gets(caller.sends(1, 7), 0x9400)
        if not what.startswith("serves"):
            caller.answered(looper.replies(address))
    if what in ("left", "back"):
        looper.writes(record(BC_EXIT_LOOPER))
    if what == "back":
        looper.writes(ENTER)
    if what == "ended":
        looper.ends()
    if what == "calls":
        looper.sends(0, 8)
    if what == "is refused":
        looper.sends(0, 8, told=BR_FAILED_REPLY)
    if what == "called":
        looper.asks(service.main, 8)
    if what in ("oneway", "freed oneway"):
        address = looper.gets(caller.sends(1, 9, ONE_WAY), 0x9400)
        if what == "freed oneway":
            looper.frees(address)


@case("D5:2", at_once=True)
@case("D13:2", at_once=False)
def deaths_of_uncertain_objects(s, manager, at_once):
    """Two processes that end hand an object over to one that asks for both deaths, and of which the only looper leaves.
    It is not known which object is whose if both were sent before the first one came."""
    watcher = s.process(310, "watcher")
    watcher.main.gives(manager.main, 3, node=0x9000)
    looper = watcher.looper(1)
    both = [s.process(400 + at, "short-lived") for at in range(2)]
    for one in both:
        one.main.is_given(manager.main, 1, server_handle=3)
    sends = [lambda one=one: one.main.sends(1, 6, ONE_WAY, node_object(0x9900), offsets(0)) for one in both]
    sent = [one() for one in sends] if at_once else []
    for at, send in enumerate(sends):
        address = looper.gets(sent[at] if at_once else send(), 0x9000, of_handle(2, 20 + at))
        looper.writes(*each(BC_ACQUIRE, 20 + at), watch(BC_REQUEST_DEATH_NOTIFICATION, 20 + at, at))
        looper.frees(address)
    looper.writes(record(BC_EXIT_LOOPER))
    for one in both:
        one.ends()
    s.wait(1100)
