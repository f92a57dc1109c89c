"""More sessions as in cases.py: freeze notifications, and clears of them."""

from checks.kit.captures import (BC_CLEAR_FREEZE_NOTIFICATION, BC_FREEZE_NOTIFICATION_DONE, BC_RELEASE,
                                 BC_REQUEST_FREEZE_NOTIFICATION, BR_CLEAR_FREEZE_NOTIFICATION_DONE, each, each_long,
                                 frozen, watch)
from checks.viewer.sessions.book_cases import begun
from checks.viewer.sessions.cases import case, each_of


def asks(thread, handle=1, cookie=0xF):
    thread.writes(watch(BC_REQUEST_FREEZE_NOTIFICATION, handle, cookie))


def clears(thread, handle=1, cookie=0xF):
    thread.writes(watch(BC_CLEAR_FREEZE_NOTIFICATION, handle, cookie))


def acknowledges(thread, *cookies):
    thread.writes(*each_long(BC_FREEZE_NOTIFICATION_DONE, *cookies))


def confirms(thread, *cookies):
    thread.reads(*each_long(BR_CLEAR_FREEZE_NOTIFICATION_DONE, *cookies))


def goes_on(thread, times=2):
    thread.goes_on(times)


def watching(s, met="from-start"):
    """The client asks to be told whether the service is frozen, by an object of it."""
    service, client = s.two(met)
    client.main.is_given(service.main, 1)
    asks(client.main)
    return service, client


def waits(s, process, wait, ends):
    s.wait(wait)
    if ends:
        process.ends()
        s.wait(300)


@case("")
@case("", has_side=False)
def all_answered(s):
    """The service is frozen and thawed; then its client takes the request back, and asks again with the cookie."""
    service, client = watching(s)
    for told in 0, 1, 0:
        client.main.reads(frozen(0xF, told))
        acknowledges(client.main, 0xF)
    clears(client.main)
    confirms(client.main, 0xF)
    asks(client.main)
    client.main.reads(frozen(0xF, 0))
    acknowledges(client.main, 0xF)
    s.wait(200)


@case("U4:1", "handle 1, service 100 node 0x100", then=2)
@case("U4:1", has_side=False, then=2)
@case("U6:1", then=1, wait=50)
@case("U5:1", then=1, wait=200)
@case("T1:1", then=2, wait=60, ends=True)
@case("U4:1", then=2, wait=150, ends=True)
@case("M1:1", then=2, lost=True)
def freeze_not_acknowledged(s, then, wait=200, ends=False, lost=False):
    """What comes first is acknowledged, and the next one not."""
    _, client = watching(s)
    client.main.reads(frozen(0xF, 0))
    acknowledges(client.main, 0xF)
    s.loses(client, lost)
    client.main.reads(frozen(0xF, 1))
    goes_on(client.main, then)
    waits(s, client, wait, ends)


@case("D7:1", "another was told at")
@case("D3:1 U4:1", cleared=True)
@case("U4:1", has_side=False)
@case("U4:1", told=1)
@case("U4:1", wait=50)
@case("U5:1", then=1)
@case("U4:1", before=True)
@case("U4:1", of_another=True)
@case("M1:1", lost=True)
@case("T1:1", wait=0, ends=60)
@case("D7:1", wait=0, ends=150)
def others_are_told(s, told=0, then=2, wait=150, before=False, of_another=False, lost=False, ends=0, cleared=False):
    """Another process is told that the service was thawed: of another object of it, by a notification after the one
    that is not acknowledged, or before. Or what was thawed is another process, or the request was taken back."""
    service, client = watching(s)
    thawed = s.process(400, "another") if of_another else service
    other = s.process(300, "other")
    if of_another:
        thawed.main.gives(service.main, 9)
    other.main.is_given(service.main, 1, node=0x900, server_handle=9 if of_another else None)
    asks(other.main, cookie=0xE)
    s.loses(client, lost)
    if before:
        other.main.reads(frozen(0xE, told))
    client.main.reads(frozen(0xF, 1))
    if cleared:
        clears(client.main)
    goes_on(client.main, then)
    if not before:
        other.main.reads(frozen(0xE, told))
    acknowledges(other.main, 0xE)
    waits(s, client, wait or ends, ends)


@case("D1:1", "handle 1, service 100 node 0x100", took=50)
@case("P1:1", has_side=False, took=50)
@case("U4:1", took=150)
@case("P1:1", took=50, met="in-mid-life")
@case("", took=50, acknowledged=True)
@case("D3:1 U4:1", took=50, cleared=True)
@case("D1:1", took=50, again=True)
@case("D1:1 U4:1", took=50, again=True, once=True)
def handle_let_go(s, took, met="from-start", acknowledged=False, cleared=False, again=False, once=False):
    """With its last reference the driver drops what it told of a handle, but not if the request was cleared before. A
    later request with the same cookie has a notification of its own."""
    service, client = watching(s, met)
    client.main.reads(frozen(0xF, 1))
    if acknowledged:
        acknowledges(client.main, 0xF)
    if cleared:
        clears(client.main)
    s.wait(took)
    client.main.writes(*each(BC_RELEASE, 1))
    if again:
        client.main.is_given(service.main, 1, node=0x800)
        asks(client.main)
        client.main.reads(frozen(0xF, 0))
        if not once:
            acknowledges(client.main, 0xF)
    goes_on(client.main)
    s.wait(200)


@case("U4:1", "handle 2, service 100 node 0x200", told=2, done=1)
@case("", told=2, done=2)
@case("D4:1", told=2, done=3)
@case("D4:1", told=0, done=1)
@case("D4:2", told=1, done=3)
@case("P1:1", told=1, done=2, met="in-mid-life")
@case("M1:1", told=1, done=2, lost=True)
def one_cookie(s, service, client, told, done, lost=False):
    """Two handles are watched by one cookie: each acknowledgement is for one notification."""
    for handle in 1, 2:
        client.main.is_given(service.main, handle)
    for handle in range(1, told + 1):
        asks(client.main, handle)
        client.main.reads(frozen(0xF, 0))
    s.loses(client, lost)
    acknowledges(client.main, *[0xF] * done)
    goes_on(client.main)
    s.wait(200)


@case("D4:1 U6:1", clear=each_of(False, True))
def freeze_answer_of_another(s, clear):
    """A notification waits for its acknowledgement, and one of another cookie comes; or a clear for its confirmation,
    and an acknowledgement of its cookie comes."""
    _, client = watching(s)
    if clear:
        clears(client.main)
    else:
        client.main.reads(frozen(0xF, 1))
    acknowledges(client.main, 0xF if clear else 0xE)


@case("D4:1 U4:1")
def freeze_answer_to_nothing_before(s):
    """An acknowledgement of nothing is not one of what comes later."""
    _, client = watching(s)
    acknowledges(client.main, 0xF)
    client.main.reads(frozen(0xF, 1))
    goes_on(client.main)
    s.wait(200)


@case("U4:2")
def freeze_and_clear_of_two_cookies(s):
    """A clear waits for its confirmation, and the notification of another cookie for its acknowledgement."""
    service, client = watching(s)
    client.main.is_given(service.main, 2)
    asks(client.main, 2, 0xE)
    client.main.reads(frozen(0xE, 1))
    clears(client.main)
    goes_on(client.main)
    s.wait(200)


@case("U4:1", "handle 1, service 100 node 0x100", then=2)
@case("U6:1", then=1, wait=50)
@case("U5:1", then=1, wait=200)
@case("T1:1", then=2, wait=60, ends=True)
@case("U4:1", then=2, wait=150, ends=True)
@case("M1:1", then=2, lost=True)
@case("D3:1 U4:1", "the one at", then=2, told=True)
@case("", then=2, told=True, done=True)
def freeze_clear_not_confirmed(s, then, wait=200, ends=False, lost=False, told=False, done=False):
    """A clear is not confirmed. If a notification waits for its acknowledgement, the driver waits too."""
    _, client = watching(s)
    s.loses(client, lost)
    if told:
        client.main.reads(frozen(0xF, 1))
    clears(client.main)
    if done:
        acknowledges(client.main, 0xF)
        confirms(client.main, 0xF)
    goes_on(client.main, then)
    waits(s, client, wait, ends)


@case("D4:1", "handle 1, service 100 node 0x100")
@case("P1:1", met="in-mid-life")
@case("M1:1", lost=True)
def freeze_confirmed_again(s, met="from-start", lost=False):
    _, client = watching(s, met)
    s.loses(client, lost)
    clears(client.main)
    confirms(client.main, 0xF, 0xF)


# ---- what a process held before


FROZEN, UNWATCHED = "  has delivered freeze binder\n", "  has cleared freeze notification\n"


@case("P2:2", told=True, freezes=2)
@case("D4:2", told=False, freezes=2)
@case("P1:1", told=False, freezes=1, early=True)
def acknowledges_a_freeze_told_before(s, told, freezes, early=False):
    """The book says that notifications wait for acknowledgement, and not how many."""
    _, client = begun(s, FROZEN if told else UNWATCHED, early=early)
    acknowledges(client.main, *range(0xD, 0xD + freezes))


@case("P2:1", waits=True, cleared=1)
@case("P2:1 D4:1", waits=True, cleared=2)
@case("D4:1", waits=False, cleared=1)
@case("P1:1", waits=False, cleared=1, early=True)
def confirms_a_freeze_cleared_before(s, waits, cleared, early=False):
    _, client = begun(s, UNWATCHED if waits else FROZEN, early=early)
    confirms(client.main, *range(0xD, 0xD + cleared))


# ---- after the end, and stacks


@case("L1:1", late=True)
@case("U6:1", late=False)
def freeze_told_late(s, late):
    _, client = watching(s)
    s.stops(late)
    client.main.reads(frozen(0xF, 1))


@case("U4:1", "finding_stack 1: 3, the request for it", "finding_stack 2: -")
def freeze_unanswered(s, service, client):
    """The request for it tells, and neither another one nor a later one with its cookie."""
    for handle in 1, 2:
        client.main.is_given(service.main, handle)
    s.with_stack(3)
    asks(client.main, 1)
    s.with_stack(4)
    asks(client.main, 2, 0xE)
    s.with_stack(None)
    client.main.reads(frozen(0xF, 1))
    s.with_stack(5)
    asks(client.main, 2)
    s.with_stack(None)
    goes_on(client.main)
    s.wait(200)
