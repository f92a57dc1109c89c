"""More sessions as in cases.py: recordings that go on after their end, as those of earlier recorders do. Then come only
reads, one of a thread, and not what they come of or lead to."""

from checks.kit.captures import (BC_ACQUIRE_DONE, BC_TRANSACTION, BR_ACQUIRE, BR_CLEAR_DEATH_NOTIFICATION_DONE,
                                 BR_DEAD_BINDER, BR_DECREFS, BR_FAILED_REPLY, BR_RELEASE, each_long, node, record)
from checks.viewer.sessions.cases import case
from checks.viewer.sessions.session import ACCEPT_FDS, ONE_WAY, Sent
from checks.viewer.sessions.state_cases import watching


@case("L1:1", late=True)
@case("U6:1", late=False)
def death_told(s, late):
    _, client = watching(s)
    s.stops(late)
    client.main.reads(*each_long(BR_DEAD_BINDER, 0xD))


@case("L1:1", late=True)
@case("D4:1", late=False)
def confirmed_what_is_not_there(s, late):
    _, client = watching(s)
    s.stops(late)
    client.main.reads(*each_long(BR_CLEAR_DEATH_NOTIFICATION_DONE, 0xE))


@case("L1:1", late=True)
@case("U6:1", late=False)
def asked_for_a_reference(s, service, late):
    s.stops(late)
    service.main.reads(node(BR_ACQUIRE, 0x500, 0))


@case("L1:1", late=True)
@case("H2:1", late=False)
@case("L1:1", late=True, kind=BR_DECREFS)
@case("H2:1 H7:1", late=True, other=True)
@case("H2:1", late=True, asked=True, done=2)
@case("H7:1", late=True, asked=True, done=1)
def reference_given_back(s, service, late, kind=BR_RELEASE, other=False, asked=False, done=0):
    """The driver gives back a reference that it has not asked for; or another one, which it had asked for. Or the
    process has acknowledged it once, or too often."""
    if other or asked:
        service.main.reads(node(BR_ACQUIRE, 0x500, 0))
        service.main.writes(*[node(BC_ACQUIRE_DONE, 0x500, 0)] * (done or 1))
    if other:
        service.main.reads(node(kind, 0x600, 0))
    s.stops(late)
    service.main.reads(node(kind, 0x500, 0))


@case("L1:1", late=True)
@case("U6:1", late=False)
def reply_read(s, service, client, late):
    reply = service.main.replies(service.main.gets(client.main.sends(0, 1)))
    s.stops(late)
    client.main.answered(reply, free=False)


@case("U3:3 L1:1", late=True)
@case("U4:3 U6:1", late=False)
def replies_kept(s, service, client, late):
    """Three replies are kept, and then a fourth is read."""
    client.main.asks(service.main, free=False, times=3)
    s.wait(200)
    reply = service.main.replies(service.main.gets(client.main.sends(0, 1)))
    s.stops(late)
    client.main.answered(reply, free=False)


@case("L1:1 A1:2", late=True)
@case("C4:1 A1:2", late=False)
def call_read(s, service, client, late):
    """A call waits for long, and then its server reads it."""
    sent = client.main.sends(0, 1)
    s.wait(1100)
    s.stops(late)
    service.main.gets(sent)


@case("L1:2 A1:1", late=True)
@case("A1:1 U6:2", late=False)
def answered_without_a_reply(s, service, client, late):
    """A call is served for long, and then answered by a reply that is in no frame."""
    service.main.gets(client.main.sends(0, 1))
    s.wait(1100)
    s.stops(late)
    client.main.answered(Sent(service.main, 0, 0, b"", b""), free=False)


@case("U6:1 L1:1 A1:2", late=True)
@case("U4:1 U6:1 A1:2", late=False)
def buffer_kept(s, service, client, late):
    """A service keeps the buffer of a call that it has replied to, and then reads another one."""
    client.main.answered((service.main.gets(client.main.sends(0, 1)), service.main.replies())[1])
    s.wait(200)
    sent = client.main.sends(0, 2)
    s.stops(late)
    service.main.gets(sent)


@case("L1:1", late=True)
@case("E5:1", late=False)
@case("E5:1", late=True, flags=ACCEPT_FDS)
def refused(s, client, late, flags=ONE_WAY):
    """A oneway send or a call is refused. Of a call it stays what the capture says."""
    client.main.writes(Sent(client.main, 1, flags, b"", b"").record(BC_TRANSACTION, 0))
    s.stops(late)
    client.main.reads(record(BR_FAILED_REPLY))
