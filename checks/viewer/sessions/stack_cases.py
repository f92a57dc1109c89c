"""Which stacks tell of a finding, and whose they are. See cases.py."""

from checks.kit.captures import (BC_ACQUIRE, BC_CLEAR_DEATH_NOTIFICATION, BC_REPLY, BC_REQUEST_DEATH_NOTIFICATION,
                                 BR_ACQUIRE, BR_CLEAR_DEATH_NOTIFICATION_DONE, BR_DEAD_BINDER, BR_FAILED_REPLY, ENTER,
                                 each, each_long, node, of_handle, offsets, record, watch)
from checks.viewer.sessions.cases import case, with_each_other
from checks.viewer.sessions.giver_cases import giver_forgets
from checks.viewer.sessions.lock_cases import holds_a_lock
from checks.viewer.sessions.session import ONE_WAY, Sent, node_object


@case("U4:1", "finding_stack 1: 3, the call that it answers", "finding_stack 2: -")
def reply_kept(s, service, client):
    """The reply to a call is never freed; what its thread writes after that has another stack."""
    s.with_stack(3)
    sent = client.main.sends(0, 7)
    s.with_stack(4)
    client.main.answered(service.main.replies(service.main.gets(sent)), free=False)
    client.main.asks(service.main)
    s.wait(300)


@case("U4:1", "finding_stack 1: 6, the reply to it", "finding_stack 2: 5, the send of it")
def transaction_kept(s, service, client):
    """A service never frees a transaction: its own reply tells of that, and then the send."""
    s.with_stack(5)
    sent = client.main.sends(0, 7)
    s.with_stack(6)
    service.main.gets(sent)
    client.main.answered(service.main.replies())
    s.with_stack(None)
    client.main.asks(service.main)
    s.wait(300)


@case("U4:1", "finding_stack 1: 5, the send of it", "finding_stack 2: -", flags=ONE_WAY)
def oneway_kept(s, service, client, flags):
    """A oneway transaction has no reply."""
    s.with_stack(5)
    sent = client.main.sends(0, 7, flags)
    s.with_stack(None)
    service.main.gets(sent)
    client.main.asks(service.main)
    s.wait(300)


@case("H4:1", "finding_stack 1: 7, the call whose reply gave the handle",
      "finding_stack 2: 8, the call that wrote it, which may be a later one")
def handle_of_reply(s, service, client):
    """A handle that a reply gave is taken twice. The first to be taken is in the row."""
    s.with_stack(7)
    theirs, ours, listed = node_object(0x100), of_handle(2, 1), offsets(0)
    sent = client.main.sends(0, 5)
    s.with_stack(None)
    got = client.main.answered(service.main.replies(service.main.gets(sent), theirs, listed), ours, free=False)
    s.with_stack(8)
    client.main.writes(*each(BC_ACQUIRE, 1))
    s.with_stack(9)
    client.main.writes(*each(BC_ACQUIRE, 1))
    client.main.frees(got)
    s.wait(300)


@case("H4:1", "finding_stack 1: 8, the call that wrote it, which may be a later one",
      "finding_stack 2: 7, the send that gave the handle")
@case("H4:1", "finding_stack 1: 7, the send that gave the handle",
      "finding_stack 2: 8, the call that wrote it, which may be a later one", with_reply=True)
def handle_of_send(s, service, client, with_reply=False):
    """A client hands an object over to a service, which takes it twice, as it serves or with the reply."""
    body, listed = node_object(0x9100), offsets(0)
    s.with_stack(7)
    sent = client.main.sends(0, 4, body=body, listed=listed)
    s.with_stack(8)
    address = service.main.gets(sent, 0, of_handle(2, 1))
    taken = each(BC_ACQUIRE, 1, 1)
    if not with_reply:
        service.main.writes(*taken)
    client.main.answered(service.main.replies(address, taken=taken if with_reply else ()))
    s.wait(300)


@case("C4:1 A1:2", "finding_stack 1: 2, its own call", "finding_stack 2: -")
def call_never_answered(s, service, client):
    s.with_stack(2)
    sent = client.main.sends(0, 1)
    s.with_stack(None)
    service.main.gets(sent)
    s.wait(300)


@case("F1:1", "finding_stack 1: 3, the call that wrote it, which may be a later one")
def freed_with_a_stack(s, service, client):
    address = client.main.asks(service.main)
    s.with_stack(3)
    client.main.frees(address)


@case("E5:1 S2:1", "finding_stack 1: 4, the send that was refused", "finding_stack 1: 4, its own call",
      "finding_stack 2: -")
def reply_refused(s, service, client):
    """The driver refuses a reply to nothing: the error and the reply each have the stack."""
    client.main.asks(service.main)
    s.with_stack(4)
    service.main.writes(Sent(None, 0, 0, b"", b"").record(BC_REPLY))
    service.main.reads(record(BR_FAILED_REPLY))


@case("U4:1", "finding_stack 1: 3, the request for it", "finding_stack 2: -")
def death_unanswered(s, service, client):
    """A death is not acknowledged: the request for it tells, and not a later one with another cookie."""
    client.main.is_given(service.main, 1)
    client.main.is_given(service.main, 2)
    s.with_stack(3)
    client.main.writes(watch(BC_REQUEST_DEATH_NOTIFICATION, 1, 0xD))
    s.with_stack(4)
    client.main.writes(watch(BC_REQUEST_DEATH_NOTIFICATION, 2, 0xE))
    s.with_stack(None)
    client.main.reads(*each_long(BR_DEAD_BINDER, 0xD))
    client.main.writes(watch(BC_CLEAR_DEATH_NOTIFICATION, 2, 0xE))
    client.main.reads(*each_long(BR_CLEAR_DEATH_NOTIFICATION_DONE, 0xE))
    client.main.writes(ENTER)
    s.wait(200)


@case("U4:1", "finding_stack 1: 3, the first send that handed it over", "finding_stack 2: -")
def node_unanswered(s, service, client):
    """A process does not acknowledge a reference to an object that it handed over twice."""
    client.main.asks(service.main)
    for stack, code in (3, 4), (5, 6):
        s.with_stack(stack)
        sent = client.main.sends(0, code, body=node_object(0x500), listed=offsets(0))
        s.with_stack(None)
        client.main.answered(service.main.replies(service.main.gets(sent, 0, of_handle(2, 1))))
    client.main.reads(node(BR_ACQUIRE, 0x500, 0x501))
    client.main.writes(ENTER)
    client.main.writes(ENTER)
    s.wait(200)


@case("O2:1", "finding_stack 1: 4, the reply to it", "finding_stack 2: -")
def bad_object_read(s, service, client):
    """What is read is not what was sent, so no send is known of it."""
    body, listed = bytes(32), offsets(2)
    s.with_stack(3)
    sent = client.main.sends(0, 1, body=body)
    s.with_stack(4)
    address = service.main.gets(sent, 0, body, listed)
    client.main.answered(service.main.replies(address))


@case("C10:1 C7:1 A1:4", "finding_stack 1: 3, the call within which its thread got it",
      "finding_stack 2: 4, its own call", wait=1100)
@case("C4:1 C7:1 A1:4", "finding_stack 1: 4, its own call", "finding_stack 2: -", wait=900)
def comes_back_with_stacks(s, wait):
    """A call comes back to a thread that waits, and that never replies: the call within which it waits tells first."""
    service, client, _ = with_each_other(s)
    s.with_stack(3)
    service.main.gets(client.main.sends(0, 11))
    s.with_stack(4)
    sent = service.main.sends(7, 2)
    s.with_stack(None)
    client.main.gets(sent, 0x9700)
    s.wait(wait)


@case("V4:1", "finding_stack 1: 9, the call that its thread made meanwhile", "finding_stack 2: 9, the reply to it")
def holds_a_lock_with_stacks(s):
    """Calls wait for a call of a service within another one: that call tells first."""
    s.with_stack(9)
    holds_a_lock(s)


@case("H13:12", "finding_stack 1: 7, the send that gave the handle",
      "finding_stack 2: 7, the call that wrote it, which may be a later one")
def forgotten_with_stacks(s):
    """A server keeps what a client hands over and does not take back: the send tells first."""
    s.with_stack(7)
    giver_forgets(s)
