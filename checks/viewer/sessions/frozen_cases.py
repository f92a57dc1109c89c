"""More sessions as in cases.py: oneway sends to a process that is frozen."""

from checks.kit.captures import BC_TRANSACTION, BR_TRANSACTION_PENDING_FROZEN, record
from checks.viewer.sessions.cases import case
from checks.viewer.sessions.session import DONE, ONE_WAY, UPDATE_TXN, Sent, Thread

PENDING = record(BR_TRANSACTION_PENDING_FROZEN)
TO_THE_FROZEN = "oneway sends to what is frozen"


def tells(thread: Thread, code: int, size: int = 80, flags: int = ONE_WAY, answer: bytes = PENDING) -> Sent:
    """A oneway send to the service, which the driver confirms by this."""
    sent = Sent(thread, code, flags, bytes(size), b"")
    thread.writes(sent.record(BC_TRANSACTION, 0), attached=(0, sent.body, b""))
    thread.reads(answer)
    return sent


@case("W7:1", "(service 100 was frozen)", count=1)
@case("W7:9", f"explained {TO_THE_FROZEN}: 9 of 9 code 7 to service 100", "W7 by client 200: 9", count=9, every=130)
@case("W8:10", f"maybe {TO_THE_FROZEN}: 10 of 10 code 7 to service 100", "W8 by client 200: 10",
      "(service 100 was frozen when 10 sends with 800 bytes were sent, within 1.17 s)", "(1 defects)",
      f"defect: {TO_THE_FROZEN} | client on binder | code 7 to service", every=130)
@case("W7:10", every=100)
@case("W8:11", every=101, count=11)
@case("W7:10", every=130, others=2)
@case("W7:5 W8:10", every=130, other_codes=5)
@case("W7:5", every=130, thaws=True)
@case("W8:10", every=130, ends=True)
@case("W1:10", every=130, flags=ONE_WAY | UPDATE_TXN)
@case("W3:10", every=130, answer=DONE)
@case("W7:10", "(100 was frozen when 10 sends with 800 bytes were sent)", every=130, has_side=False)
def sends_to_the_frozen(s, service, client, count=10, every=130, others=1, other_codes=0, thaws=False, ends=False,
                        flags=ONE_WAY, answer=PENDING):
    """A client tells a service something again and again, while that is frozen: with one code, or also with another
    one, or several clients do. The service gets all but five when it is thawed, or it is killed."""
    client.main.asks(service.main)
    clients = [client, *(s.process(300 + at, "other") for at in range(others - 1))]
    sent = []
    for at in range(count):
        sent.append(tells(clients[at % others].main, 7, flags=flags, answer=answer))
        s.wait(every - 2)
    for _ in range(other_codes):
        tells(client.main, 8)
    if thaws:
        for one in sent[:-5]:
            service.main.frees(service.main.gets(one))
    if ends:
        service.ends()
    s.wait(300)


@case("", answer=PENDING)
@case("W4:1", answer=DONE)
def told_late(s, service, client, answer):
    """A service gets twenty sends at once, and twenty more only 2 s later: it was thawed then, or fell behind."""
    for _ in range(20):
        service.main.frees(service.main.gets(tells(client.main, 7, answer=DONE)))
    late = [tells(client.main, 7, answer=answer) for _ in range(20)]
    s.wait(2000)
    for one in late:
        service.main.frees(service.main.gets(one))


@case("A1:2 C4:1 W7:2", "s; service 100 got it at ", answer=PENDING)
@case("A1:2 C4:1 W3:2", "s; 2 wait for it; service 100 got it at ", answer=DONE)
def told_in_a_call(s, service, client, answer):
    """A service serves a call when it is frozen, and what is sent to it does not wait for its looper. Or it hangs."""
    service.main.gets(s.process(300, "caller").main.sends(0, 1))
    for _ in range(2):
        tells(client.main, 7, answer=answer)
    s.wait(1200)
