"""More sessions as in cases.py: why the driver refused a send, by its log of failed transactions."""

from checks.kit.captures import BC_TRANSACTION, BR_DEAD_REPLY, BR_FAILED_REPLY, BR_FROZEN_REPLY, record
from checks.viewer.sessions.cases import case, each_of
from checks.viewer.sessions.session import DONE, ONE_WAY, Sent, Session, Thread

NO_SPACE, BAD, DENIED, NO_CALL = 28, 22, 1, 71
NOT_THERE = "code 1 to service 100 node 0x0 (why is not known, as no entry of the driver's log fits)"
# Code words of error replies.
DEAD, FAILED, FROZEN = (int.from_bytes(record(kind)[:4], "little") for kind in (
    BR_DEAD_REPLY, BR_FAILED_REPLY, BR_FROZEN_REPLY))


def logs(s: Session, thread: Thread, errno: int, what: str = "call", to: int = 100, handle: int = 0, data: int = 0,
         answer: int = FAILED, since: int = 0, until: int | None = None) -> None:
    """The recorder finds an entry in the driver's log, which was not there at the number `since`."""
    s.tell(f"failed 9 what={what} pid={thread.process.number} tid={thread.number} to={to} handle={handle} data={data}"
           f" offsets=0 answer={answer} errno={errno} from={since}"
           f" after={s.sequence if until is None else until} name=binder")


def refused(thread: Thread, code: int = 1, size: int = 0, flags: int = 0, handle: int = 0, kind: bytes = BR_FAILED_REPLY
            ) -> None:
    sent = Sent(thread, code, flags, bytes(size), b"")
    thread.writes(sent.record(BC_TRANSACTION, handle), attached=(0, sent.body, b""))
    thread.reads(record(kind))


@case("E5:1", "(no space (-28 ENOSPC) for its 40 bytes: nothing else that the capture has was there)", size=40)
@case("E5:1", "(a bad object (-22 EINVAL))", errno=BAD)
@case("E5:1", "(a bad handle (-22 EINVAL))", errno=BAD, to=0)
@case("E5:1", "(denied, by SELinux or as the receiver takes no descriptors (-1 EPERM))", errno=DENIED)
@case("E5:1", "(denied, by SELinux or as the receiver takes no descriptors (-13 EACCES))", errno=13)
@case("E5:1", "(a descriptor that is not open (-9 EBADF))", errno=9)
@case("E5:1", "(its data could not be read (-14 EFAULT))", errno=14)
@case("E5:1", "(an error (-12 ENOMEM))", errno=12)
@case("E5:1", "(an error)", errno=0)
@case("E5:1", "(a bad object (-22 EINVAL))", errno=BAD, size=40, data=40)
@case("E5:1", NOT_THERE, errno=BAD, size=40, data=48)
@case("E5:1", NOT_THERE, errno=BAD, handle=3)
@case("E5:1", NOT_THERE, errno=BAD, what="oneway")
@case("E5:1", NOT_THERE, errno=BAD, answer=DEAD)
@case("E5:1", NOT_THERE, errno=BAD, of="service")
@case("E5:1", NOT_THERE, errno=BAD, since=9)
@case("E5:1", "(a bad object (-22 EINVAL))", errno=BAD, since=8)
@case("E5:1", NOT_THERE, errno=BAD, until=7)
@case("E5:1", "(a bad object (-22 EINVAL))", errno=BAD, until=8)
@case("M3:1", "(a bad object (-22 EINVAL))", errno=BAD, lost=True)
def refused_by_the_log(s, service, client, errno=NO_SPACE, size=0, data=0, to=100, handle=0, what="call", answer=FAILED,
                       of="client", since=0, until=None, lost=False):
    """A call is refused, in the frames 8 and 9; the log says why, of the same call or of another one."""
    client.main.asks(service.main)
    s.loses(client, lost)
    refused(client.main, size=size)
    logs(s, client.main if of == "client" else service.main, errno, what, to, handle, data, answer, since, until)


@case("E5:3", "code 1 to service 100 node 0x0 (no space (-28 ENOSPC)", "code 2 to service 100 node 0x0 (denied, by ",
      "code 3 to service 100 node 0x0 (a bad object (", log=(NO_SPACE, DENIED, BAD))
@case("E5:3", "code 1 to service 100 node 0x0 (why is not known, as the driver's log was overrun)", "code 2 to service"
      " 100 node 0x0 (denied, by ",
      "code 3 to service 100 node 0x0 (a bad object (", log=(DENIED, BAD), overrun=True)
@case("E5:3", "code 1 to service 100 node 0x0 (a bad object (", "code 2 to service 100 node 0x0 (why is not known, as",
      "code 3 to service 100 node 0x0 (why is not known, as no entry", log=(BAD, BAD, BAD), each=2)
def refused_in_a_row(s, service, client, log, overrun=False, each=3):
    """Three calls of a thread are refused alike, and the log has all of them, or the last ones; or each look finds only
    what came long before."""
    client.main.asks(service.main)
    begin = s.sequence
    for code in 1, 2, 3:
        refused(client.main, code)
    if overrun:
        s.tell(f"overrun from={begin} after={s.sequence}")
    for errno in log:
        logs(s, client.main, errno, since=begin, until=begin + 2 if each == 2 else None)


@case("E3:1 E5:2", "code 1 to service 100 node 0x0 (a bad object (", "code 2 to service 100 node 0x0 (a bad object (")
@case("E3:1 E5:2", "code 1 to service 100 node 0x0 (a bad object (", "code 2 to service 100 node 0x0 (a bad object (",
      dead_first=True)
def refused_in_two_ways(s, service, client, dead_first=False):
    """Two calls of a thread to one handle are refused, and one, before or after them, gets no answer as the service has
    ended; the log has all three."""
    client.main.asks(service.main)
    begin = s.sequence
    ways = [(1, BR_FAILED_REPLY, BAD, FAILED), (2, BR_FAILED_REPLY, BAD, FAILED)]
    ways.insert(0 if dead_first else 2, (3, BR_DEAD_REPLY, 0, DEAD))
    for code, kind, _, _ in ways:
        refused(client.main, code, kind=kind)
    for _, _, errno, answer in ways:
        logs(s, client.main, errno, answer=answer, since=begin)


ALL_THREE = ("code 1 to service 100 node 0x0 (no space (-28 ENOSPC)", "code 2 to service 100 node 0x0 (denied, by ",
             "code 3 to service 100 node 0x0 (a bad object (")


@case("E5:3", *ALL_THREE, more=each_of((DENIED,), (DENIED, BAD, NO_SPACE, DENIED)))
@case("E5:3", *ALL_THREE, more=(DENIED, BAD), at_once=True)
@case("E5:3", "code 1 to service 100 node 0x0 (denied, by ", "code 2 to service 100 node 0x0 (a bad object (",
      "code 3 to service 100 node 0x0 (no space (-28 ENOSPC)", more=(NO_SPACE,), at_once=True, sizes=(0, 0, 0))
@case("E5:3", *ALL_THREE, more=(DENIED,), of="client's other thread")
@case("E5:3", *ALL_THREE, more=(DENIED,), handle=3)
@case("E5:3", *ALL_THREE, more=(DENIED,), what="oneway")
@case("E5:3", *ALL_THREE, more=(DENIED,), answer=DEAD)
@case("E5:3", *ALL_THREE, more=(DENIED,), works=0)
@case("E5:3", *ALL_THREE, more=(DENIED,), ends=False)
@case("E5:3", *ALL_THREE, more=(DENIED,) * 32)
@case("E5:3", "code 1 to service 100 node 0x0 (why is not known, as no entry of the driver's log fits)",
      "code 2 to service 100 node 0x0 (why is not known, as no", more=(DENIED,) * 33)
def refused_after_the_last_frame(s, service, client, more, at_once=False, sizes=(40, 80, 120), of="client", handle=0,
                                 what="call", answer=FAILED, works=1, ends=True):
    """The driver refuses three calls of a thread, and more when the recording has ended: of the same thread or another
    one. Looks find the calls one by one or all at once, and the last look also what came later, with what another
    process did before the end, or nothing. Not `ends`: that was no last look."""
    client.main.asks(service.main)
    second, entries = client.thread(1), []
    begin = since = s.sequence
    for code, size, errno in zip((1, 2, 3), sizes, (NO_SPACE, DENIED, BAD)):
        refused(client.main, code, size)
        entries.append((errno, size, begin if at_once else since, s.sequence))
        since = s.sequence
    for _ in range(works):
        s.process(300, "other").main.asks(service.main, 9)
    for errno, size, before, after in entries:
        logs(s, client.main, errno, data=size, since=before, until=s.sequence if at_once else after)
    for errno in more:
        logs(s, client.main if of == "client" else second, errno, what, handle=handle, data=sizes[-1], answer=answer,
             since=begin if at_once else since)
    if not ends:
        s.process(301, "other").main.asks(service.main, 9)


@case("E5:6", *ALL_THREE, "code 4 to service 100 node 0x0 (an error (-12 ENOMEM))", other=each_of("thread", "kind"))
@case("E5:6", *ALL_THREE, "code 4 to handle 3 (an error (-12 ENOMEM))", other="handle")
@case("E5:3 E2:2 E3:1", *ALL_THREE, other="answer")
def refused_by_turns(s, service, client, other):
    """The driver refuses calls of a thread, by turns with others, which go wrong alike, and twice after the recording
    has ended. A look finds all of it."""
    client.main.asks(service.main)
    begin, entries = s.sequence, []
    thread = client.thread(1) if other == "thread" else client.main
    ways = {"thread": {}, "kind": {"flags": ONE_WAY}, "handle": {"handle": 3}, "answer": {"kind": BR_DEAD_REPLY}}
    told = {"thread": {}, "kind": {"what": "oneway"}, "handle": {"handle": 3}, "answer": {"answer": DEAD}}
    for at, (size, errno) in enumerate(((40, NO_SPACE), (80, DENIED), (120, BAD)), 1):
        refused(client.main, at, size)
        entries.append((client.main, errno, size, {}))
        refused(thread, 4 if other != "answer" else 5, size, **ways[other])
        entries.append((thread, 12, size, told[other]))
    s.process(300, "other").main.asks(service.main, 9)
    for one, errno, size, how in [*entries, *[(client.main, 14, 120, {})] * 2]:
        logs(s, one, errno, data=size, since=begin, **how)


@case("E4:1", "code 1 to service 100 node 0x0 ()", kind=BR_FROZEN_REPLY, answer=FROZEN)
@case("E3:1", "code 1 to service 100 node 0x0 ()", kind=BR_DEAD_REPLY, answer=DEAD)
def refused_by_another_answer(s, service, client, kind, answer):
    """The answer says it all."""
    client.main.asks(service.main)
    refused(client.main, kind=kind)
    logs(s, client.main, 0, answer=answer)


@case("S1:1", "(the send at 648; no space (-28 ENOSPC))")
def refused_of_two_by_the_log(s, service, client):
    """Of two oneway sends in one write the driver refuses the second."""
    client.main.asks(service.main)
    sent = Sent(None, 7, ONE_WAY, b"", b"").record(BC_TRANSACTION)
    client.main.writes(sent, sent)
    client.main.reads(DONE, record(BR_FAILED_REPLY))
    logs(s, client.main, NO_SPACE, "oneway")
    service.main.frees(service.main.gets(Sent(client.main, 7, ONE_WAY, b"", b"")))


@case("E6:1 U6:1", "(the reply at 780: no space (-28 ENOSPC))", errno=NO_SPACE)
@case("E6:1 U6:1", "(the reply at 780: denied, by SELinux", errno=DENIED)
@case("E6:1 U6:1", "code 1 to service 100 node 0x0 ()", errno=None)
def reply_refused_by_the_log(s, service, client, errno):
    """A reply finds no space at the caller, or may not go there: the log has the reply, and the caller gets an
    error."""
    client.main.asks(service.main)
    service.main.gets(client.main.sends(0, 1))
    service.main.replies(None, bytes(4000))
    client.main.reads(DONE, record(BR_FAILED_REPLY))
    if errno:
        logs(s, service.main, errno, "reply", 200, 7, 4000)


@case("A1:1 E3:1 E6:1 U6:1")
def refused_reply_is_lost(s, service, client):
    """A reply is refused, and the frame with the reply is lost: the report has the served call as open. The server did
    not end, but another one did, in a call of another client."""
    other, short = s.process(400, "other"), s.process(300, "short-lived")
    other.main.is_passed(short.main, service.main, 1, 3)
    client.main.asks(service.main)
    service.main.gets(client.main.sends(0, 1))
    service.main.replies(None, bytes(4000))
    s.drops(s.sequence - 1)
    client.main.reads(DONE, record(BR_FAILED_REPLY))
    other.main.sends(1, 1)
    short.ends()
    other.main.reads(record(BR_DEAD_REPLY))


@case("E5:1 A1:2 U6:4", "no space (-28 ENOSPC): 4 sends and replies with 2,224 bytes waited or were held at service"
      " 100: 3 sends from client 200, 1 send from other 300; most by code 7, the largest has 1,000 bytes)")
@case("E5:1 A1:2 U6:4", "no space (-28 ENOSPC): 2 oneway sends with 2,000 bytes waited or were held at service 100: 2"
      " sends from client 200; most by code 7, the largest has 1,000 bytes)", oneway=True)
@case("E5:1 A1:2 U6:4", "; most by replies to code 9, the largest has 5,000 bytes)", size=5000)
def space_filled_by_several(s, service, client, oneway=False, size=100):
    """A call finds no space: calls, oneway sends and replies are there."""
    other = s.process(300, "other")
    client.main.asks(service.main)
    client.main.gives(service.main, 3)
    address = client.main.gets(service.main.sends(3, 9), 0x9300)
    service.main.answered(client.main.replies(address, bytes(size)), free=False)
    service.main.gets(other.main.sends(0, 5, body=bytes(120)))
    for _ in range(2):
        client.main.sends(0, 7, ONE_WAY, bytes(1000))
    refused(client.main, 8, 2000, ONE_WAY if oneway else 0)
    logs(s, client.main, NO_SPACE, "oneway" if oneway else "call", data=2000)
