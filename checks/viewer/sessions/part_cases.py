"""Sessions of which only a part was recorded: of each process that is left out there is no frame, and its lines are not
in the side list. The copies of the driver's books have all."""

from checks.kit.captures import BR_FROZEN_REPLY, record
from checks.viewer.sessions.book_cases import call_of, thread
from checks.viewer.sessions.cases import case, each_of
from checks.viewer.sessions.session import DONE, Sent


def is_narrowed(s, option):
    """The side list says what alone is recorded; None: all is."""
    if option:
        s.lines[0] = s.lines[0].replace("machine=x86_64", f"machine=x86_64 narrowed={option}")


PART = "who has it is not recorded: "
SEE = PART + "see the copy of the driver's transactions at the end"
BOOK = PART + "by the driver's book of the end "


@case("C12:1", f"(open for ≥ 1.1 s; {SEE})", "C12 by client 200: 1")
@case("C12:1", SEE, option=each_of("pid:200,device:binder", "cgroup:top"))
@case("C5:1", "(open for ≥ 1.1 s; not got)", option=None)
@case("C5:1", "not got", option="device:binder")
@case("U6:1", wait=50)
@case("U1:1", good=3, wait=150, took=100)
@case("C12:1", SEE, good=3)
@case("U2:1", good=3, option=None)
@case("M2:1", good=3, option=None, lost=True)
@case("C12:1", good=3, lost=True)
@case("T1:1", ends=True, wait=50)
@case("C12:1", f"{BOOK}thread 101 of process 100 has it", book=101)
@case("C12:1", f"{BOOK}no thread of process 100 has it", book=0)
@case("C12:1", SEE, book=101, code=4)
@case("C5:1", "not got", book=101, option=None)
def calls_what_is_not_recorded(s, option="pid:200", wait=1100, good=0, took=1, lost=False, ends=False, book=None,
                               code=1):
    """A client calls a service that is not recorded, and gets no answer. The driver's book may say which thread has the
    call, or has another one."""
    is_narrowed(s, option)
    client = s.process(200, "client")
    for _ in range(good):
        client.main.sends(0, 1)
        s.wait(took)
        client.main.answered(Sent(None, 0, 0, b"", b""))
    s.loses(client, lost)
    client.main.sends(0, 1)
    s.wait(wait)
    if book is not None:
        made, got = (call_of(5, (200, 200), (100, book), has, code=code) for has in ("outgoing", "incoming"))
        pending = call_of(5, (200, 200), (100, 0), "pending", node=3, code=code)
        s.books("end", of_200=thread(200, made), of_100=thread(book, got) if book else f"  {pending}\n")
    if ends:
        client.main.ends()


@case("C13:1 A1:1", "service 100 got it at", "has done nothing since", "C13 by service 100: 1")
@case("C13:1 A1:1", good=3)
@case("U2:1 A1:1", good=3, option=None)
@case("C4:1 A1:1", option=None)
@case("U6:1 A1:1", wait=50)
@case("C7:1 C12:1 A1:1", "C7 by service 100: 1", calls=True)
@case("C4:1 C5:1 A1:1", calls=True, option=None)
@case("C13:1 A1:1 C12:1", "what its thread does on other devices is not recorded", option="pid:100,device:binder",
      other=True)
def serves_what_is_not_recorded(s, option="pid:100", wait=1100, good=0, calls=False, other=False):
    """A service gets a call of a client that is not recorded, and does not reply; it may wait in a call of its own, or
    another thread of it does."""
    is_narrowed(s, option)
    service = s.process(100, "service", enters=True)
    stranger = Sent(None, 1, 0, b"", b"")
    for _ in range(good):
        service.main.replies(got(service, stranger))
    got(service, stranger)
    if calls:
        service.main.sends(3, 2)
    if other:
        service.thread(1).sends(3, 2)
    s.wait(wait)


def got(service, sent):
    """A call of a process that has no frame. Returns the address of its buffer."""
    class Stranger:
        number = 200
    sent.sender = type("Sender", (), {"process": Stranger})
    return service.main.gets(sent)


@case("E4:1", "whether it was thawed later is not recorded")
@case("E4:1", "()", option=None)
def calls_a_frozen_one_alone(s, option="pid:200"):
    """A client calls what is frozen; nothing else is recorded."""
    is_narrowed(s, option)
    client = s.process(200, "client")
    client.main.sends(1, 1)
    client.main.reads(DONE, record(BR_FROZEN_REPLY))
