"""More sessions as in cases.py: processes that get file descriptors."""

from checks.kit.captures import FD, changed, offsets, u32
from checks.viewer.sessions.cases import case, each_of
from checks.viewer.sessions.session import ONE_WAY, Process, Thread

KEPT = "file descriptors kept"


def with_fd(number: int) -> bytes:
    return changed(FD, (8, u32(number)))


class Table:
    """The descriptors of a process: the kernel gives the lowest free number."""

    def __init__(self, first: int = 4):
        self.first, self.open = first, set[int]()

    def opens(self) -> int:
        number = next(at for at in range(self.first, 9999) if at not in self.open)
        self.open.add(number)
        return number


def hands_over(sender: Thread, receiver: Process, table: Table, code: int = 7, keeps: bool = True, oneway: bool = False,
               reply: bool = False) -> None:
    """Sends a descriptor with a call, or with the reply to a call of the receiver, which keeps or closes it."""
    number = table.opens()
    if not keeps:
        table.open.remove(number)
    given, got, listed = with_fd(3), with_fd(number), offsets(0)
    if reply:
        address = sender.gets(receiver.main.sends(0, code))
        receiver.main.answered(sender.replies(address, given, listed), got)
    elif oneway:
        receiver.main.frees(receiver.main.gets(sender.sends(0, code, ONE_WAY, given, listed), 0, got))
    else:
        address = receiver.main.gets(sender.sends(0, code, body=given, listed=listed), 0, got)
        sender.answered(receiver.main.replies(address))


@case("K1:1", f"maybe {KEPT}: 1 of - code 7 at service 100 node 0x0 K1 (its lowest number rises from 4 to 19; of 60"
      " descriptors that came so at least 15 are open, from client 200)", "K1 by service 100: 1",
      f"defect: {KEPT} | service on binder | code 7 at service;", "(1 defects)")
@case("", each=1000)
@case("K1:1", "its lowest number rises from 4 to 14; of 13 descriptors that came so at least 10 are", count=13,
      each=1)
@case("", count=12, each=1)
@case("", closes_at=30)
@case("K1:1", "; of 40 descriptors that came so at least 10 are open, from client 200, and of 40 others 2)", count=40,
      others=1)
@case("", rests=0.6)
@case("K1:1", begins=0.4)
@case("", begins=0.6)
@case("", stops=30)
@case("K1:1", stops=40)
@case("K1:1", "oneway code 7 at service 100 node 0x0 K1", oneway=True)
@case("K1:1", "reply to code 7 of service 100 node 0x0 K1", "15 are open)", "K1 by client 200: 1", reply=True)
@case("K1:1", "its lowest number rises from 4 to 19", has_side=False)
def gets_descriptors(s, service, client, count=60, each=3, closes_at=None, others=0, rests=0, begins=0, stops=None,
                     oneway=False, reply=False):
    """A service gets descriptors, and does not close each third one. It may close all of a sudden what it keeps, or
    get others with another code; or it works before the first one or after the last, or gets no more that it keeps."""
    receiver, sender = (client, service) if reply else (service, client)
    table = Table()

    def works(share):
        for _ in range(int(count * share / (1 - share))):
            client.main.asks(service.main, 9)
            s.wait(5)

    works(begins)
    for at in range(1, count + 1):
        keeps = at % each == 0 and (stops is None or at < stops)
        hands_over(sender.main, receiver, table, keeps=keeps and not others or keeps and at % 4 == 0, oneway=oneway,
                   reply=reply)
        for _ in range(others):
            hands_over(sender.main, receiver, table, 8, keeps, oneway, reply)
        if at == closes_at:
            table.open.clear()
        s.wait(5)
    works(rests)


@case("K2:1", f"maybe {KEPT}: 1 of - code 7 at service 100 node 0x0 K2 (open are 9 when the first one came, and at the"
      " end 30 of at most 64; 40 descriptors came, all of them so, from client 200)", "K2 by service 100: 1",
      f"defect: {KEPT} | service on binder | code 7 at service;", "(1 defects)")
@case("K2:1", "reply to code 7 of service 100 node 0x0 K2", "all of them so)", "K2 by client 200: 1", reply=True)
@case("K2:1", "60 descriptors came, 40 of them so, from client 200)", others=1, count=20, kept=31)
@case("K2:1", kept=10, count=19)
@case("", kept=9, count=17)
@case("", kept=each_of(20, 0))
@case("", begins=0.6)
@case("", stops=each_of(0.7, 0.2))
@case("K2:1", stops=0.12)
@case("", kept=0, elsewhere=True)
@case("", kept=0, meanwhile=21, looks=("first", "failed", "end"))
@case("", looks=each_of(("first", "failed"), ("failed", "end")))
@case("K2:1", looks=("first", "failed", "end"))
@case("K1:1", rises=True)
def keeps_copies(s, service, client, count=40, kept=21, others=0, begins=0, stops=0, reply=False, looks=("first",
                 "end"), rises=False, elsewhere=False, meanwhile=0):
    """A service copies some of the descriptors that it gets, and closes what came, so their numbers do not rise. It had
    more to do before the first one, or after the last; or it keeps some that came, too, whose numbers rise; or some
    only meanwhile. Or more are open in a process to which none came, and in one of this number on another device."""
    receiver, sender = (client, service) if reply else (service, client)
    table = Table()

    def works(share):
        for _ in range(int(count * share / (1 - share))):
            client.main.asks(service.main, 9)
            s.wait(5)

    def looked(why, open_now):
        if why in looks:
            s.tell(f"descriptors 0 {receiver.number} open={open_now} limit=64 why={why}")
        if elsewhere:
            for opening in f"0 {client.number}", f"1 {receiver.number}":
                s.tell(f"descriptors {opening} open={60 if why == 'end' else 3} limit=64 why={why}")

    works(begins)
    for at in range(count):
        hands_over(sender.main, receiver, table, keeps=rises, reply=reply)
        if at == 0:
            looked("first", 9)
        for _ in range(1 + others if others else 0):
            hands_over(sender.main, receiver, table, 8, keeps=False, reply=reply)
        s.wait(5)
    works(stops)
    looked("failed", 9 + meanwhile)
    looked("end", 9 + kept)
