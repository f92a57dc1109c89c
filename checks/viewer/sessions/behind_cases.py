"""More sessions as in cases.py: listeners that fall behind."""

from checks.kit.captures import BC_TRANSACTION, BR_FAILED_REPLY, ENTER, record
from checks.viewer.sessions.cases import case
from checks.viewer.sessions.session import ONE_WAY


def told(s, count, came_at, ends=True, lost=False, more=0, every=100, senders=1, cookie=0, refused=None):
    """A client tells a service something each 0.1 s, in oneway sends, or clients do so in turns. The service takes each
    of them at a time, if it does so before the end, `more` milliseconds after the last of them, and then ends or does
    not. `lost`: its last frame is missing. `cookie`: they go to another object, with this cookie, by a handle that was
    there before. `refused`: the driver refuses one more, after so many."""
    service, client = s.two()
    clients = [client, *(s.process(200 + number, "client") for number in range(1, senders))]
    client.main.asks(service.main)
    handle, ptr = (7, 0x9000) if cookie else (0, 0)
    begin, sent = s.time, {}
    stops = every * count + more
    steps = [(every * at, 0, at) for at in range(count)]
    steps += [(came_at(at), 1, at) for at in range(count) if came_at(at) < stops]
    for time, takes, at in sorted(steps):
        s.wait(max(0, time - (s.time - begin) / 1_000_000))
        if lost and at == count - 1:
            s.loses(service)
        if takes:
            service.main.frees(service.main.gets(sent[at], ptr, cookie=cookie))
        else:
            body = bytes([at % senders]) * 4 if senders > 1 else b""
            sent[at] = clients[at % senders].main.sends(handle, 7, ONE_WAY, body=body)
            if at == refused:
                client.main.writes(sent[at].record(BC_TRANSACTION, handle))
                client.main.reads(record(BR_FAILED_REPLY))
    s.wait(max(0, stops - (s.time - begin) / 1_000_000))
    if ends:
        service.ends()


@case("E3:16 W4:1", "maybe oneway sends that wait longer and longer: 1 of - code 7 at service 100 node 0x0 W4",
      "; 16 sends did not come", "W4 by service 100: 1",
      "defect: oneway sends that wait longer and longer | service on binder | code 7 at service", every=170)
@case("U1:16 W4:1", "; 16 sends did not come", every=170, ends=False)
@case("E3:16 W4:1", "code 7 at service 100 node 0x9000 (one waited", "; 16 sends did not come", every=170, cookie=5)
@case("E3:6", every=120)
@case("E3:6", every=120, then=1000)
@case("E3:18", every=170, late=300)
@case("E3:16", every=170, lost=True)
@case("E3:123 W4:1", "; 123 sends did not come", every=170, count=300)
def falls_behind(s, every, late=0, ends=True, lost=False, count=40, cookie=0, then=0):
    """The service takes one in so many milliseconds, the first of them late or not. If many wait, the pairs of sends
    and deliveries are guesses. Then another process goes on for so long."""
    told(s, count, lambda at: late + every * at, ends, lost, cookie=cookie)
    if then:
        s.wait(then)
        s.process(300, "other").main.writes(ENTER)


@case("E5:1", refused=20)
def takes_all_but_one(s, refused):
    """The service takes each a while later, but the driver refuses one."""
    told(s, 40, lambda at: 100 * at + 120, more=200, refused=refused)


@case("E3:1 W3:19")
def takes_nothing_any_more(s):
    """The service takes 20 at once, and then nothing more: it does not fall behind, but hangs."""
    told(s, 40, lambda at: 100 * at + 1 if at < 20 else 9999)


@case("W4:1", "one waited 1.1 s, an earlier one 2 ms", wait=1100)
@case("", wait=900)
@case("W4:1", wait=1100, usual=250)
@case("", wait=1100, usual=300)
@case("", wait=1100, late=33)
@case("", wait=1100, count=8, late=6)
@case("", wait=900, last=1200)
@case("E3:6 W4:1", "groups that are maybe: 1", wait=1100, late=15, more=500)
def is_late_at_last(s, wait, usual=1, count=40, late=28, last=0, more=2000):
    """The service takes all, the last ones of them late, and the very last one maybe later; or it does not take all."""
    told(s, count, lambda at: 100 * at + (usual if at < late else last if last and at == count - 1 else wait),
         more=more)


@case("E3:8")
def was_late_once(s):
    """The service takes the first ones over a second late, and others at once. It falls behind at last, and what it has
    not taken when it ends has waited for less than a second."""
    told(s, 60, lambda at: 100 * at + 1100 if at < 8 else max(100 * at + 1, 1900) if at < 30 else 140 * at - 1200)


@case("W4:1", "one waited 2.34 s, an earlier one", "W4 by service 100: 1", every=60, takes=120, count=40)
@case("W12:1", "(client 200 sent 160, and one waited 1.59 s; each takes 15 ms)", "W12 by client 200: 1",
      "maybe bursts of oneway sends: 1 of - code 7 at service 100 node 0x0 W12", every=5, takes=15, count=160)
@case("W4:1", every=5, takes=15, count=160, senders=2)
@case("W13:1", "(client 200 sent 120, and one waited 1.19 s; each takes 15 ms)", "W13 by client 200: 1",
      "explained short bursts of oneway sends: 1 of - code 7 at service 100 node 0x0 W13", every=5, takes=15, count=120)
@case("W13:1", "one waited 180 ms", every=5, takes=8, count=60)
@case("", every=5, takes=8, count=60, senders=2)
@case("", every=5, takes=7, count=50)
@case("W12:1", every=60, takes=98, count=60)
def bursts(s, every, takes, count, senders=1):
    """The service is idle, and then is sent one each so many milliseconds, evenly, while it takes longer for each."""
    told(s, count, lambda at: takes * at + 3, ends=False, more=takes * count, every=every, senders=senders)
