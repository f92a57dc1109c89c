"""Sessions as in cases.py, of which sums are told: who sent how many of which code to whom, what became of these, and
what each process got and served."""

from checks.kit.captures import (BC_RELEASE, BC_REPLY, BC_TRANSACTION, BR_DEAD_REPLY, BR_FAILED_REPLY,
                                 BR_ONEWAY_SPAM_SUSPECT, BR_REPLY, each, offsets, record)
from checks.kit.tokens import string16
from checks.viewer.sessions.cases import case
from checks.viewer.sessions.name_cases import NAME_OF, ONE, TWO
from checks.viewer.sessions.session import DONE, ONE_WAY, Sent


@case("A1:6 E3:2 E5:3 E7:1 O1:1 S4:1 U4:1 U6:2 W2:2",
      "handle 0 of client 200, code 2: 7 sends, 244 bytes, 3 failed, 1 refused, 2 open,",
      ", 6 delivered, 4 fit, 2 kept, 3 at most, 4 frames, 34000000 ns, node 0 0",
      "handle 0 of client 200, oneway code 2: 1 sends, 0 bytes, 0 failed, 0 refused, 0 open, 1 delivered,",
      "handle 0 of client 200, code 3: 1 sends, 4 bytes,", "handle 1 of client 200, code 2: 1 sends, 8 bytes,",
      "handle 0 of client 200, oneway code 7: 5 sends, 24 bytes, 0 failed, 0 refused, 0 open, 4 delivered, 4 fit,",
      ", 4 fit, 1 kept, 2 at most, - frames, - ns, node 0 0",
      "oneway code 8: 1 sends, 0 bytes, 0 failed, 0 refused, 0 open,",
      "open, 0 delivered, 0 fit, 0 kept, - at most, - frames, - ns, node 0 0", "(13 codes of handles)",
      "0 open, 1 delivered, 1 fit, 0 kept, 1 at most, 4 frames, 4000000 ns, node 36864 0",
      "client 200 to service 100 code 2: 6 of 7", "client 200 to server 300 code 2: 1 of 1",
      "U6 at 3680: 2 of 7, 4 frames, 34000000 ns", "U4 at 6336: 3 of 4, 7 frames, 74000000 ns",
      "W2 at 6460: 4 of 5, 5 frames, 64000000 ns", "E5 at 7012: 0 of 1, - frames, - ns",
      "E5 at 7248: 0 of 1, - frames, - ns", "E7 at 7284: 1 of 1, 2 frames, 2000000 ns",
      "O1 at 7564: 1 of 1, 4 frames, 4000000 ns", "code 13: 1 sends, 0 bytes, 0 failed, 0 refused, 0 open,",
      "explained calls without an answer: 2 of 7 ", "explained calls that failed: 2 of 7 ",
      "real calls closed by what is no answer: 1 of 1 ", "real sends that were refused: 1 of 1 ",
      "defect: calls closed by what is no answer | client", "defect: calls without an answer | service",
      "defect: calls that failed (BR_DEAD_REPLY) | service", "defect: oneway sends that never came | service")
@case("A1:6 C4:2 E3:2 E5:3 E7:1 O1:1 P1:1 U4:1 W2:2", "open, 6 delivered, 4 fit, 2 kept, 3 at most, 4 frames, - ns",
      "C4 at 3680: 2 of 7, 4 frames, - ns", "A1 at 3976: 2 of 6, 1 frames, - ns",
      "A1 at 3976: 4 of 6, 1 frames, - ns", "U4 at 6336: 3 of 4, 7 frames, - ns", has_side=False)
def sends_that_differ(s, manager, client, server):
    """Calls of a code, each with another end or another length; oneway sends of the same code and of another one, of
    which some never come; the same code at another handle; and codes of which the only send is refused or crossed, or
    suspected as spam, or has a bad object."""
    served, threads = [manager.looper(at) for at in range(1, 6)], [client.thread(at) for at in range(1, 6)]
    client.main.asks(served[0], 2, took=30, body=bytes(12))
    client.main.asks(served[0], 2, took=5, body=bytes(20))
    client.main.asks(served[0], 3, body=bytes(4))
    client.main.asks(server.main, 2, 1, 0x9000, body=bytes(8))
    # Two that are alike are on their way, and no one answers them.
    for sent in [one.sends(0, 2, body=bytes(36)) for one in threads[:2]]:
        served.pop().gets(sent)
    # Two that are delivered and fail, and one that is refused.
    for one in threads[2:4]:
        served[-1].frees(served.pop().gets(one.sends(0, 2, body=bytes(44))))
        one.reads(DONE, record(BR_DEAD_REPLY))
    threads[4].sends(0, 2, body=bytes(52))
    threads[4].reads(record(BR_FAILED_REPLY))
    # Of five oneway sends two wait a little, one is kept, and one never comes.
    first, second = (client.main.sends(0, 7, ONE_WAY, body=bytes(size)) for size in (0, 4))
    kept = served[0].gets(first)
    for sent, held in (second, 60), (client.main.sends(0, 7, ONE_WAY, body=bytes(8)), 7):
        address = served[0].gets(sent)
        s.wait(held)
        served[0].frees(address)
    served[0].frees(kept)
    served[0].gets(client.main.sends(0, 7, ONE_WAY, body=bytes(12)))
    client.main.sends(0, 7, ONE_WAY)
    served[0].frees(served[0].gets(client.main.sends(0, 2, ONE_WAY)))
    client.main.sends(0, 8, ONE_WAY)
    # Of other codes one is refused, one is oneway and refused, one is suspected as spam, one has a bad object, and one
    # is ended by a reply of its own thread.
    client.main.sends(0, 9, told=BR_FAILED_REPLY)
    spam = Sent(client.main, 11, ONE_WAY, b"", b"")
    for sent, answer in (Sent(client.main, 10, ONE_WAY, b"", b""), BR_FAILED_REPLY), (spam, BR_ONEWAY_SPAM_SUSPECT):
        client.main.writes(sent.record(BC_TRANSACTION))
        client.main.reads(record(answer))
    served[0].frees(served[0].gets(spam))
    bad = client.main.sends(0, 12, body=bytes(32), listed=offsets(2))
    client.main.answered(served[0].replies(served[0].gets(bad, body=bytes(32), listed=b"")))
    crossed = client.thread(6)
    crossed.sends(0, 13)
    crossed.writes(Sent(None, 0, 0, b"", b"").record(BC_REPLY))
    s.wait(200)


def asked(s, client, server, handle=0, ptr=0, cookie=0, code=2, takes=0, writes=0, held=None):
    """A whole call. The server takes so long and writes so often before it replies, and the client holds the answer so
    long, or keeps it. Returns the address of the answer."""
    address = server.gets(client.sends(handle, code), ptr, cookie=cookie)
    s.wait(takes)
    server.goes_on(writes)
    answer = client.answered(server.replies(address), free=False)
    if held is not None:
        s.wait(held)
        client.frees(answer)
    return answer


@case("A1:2 S4:1 U1:1 U2:1 U4:5 U6:1", "U4 at 1880: 4 of 7, 23 frames, 66000000 ns",
      "U4 at 4612: 2 of 4, 1 frames, 31000000 ns", "U4 at 5728: 0 of 1, - frames, - ns",
      "U1 at 9100: 4 of 7, 23 frames, 66000000 ns", "U6 at 9400: 0 of 1, - frames, - ns",
      "U2 at 9200: 7 of 8, 7 frames, 7000000 ns", "A1 at 9300: 7 of 8, 4 frames, 4000000 ns",
      "handle 2 of client 200 at service 100 node 1792 0: 1 certain of 1",
      "defect: replies never freed | other on binder | reply to no call")
def answers_that_differ(s, service, client):
    """Answers of calls by two handles, of which one leads to two objects in turn; to two clients; and one to no call.
    Some are kept."""
    calls = client.main
    first = asked(s, calls, service.main, held=None)
    for held in 3, 40, None, None:
        asked(s, calls, service.main, held=held)
    calls.frees(first)
    for node, held in (0x700, 9), (0x700, None), (0x800, None), (0x700, None), (0x700, 30):
        calls.is_given(service.main, 2, node=node)
        asked(s, calls, service.main, 2, node, held=held)
        calls.writes(*each(BC_RELEASE, 2))
    other = s.process(400, "other").main
    for writes, held in (0, 5), (3, None):
        asked(s, other, service.main, writes=writes, held=held)
    service.thread(1).gets(client.thread(1).sends(0, 2))
    other.reads(Sent(None, 0, ONE_WAY, b"", b"").record(BR_REPLY, 0, other.process.address()))
    s.wait(200)


@case("A1:24 C4:5 C5:1 U2:8 U4:3 U6:1 W5:1", "U2 at 12744: 8 of 13, 12 frames, 36000000 ns",
      "U2 at 13144: 3 of 5, 8 frames, 16000000 ns", "C4 at 13544: 2 of 4, 8 frames, 16000000 ns",
      "C4 at 13944: 2 of 3, 6 frames, 6000000 ns", "C4 at 14144: 2 of 3, 8 frames, 16000000 ns",
      "U2 at 14344: 4 of 5, 10 frames, 26000000 ns", "C4 at 15040: 1 of 2, 4 frames, 4000000 ns",
      "A1 at 12844: 3 of 4, 7 frames, 23000000 ns", "A1 at 13044: 4 of 6, 9 frames, 33000000 ns",
      "A1 at 13244: 2 of 3, 5 frames, 13000000 ns", "A1 at 13444: 1 of 2, 3 frames, 3000000 ns",
      "A1 at 13644: 2 of 3, 5 frames, 13000000 ns", "C4 at 13844: 0 of 1, - frames, - ns",
      "A1 at 14044: 2 of 3, 3 frames, 3000000 ns", "A1 at 14244: 2 of 3, 5 frames, 13000000 ns",
      "A1 at 15976: 4 of 6, 9 frames, 33000000 ns", "U4 at 11740: 0 of 1, - frames, - ns",
      "U4 at 12192: 1 of 2, 1 frames, 1000000 ns", "U4 at 12644: 3 of 4, 1 frames, 1000000 ns",
      "A1 at 12844: 5 of 7, 7 frames, 23000000 ns", "A1 at 13044: 4 of 7, 9 frames, 33000000 ns",
      "A1 at 13444: 1 of 3, 3 frames, 3000000 ns", "A1 at 13644: 2 of 4, 5 frames, 13000000 ns",
      "A1 at 14044: 4 of 6, 5 frames, 13000000 ns", "A1 at 14444: 4 of 5, 7 frames, 23000000 ns",
      "A1 at 15140: 0 of 1, - frames, - ns", "W5 at 15776: 0 of 1, - frames, - ns",
      "U6 at 15976: 4 of 7, 9 frames, 33000000 ns",
      "handle 7 of client 200 at server 300 node 2560 0: 4 certain of 5",
      "handle 7 of client 200 at server 300 node 2560 9: 1 certain of 3",
      "handle 7 of client 200 at server 300 node 2816 0: 4 certain of 6",
      "handle 8 of client 200 at server 300 node 2560 5: 2 certain of 3",
      "handle 8 of client 200 at third 400 node 2560 5: 1 certain of 2", "handle 7 of client 200, code 2: 13 sends,",
      "handle 11 of client 200, code 2: 3 sends, 0 bytes,", "8 frames, 16000000 ns, node 3328 7")
def objects_that_differ(s, service, client):
    """Calls by handles to objects that differ by their process, their ptr or their cookie alone; of some handles it is
    not known where they lead. Others are of another code, or oneway. One to each hangs, and of some one more has an
    error reply."""
    server, third = s.process(300, "server"), s.process(400, "third")
    calls = client.main
    objects = ((7, server, 0xA00, 0, 3), (7, server, 0xB00, 0, 4), (8, server, 0xA00, 5, 2), (8, third, 0xA00, 5, 1),
               (9, server, 0xC00, 0, 2), (9, server, 0xC00, 5, 0), (10, server, 0xD00, 0, 1), (11, server, 0xD00, 7, 2),
               (12, third, 0xD00, 0, 3))
    for handle, process, ptr, cookie, n in objects:
        for at in range(n):
            asked(s, calls, process.main, handle, ptr, cookie, takes=10 * at, writes=2 * (n - at), held=0)
    for handle, process, ptr, code in (7, server, 0xA00, 3), (10, server, 0xD00, 2), (12, third, 0xD00, 2):
        asked(s, calls, process.main, handle, ptr, code=code)
    for number, (handle, process, ptr, cookie, _) in enumerate(objects, 1):
        process.thread(number).gets(client.thread(number).sends(handle, 2), ptr, cookie=cookie)
    # No buffer with the cookie 9 is kept at the first object, but one that is of another code, process, ptr or oneway.
    asked(s, calls, server.main, 7, 0xA00, 9, held=0)
    for number, (process, ptr, code) in enumerate(((server, 0xA00, 3), (third, 0xA00, 2), (server, 0xB00, 2)), 20):
        process.thread(number).gets(client.thread(number).sends(7, code), ptr, cookie=9)
    server.main.gets(calls.sends(7, 2, ONE_WAY), 0xA00, cookie=9)
    crossed = server.thread(30)
    crossed.gets(client.thread(30).sends(7, 2), 0xB00)
    s.wait(300)
    crossed.goes_on(20)
    crossed.reads(record(BR_FAILED_REPLY))
    s.wait(200)


@case("U1:1 U6:8", "code 7 to handle 8 of client 200 names a.b.ITwo, 1 others",
      "code 7 to handle 9 of client 200 names a.b.IOne, 0 others",
      "code 7 at node 0 of service 100 names a.b.IOne, 2 others",
      "code 7 at node 1280 of server 300 names a.b.ITwo, 2 others",
      "code 7 at node 1536 of server 300 names a.b.IOne, 0 others",
      "code 7 at node 1280 of third 400 names a.b.IOne, 2 others",
      "code 8 to handle 8 of client 200 names a.b.IOne, 0 others",
      "code 8 at node 0 of service 100 names a.b.ITwo, 0 others",
      "code 9 at node 1280 of server 300 names a.b.ITwo, 1 others", "(9 codes of nodes name an interface)",
      "handle 8 of client 200 names a.b.IOne 2 times, 2 others",
      "node 0 of service 100 names a.b.IOne 4 times, 6 others",
      "node 1280 of server 300 names a.b.ITwo 6 times, 5 others",
      "node 1280 of third 400 names a.b.IOne 4 times, 4 others",
      "node 1536 of server 300 names a.b.IOne 2 times, 4 others", "U6 at 7832: 0 of 3, - frames, - ns",
      "U1 at 11848: 3 of 4, 4 frames, 4000000 ns",
      "defect: served calls not replied | server on binder | a.b.ITwo code 9 at server; key", "; a.b.ITwo code 9")
def names_that_differ(s, service, client):
    """Calls of two codes name two interfaces, at objects that differ by their process or by their ptr alone. Others
    name them to two handles, and do not come; or come, and were not sent. Objects say their interface when asked, and
    one also answers so to another code."""
    server, third = s.process(300, "server"), s.process(400, "third")
    for handle, process, ptr, code, bodies in (
            (0, service, 0, 7, (ONE, ONE, TWO, b"")), (0, service, 0, 8, (TWO,)),
            (5, server, 0x500, 7, (TWO, TWO, ONE)), (6, third, 0x500, 7, (ONE, TWO, ONE)),
            (7, server, 0x600, 7, (ONE,))):
        for body in bodies:
            client.main.asks(process.main, code, handle, ptr, body=body)
    for number, (handle, code, body) in enumerate((
            (8, 7, ONE), (8, 7, TWO), (8, 7, TWO), (8, 8, ONE), (9, 7, ONE)), 1):
        client.thread(number).sends(handle, code, body=body)
    for at, body in enumerate((ONE, TWO, TWO), 1):
        thread = server.thread(at)
        thread.frees(thread.gets(Sent(client.main, 9, 0, body, b""), 0x500))
    for handle, process, ptr, code, name in (
            (0, service, 0, NAME_OF, "a.b.IThree"), (0, service, 0, 13, "a.b.IFour"),
            (5, server, 0x500, NAME_OF, "a.b.IThree"), (6, third, 0x500, NAME_OF, "a.b.IThree"),
            (7, server, 0x600, NAME_OF, "a.b.IThree"), (7, server, 0x600, NAME_OF, "a.b.IFour")):
        address = process.main.gets(client.main.sends(handle, code), ptr)
        client.main.answered(process.main.replies(address, string16(name)))
    client.thread(6).sends(5, 7)
