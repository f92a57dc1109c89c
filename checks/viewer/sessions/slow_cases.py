"""More sessions as in cases.py: what is slow, and who asks for the same again and again."""

from checks.kit.tokens import marked
from checks.viewer.sessions.cases import case, each_of
from checks.viewer.sessions.session import ONE_WAY, Sent

LISTENER, PACKAGES = marked("example.IListener"), marked("example.IPackages")


@case("V1:1", "code 1 to service 100 node 0x0 (154 ms: 151 ms at work in service 100, 2 ms on the way back from"
      " service 100, 1 ms waiting for a thread of service 100)", "V1 by service 100: 1",
      "V1 of com.example.app 200, slow main thread: frame 2 at 84, thread 200",
      "defect: slow calls of a main thread | service on binder | code 1 to service", took=150)
@case("", took=90)
@case("", took=150, is_app=False)
@case("", took=150, is_main=False)
@case("V1:1", "(2 calls, the longest 174 ms: 171 ms at work", took=150, then=170)
@case("V1:1", "(2 calls, the longest 174 ms: 171 ms at work", took=170, then=150)
@case("V1:1", "(2 calls, the longest 154 ms: 151 ms at work", "slow main thread: frame 2 at 84,", took=150, then=150)
@case("V1:1", "(154 ms: 151 ms at work", took=150, then=70)
@case("V1:2", "code 2 to service 100 node 0x0 (154 ms: 151 ms at work", took=150, then=150, code=2)
@case("V1:1", "code 1 to service 100 node 0x0 (154 ms: 151 ms at work", took=150, then=150, by_others=True)
@case("V1:1", "151 ms waiting for a thread of service 100, 121 ms at work in service 100", took=120, queue=150)
@case("V1:1", "(153 ms: 151 ms at work in service 100, 2 ms on the way back from service 100)", took=150, queue=-1)
@case("V1:1", "on the way back from service 100, 1 ns waiting for a thread of", took=150, queue=-0.999999)
def app_waits(s, service, client, took, is_app=True, is_main=True, then=0, code=1, queue=0, by_others=False):
    """The main thread of an app, or another thread, calls a service that takes long, and then maybe again: or another
    thread does so."""
    if is_app:
        client.is_called("com.example.app")
    thread = client.main if is_main else client.thread(1)
    sent = thread.sends(0, 1)
    s.wait(queue)
    address = service.main.gets(sent)
    s.wait(took)
    thread.answered(service.main.replies(address))
    if then:
        (client.thread(1) if by_others else thread).asks(service.main, code, took=then)


@case("V1:1", "(136 ms: 122 ms at work in power 300, 8 ms at work in service 100, 2 ms on the way back from service"
      " 100, 2 ms on the way back from power 300)", "V1 by power 300: 1")
@case("V1:1", "(142 ms: 123 ms at work in power 300, 10 ms at work in service 100, 4 ms on the way back from power",
      "V1 by power 300: 1", times=2)
def app_waits_for_another(s, service, client, times=1):
    """The service itself waits for another one, once or twice."""
    power = s.process(300, "power")
    power.main.gives(service.main, 5, node=0x9500)
    client.is_called("com.example.app")
    address = service.main.gets(client.main.sends(0, 1))
    s.wait(5)
    service.main.asks(power.main, 2, 5, 0x9500, took=121 / times, times=times)
    client.main.answered(service.main.replies(address))


@case("V1:4", "of com.example.app 200, slow", "of com.example.app 201, slow",
      "code 1 to one 300 node 0x9000 (154 ms: 151 ms at work in one 300, 2 ms on the way back",
      "code 1 to two 301 node 0x9000 (164 ms: 161 ms at work in two 301, 2 ms on the way back",
      "code 1 to one 300 node 0x9000 (174 ms: 171 ms at work in one 300, 2 ms on the way back",
      "code 1 to two 301 node 0x9000 (184 ms: 181 ms at work in two 301, 2 ms on the way back",
      "V1 of com.example.app 201, slow main thread: frame 63 at 5352, thread 201",
      "V1 by one 300: 2", "V1 by two 301: 2")
def apps_wait(s, manager, client):
    """Two apps each wait for two services, which have an object at the same address."""
    manager.looper(1)
    other = s.process(201, "other")
    services = [s.process(300 + at, name) for at, name in enumerate(("one", "two"))]
    for app in client, other:
        app.is_called("com.example.app")
    for at, service in enumerate(services):
        service.main.gives(manager.main, 5 + at, node=0x9000)
    took = 150
    for app in client, other:
        for at, service in enumerate(services):
            app.main.is_given(manager.main, 8 + at, server_handle=5 + at)
            app.main.asks(service.main, 1, 8 + at, 0x9000, took=took)
            took += 10


@case("V1:2", "node 0x9500 (154 ms: 151 ms at work", "node 0x9600 (174 ms: 171 ms at work")
def app_waits_at_two_objects(s, service, client):
    """An app waits for two objects of a service, one after another."""
    client.is_called("com.example.app")
    for handle, took in (5, 150), (6, 170):
        client.main.is_given(service.main, handle, node=0x9000 + 0x100 * handle)
        client.main.asks(service.main, 1, handle, 0x9000 + 0x100 * handle, took=took)


@case("V1:1 V2:1", "code 1 to listener 310 node 0x9000 (154 ms: 151 ms at work")
def app_tells_and_asks(s):
    """An app tells listeners by oneway sends, of which one is slow, and asks that one by the same code."""
    teller, _ = s.two()
    teller.is_called("com.example.app")
    threads = [s.process(300 + at, "listener").main for at in range(11)]
    for at, thread in enumerate(threads):
        thread.gives(teller.main, 10 + at, node=0x9000)
    for at, thread in enumerate(threads):
        address = thread.gets(teller.main.sends(10 + at, 1, ONE_WAY, body=LISTENER), 0x9000)
        s.wait(120 if at == 10 else 0)
        thread.frees(address)
    teller.main.asks(threads[10], 1, 20, 0x9000, took=150, body=LISTENER)


@case("A1:1 C4:1 V1:1", "ms not known, at service 100", "V1 by com.example.app 200: 1")
@case("V1:1", "ms not known, at a server that is not known", "V1 by com.example.app 200: 1", seen=False)
@case("", seen=False, handle=9)
def app_waits_for_the_unknown(s, service, client, seen=True, handle=0):
    """The frame with the reply of the service is lost, or all that the service did. Or it is a call by a handle that
    was there before the recording, and nothing says whose it is."""
    client.is_called("com.example.app")
    client.main.asks(service.main)
    sent = client.main.sends(handle, 1)
    if seen:
        service.main.gets(sent)
    else:
        s.loses(service)
    s.wait(150)
    s.loses(service)
    client.main.answered(Sent(None, 0, 0, b"", b""))


@case("V2:1", "it takes 124 ms, half of 11 listeners 4 ms at most", "V2 by listener 310: 1", "code 1 at listener 310",
      "V2 of listener 310, slow listener: frame 139 at 13188, thread 310",
      "maybe a listener that is slower than others: 1 of - IListener code 1 at listener 310 node 0x9000 V2",
      "defect: a listener that is slower than others | listener on binder |")
@case("", slow=90)
@case("V2:1", slow=97)
@case("", slow=150, usual=15, quick=2)
@case("V2:1", count=10, usual=15, quick=5)
@case("", slow=140, usual=11)
@case("V2:1", slow=153, usual=11)
@case("", calls=2, slow_ones=1)
@case("", calls=3, slow_ones=1, often=70)
@case("", calls=3, slow_ones=1, slow=200, usual=11, often=140)
@case("V2:1", calls=3, slow_ones=1, slow=200, usual=11, often=150)
@case("V2:1", count=22, processes=11)
@case("W5:1", count=10, oneway=10, unfreed=1)
@case("V2:1", count=10)
@case("", count=9)
@case("", usual=11)
@case("", calls=3, slow_ones=1)
@case("V2:1", "it takes 124 ms", calls=3, slow_ones=2)
@case("", differ=True)
@case("V2:2", late=2)
@case("", calls=3, slow_ones=1, late=2)
@case("", processes=9)
@case("V2:1", "it takes 121 ms, half of 11 listeners 1 ms at most", "V2 by listener 310: 1",
      "oneway IListener code 1 at listener 310", oneway=11)
@case("", slow=95, oneway=11)
@case("", oneway=9)
@case("V2:1", "half of 10 listeners", count=20, oneway=10)
@case("", usual=12, oneway=11)
@case("V2:1", calls=3, slow_ones=2, oneway=11)
@case("", calls=3, slow_ones=1, oneway=11)
def listeners(s, service, slow=120, count=11, usual=0, calls=1, slow_ones=1, differ=False, processes=100, oneway=0,
              quick=0, often=None, unfreed=0, late=1):
    """A service tells listeners, of which the last one or two are slow, or slow now and then, and else take longer than
    usual. Each is of a process of its own, or some processes have several; and they may be of two interfaces. The last
    of them are told by oneway sends; the first of them are quick, or do not return."""
    threads = [s.process(300 + at, "listener").main for at in range(min(count, processes))]
    threads += threads[:count - len(threads)]
    for at, thread in enumerate(threads):
        thread.gives(service.main, 10 + at, node=0x9000 + at // processes)
    for call in range(calls):
        for at, thread in enumerate(threads):
            body = marked("example.IOther") if differ and at % 2 else LISTENER
            took = usual if at < count - late else slow if call < slow_ones else often or usual
            took = took if at >= quick else 0
            if at < count - oneway:
                service.main.asks(thread, 1, 10 + at, 0x9000 + at // processes, took=took, body=body)
                continue
            address = thread.gets(service.main.sends(10 + at, 1, ONE_WAY, body=body), 0x9000 + at // processes)
            s.wait(took)
            if at >= unfreed:
                thread.frees(address)


def tell(s, teller, thread, target, code, is_oneway, took, body):
    """A listener, by its handle and node, is told something by a call or by a oneway send, and works so long."""
    handle, ptr = target
    if not is_oneway:
        teller.asks(thread, code, handle, ptr, took=took, body=body)
        return
    address = thread.gets(teller.sends(handle, code, ONE_WAY, body=body), ptr)
    s.wait(took)
    thread.frees(address)


@case("", differ=each_of("teller", "code", "kind", "interface"), counts=(6, 5), usual=(1, 0), slow=(120, 0))
@case("", differ=each_of("teller", "code", "kind", "interface"), counts=(10, 10), usual=(0, 50), slow=(0, 120))
@case("V2:2", "V2 of listener 309, slow listener: ", "thread 309", differ="teller", counts=(10, 10), slow=(120, 150),
      same=True)
@case("V2:2", differ="code", counts=(10, 10), slow=(120, 150), same=True)
@case("V2:2", differ=each_of("teller", "code"), counts=(10, 10), slow=(120, 150), same=True, times=3)
@case("V2:2", differ="interface", counts=(10, 10), slow=(120, 150), times=3)
@case("V2:1", differ="code", counts=(10, 10), usual=(0, 50), slow=(120, 0), same=True, oneway=True)
@case("V2:1", differ="interface", counts=(10, 10), usual=(0, 50), slow=(120, 0), same=True)
@case("V2:2", "oneway IListener code 3 at", differ="kind", counts=(10, 10), slow=(120, 150), same=True)
@case("V2:2", differ="interface", counts=(10, 10), slow=(120, 150))
@case("V2:1", "it takes 124 ms", differ="teller", counts=each_of((10, 1), (10, 10)), slow=(120, 0), same=True, times=3)
@case("V2:1", "it takes 124 ms", differ=each_of("code", "kind"), counts=(10, 1), slow=(120, 0), same=True, times=3)
def two_groups_of_listeners(s, service, differ, counts, slow, usual=(0, 0), same=False, times=1, oneway=False):
    """A service tells listeners, and then others that differ: in who tells them, in the code, in the kind, which is
    oneway then, or in the interface. The last of both may be slow. `same`: the others are the last of these processes,
    and their objects too, but for another interface; they are told so often. `oneway`: so are all."""
    tellers = service.main, s.process(150, "teller").main
    service.looper(1)
    first = [s.process(300 + at, "listener").main for at in range(counts[0])]
    second = first[-counts[1]:] if same else [s.process(400 + at, "other").main for at in range(counts[1])]
    for group, threads in enumerate((first, second)):
        teller, code = tellers[group * (differ == "teller")], 3 + group * (differ == "code")
        body, begin = LISTENER, 10 + 100 * group
        if group and differ == "interface":
            body = marked("example.IOther")
        elif group and same:
            begin = 10 + counts[0] - counts[1]
        ptr = 0x9000 + 0x100 * (begin > 100)
        for at, thread in enumerate(threads):
            if not group or begin > 100:
                thread.gives(service.main, begin + at, node=ptr)
            if teller is tellers[1]:
                teller.is_given(service.main, begin + at, server_handle=begin + at)
        for _ in range(times if group else 1):
            for at, thread in enumerate(threads):
                took = slow[group] if at == counts[group] - 1 and slow[group] else usual[group]
                tell(s, teller, thread, (begin + at, ptr), code, oneway or group and differ == "kind", took, body)


@case("V3:1", "(20 times with the same data, once in 65 ms)", "V3 by client 200: 1", "IPackages code 7 to service 100",
      "V3 of client 200, slow again: frame 29 at 2632, thread 200",
      "defect: the same request over and over | client on binder |")
@case("", count=19)
@case("", every=45)
@case("", other=each_of(7, 0))
@case("", pause=70)
@case("V3:1", pause=50)
@case("", has_data=False)
@case("", seen=False)
@case("", opens=True)
@case("V3:1", "(20 times with the same data", among=True)
@case("", oneway=True)
def asks_again(s, service, client, count=20, every=60, other=None, pause=0, has_data=True, seen=True, opens=False,
               among=False, oneway=False):
    """A client asks for the same, as many milliseconds apart; one call may have other data of the same size, or come
    later. Or it opens something each time, or asks for longer data now and then among the others; or these are oneway
    sends. Another client asks so once, and both do something else."""
    service.looper(1)
    once = s.process(300, "once")
    once.main.gives(service.main, 5)
    once.main.is_given(service.main, 6, node=0x9100)
    once.main.asks(service.main, 7, body=PACKAGES + bytes(4))
    client.main.asks(service.main, 8, body=PACKAGES + bytes(4))
    for at in range(count):
        body = (PACKAGES + bytes([at == other, 0, 0, 0])) * has_data
        if oneway:
            service.main.frees(service.main.gets(client.main.sends(0, 7, ONE_WAY, body=body)))
            s.wait(every - 1)
            continue
        if among and at % 7 == 3:
            client.main.asks(service.main, 7, body=PACKAGES + bytes(8))
        if opens:
            client.main.is_given(service.main, 10 + at, 7, take=False, body=body)
            s.wait(every - 1)
            continue
        address = service.main.gets(client.main.sends(0, 7, body=body, seen=seen), seen=seen)
        client.main.answered(service.main.replies(address))
        s.wait(every - 1 + (pause if at == 9 else 0))
