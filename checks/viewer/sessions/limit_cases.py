"""Sessions that end with the driver's book `stats`: how many threads a process may have, and its oneway space."""

from checks.kit.captures import BC_TRANSACTION, BR_FAILED_REPLY, record
from checks.viewer.sessions.cases import case, embrace_through_a_pool
from checks.viewer.sessions.pool_cases import calls_back_to_a_full_pool
from checks.viewer.sessions.session import ONE_WAY, Sent


def with_driver(s, driver):
    s.lines[0] = s.lines[0].replace("\n", f" drivers=10:1:{driver}\n")


def counts(s, threads, free=None, driver="C", of=100):
    """The book of the service at the end. `threads` is how many the driver asked for that have not come, how many have
    come, and how many it asks for at most; `free` is how much of its oneway space is free."""
    oneway = {"C": "free async space", "Rust": "free oneway space:"}[driver]
    told = "  outstanding transactions: 0\n" if driver == "Rust" else ""
    text = f"binder stats:\nBC_REPLY: 1\nproc {of}\ncontext binder\n  threads: 2\n"
    text += f"  requested threads: {threads}\n{told}"
    text += f"  {oneway} {free}\n" if free is not None else ""
    s.copies["end.stats"] = text
    with_driver(s, driver)
    s.tell(f"books end stats from={s.sequence} after={s.sequence} bytes={len(text)}")


@case("C6:1 C7:1 A1:2", "nothing since; of at most 15 threads that the driver asks it for, 15 have come",
      threads="0+15/15")
@case("C6:1 C7:1 A1:2", "that the driver asks it for, 1 has come, and 1 has not", threads="1+1/15")
@case("C6:1 C7:1 A1:2", "; the driver asks it for no threads", threads="0+0/0")
@case("C6:1 C7:1 A1:2", "of at most 1 thread that the driver asks it for, 0 have come", threads="0+0/1", driver="Rust")
@case("U6:1 C7:1 A1:2", "of at most 15 threads that the driver asks it for, 2 have come", threads="0+2/15", wait=20)
def pool_with_a_limit(s, service, client, threads, driver="C", wait=1100):
    """The only looper of a service never answers, and another call waits for it."""
    client.main.asks(service.main, 2)
    service.main.gets(client.main.sends(0, 10))
    s.process(300, "other").main.sends(0, 1)
    s.wait(wait)
    counts(s, threads, driver=driver)


@case("C11:2 C7:1 A1:4", "code 2 to client 200 node 0x9700 (open for ≥ 1.1 s; 2 wait for it; client 200 got it at ",
      "of service 100, code 2 to client 200 node 0x9700; the driver asks it for no threads)",
      "of client 200, code 3 to service 100 node 0x0; the driver asks it for no threads)")
def ring_through_a_pool_with_a_limit(s):
    """The only looper of a service waits for a client that calls back."""
    calls_back_to_a_full_pool(s)
    counts(s, "0+0/0")


@case("C3:2 C6:1 C7:1 A1:4", "not got: its only looper is in code 3 since 1.1 s)")
def embrace_through_a_pool_with_a_limit(s):
    """A call that nobody got is in a ring of mains."""
    embrace_through_a_pool(s)
    counts(s, "0+0/0", of=200)


@case("E5:1 W5:1", "held at service 100: 1 send from client 200; most by code 1, the largest has 8 bytes; at the end 16"
      " bytes of its oneway space were free", free=16)
@case("E5:1 W5:1", "at the end 1 byte of its oneway space was free", free=1, driver="Rust")
@case("E5:1 W5:1", "waited or were held at service 100: 1 send from client 200", free=None)
def oneway_space_is_full(s, service, client, free, driver="C"):
    """A oneway send is refused while the service holds another one."""
    service.main.gets(client.main.sends(0, 1, ONE_WAY, body=b"data"))
    client.main.writes(Sent(client.main, 1, ONE_WAY, b"", b"").record(BC_TRANSACTION, 0))
    client.main.reads(record(BR_FAILED_REPLY))
    counts(s, "0+0/15", free, driver)


NO_LOOPER = "not got: none of its threads has said that it takes calls, and the driver in Rust hands none to others"


@case("C5:1 W3:1", NO_LOOPER, "C5 by other 300: 1", driver="Rust")
@case("C5:1 W3:1", "; not got)", driver="C")
@case("C5:1 W3:1", "; not got)", driver="Rust", says="other")
@case("U6:2", driver="Rust", wait=20)
@case("C5:1 W3:1", "; not got)", driver="Rust", met="in-mid-life")
@case("C5:1 W3:1", "; not got)", driver="Rust", loses=True)
def threads_that_say_nothing(s, driver, says=None, met="from-start", wait=1100, loses=False):
    """No thread of a service says that it takes calls, or one says so that does not read, and a call and a oneway send
    wait."""
    manager, service = s.two()
    with_driver(s, driver)
    server = s.process(300, "other", met)
    server.main.gives(manager.main, 3, node=0x9000)
    if says:
        server.looper(1)
    service.main.is_given(manager.main, 1, server_handle=3)
    s.loses(server, loses)
    service.main.sends(1, 1)
    service.thread(1).sends(1, 2, ONE_WAY)
    s.wait(wait)
