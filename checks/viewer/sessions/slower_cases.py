"""More sessions as in cases.py: methods that get slow."""

from checks.viewer.sessions.cases import case, each_of

# Calls, one after the other: quick ones, slow ones, and those between.
QUICK, SLOW, MIDDLE = ".", "S", "m"


@case("V5:1", "since then 3 calls took 601 ms or more, the first 3 2 ms or less", "V5 by service 100: 1",
      "V5 of service 100, slow slower: frame 57 at 4648, thread 100",
      "maybe a method that got slow: 1 of - code 7 at service 100 node 0x0 V5",
      "defect: a method that got slow | service on binder | code 7 at service")
@case("", calls=8 * QUICK + 3 * SLOW)
@case("", calls=10 * QUICK + 2 * SLOW, took=1200)
@case("", took=490)
@case("", calls=36 * QUICK + 12 * SLOW, took=90, longer=1)
@case("V5:1", calls=27 * QUICK + 9 * SLOW, took=150)
@case("", usual=60)
@case("V5:1", usual=58)
@case("V5:1", "since then 4 calls took", calls=11 * QUICK + "S.SSS")
@case("", calls=each_of(12 * QUICK + "S.SS", SLOW + 12 * QUICK + 3 * SLOW, MIDDLE + 12 * QUICK + 3 * SLOW))
@case("V5:1", "since then 3 calls took 601 ms or more", longer=50)
@case("V5:1", "since then 12 calls took", calls=4 * QUICK + 12 * SLOW)
@case("", lost=True)
def gets_slow(s, service, client, calls=9 * QUICK + 3 * SLOW, took=600, longer=0, usual=1, lost=False):
    """A client calls a method of a service, of which each call takes as usual or long, or so much longer than the one
    before."""
    s.loses(service, lost)
    times = {QUICK: usual, SLOW: took, MIDDLE: 90}
    for at, one in enumerate(calls):
        client.main.asks(service.main, 7, took=times[one] + longer * calls[:at].count(SLOW))


@case("V5:1", "code 7 at service 100 node 0x100", differ=each_of("code", "object", "process"))
@case("V5:2", "code 7 at service 100", "code 8 at service 100 node 0x100 (since then 3 calls", differ="code", both=True)
@case("V5:2", "node 0x100 (since", "code 7 at service 100 node 0x200 (since then 3 calls", differ="object", both=True)
@case("V5:2", "V5 by service 100: 1", "V5 by third 300: 1", "(since then 3 calls", differ="process", both=True)
def one_of_two_gets_slow(s, service, client, differ, both=False):
    """A method of an object gets slow, and another method of it, that of another object, or of an object of another
    process at the same address, is called by turns with it and stays quick, but once; or gets slow too."""
    third = s.process(300, "third", enters=True)
    third.main.gives(service.main, 9, node=0x100)
    client.main.is_given(service.main, 1)
    client.main.is_given(service.main, 2)
    client.main.is_given(service.main, 3, server_handle=9)
    other = {"code": (service.main, 8, 1, 0x100), "object": (service.main, 7, 2, 0x200),
             "process": (third.main, 7, 3, 0x100)}[differ]
    for at, one in enumerate(12 * QUICK + 3 * SLOW):
        client.main.asks(service.main, 7, 1, 0x100, took=600 if one == SLOW else 0)
        client.main.asks(*other, took=600 if both and one == SLOW or not both and at == 5 else 0)


@case("V5:1", "V5 by third 300: 1", "V5 of third 300, slow slower: frame 134 at 11184, thread 300")
@case("V5:2", "V5 by third 300: 1", "V5 by another 400: 1", beside=True)
@case("V5:1", "V5 by service 100: 1", itself=True)
def waits_for_what_gets_slow(s, service, client, beside=False, itself=False):
    """A method of a service calls a third process, of which the method gets slow; beside that another one does. Or the
    service takes longer itself."""
    third, another = s.process(300, "third"), s.process(400, "another")
    third.main.gives(service.main, 8)
    client.main.is_passed(another.main, service.main, 1, 9)
    for one in 9 * QUICK + 3 * SLOW:
        took = 600 if one == SLOW else 0
        address = service.main.gets(client.main.sends(0, 7))
        service.main.asks(third.main, 12, 8, 0x9800, took=0 if itself else took)
        s.wait(took if itself else 0)
        client.main.answered(service.main.replies(address))
        if beside:
            client.main.asks(another.main, 13, 1, 0x9900, took=took)
