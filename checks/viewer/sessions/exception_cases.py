"""More sessions as in cases.py: calls that end with an exception from some call on."""

from checks.kit.captures import BR_FAILED_REPLY, MAX_32, u32
from checks.viewer.sessions.cases import case, each_of
from checks.viewer.sessions.session import ONE_WAY, STATUS_CODE

SPECIFIC, STATE, NONE_OF_THESE = -8, -5, -10


def answers(client, server, number, code=7, handle=0, ptr=0, size=8, flags=0):
    """One call, which is answered with data that begin with this number."""
    address = server.main.gets(client.main.sends(handle, code), ptr)
    data = (u32(number & MAX_32) + bytes(8))[:size]
    client.main.answered(server.main.replies(address, data, flags=flags))


@case("R4:1", "EX_SERVICE_SPECIFIC (-8), all 10 since 00:00:00.032, after 5 other answers", "R4 by service 100: 1",
      "R4 of client 200, exceptions since: frame 32 at 2764, thread 200",
      "maybe calls that end with an exception: 1 of - code 7 to service 100 node 0x0 R4",
      "defect: calls that end with an exception | service on binder | code 7 to service")
@case("R4:1", "all 10 since the call at 2764", has_side=False)
@case("", numbers=[0] * 5 + [SPECIFIC] * 9)
@case("R4:1", "after 3 other answers", numbers=[0] * 3 + [SPECIFIC] * 10)
@case("", numbers=[0] * 2 + [SPECIFIC] * 11)
@case("", numbers=[0] * 3 + [SPECIFIC] + [0] * 3 + [SPECIFIC] * 10)
@case("", numbers=[0] * 5 + [SPECIFIC] * 10 + [0])
@case("", numbers=[0] * 5 + [SPECIFIC] * 10 + [STATE])
@case("", numbers=[0] * 5 + [STATE] + [SPECIFIC] * 10)
@case("R4:1", "EX_ILLEGAL_STATE (-5), all 10", numbers=[0] * 5 + [STATE] * 10)
@case("", numbers=[0] * 5 + [NONE_OF_THESE] * 10)
@case("R4:1", "after 3 other answers", numbers=[NONE_OF_THESE] * 3 + [SPECIFIC] * 10)
@case("", size=7)
@case("R3:10", size=4, flags=STATUS_CODE)
@case("R4:1", "after 5 other answers", others=2)
@case("R4:1", "after 5 other answers", others=1, early=5)
@case("E5:1 R4:1", "all 10 since", fails=True)
@case("", numbers=[0] * 5 + [SPECIFIC] * 6, oneway=True)
def begins_to_throw(s, service, client, numbers=(*[0] * 5, *[SPECIFIC] * 10), size=8, flags=0, others=0, early=0,
                    fails=False, oneway=False):
    """Calls of one or more clients are answered well, and from some call on with an exception; or the first so many
    are of another client. Meanwhile one fails, or oneway sends of the same code come, too."""
    clients = [client, *(s.process(201 + at, "client") for at in range(others))]
    for at, number in enumerate(numbers):
        is_status = flags if number else 0
        by = clients[at < early] if early else clients[at % len(clients)]
        answers(by, service, number, size=size, flags=is_status)
        if oneway:
            service.main.frees(service.main.gets(client.main.sends(0, 7, ONE_WAY)))
        if fails and at == 8:
            client.main.sends(0, 7, told=BR_FAILED_REPLY)


@case("R4:1", "to server 300 node 0x9000", other=each_of("code", "object", "process"))
@case("", other=each_of("code", "object", "process"), both=6)
@case("R4:2", "all 10 since", other=each_of("code", "object"), both=10)
@case("R4:2", "R4 by server 300: 1", "R4 by third 310: 1", "all 10 since", other="process", both=10)
def others_throw_meanwhile(s, manager, client, server, other, both=0):
    """Calls of one method end with an exception from some call on. Those of another code, to another object, or to an
    object of another process at the same address, did so before, and end well; or so many of both do so from then
    on."""
    third = s.process(310, "third")
    ptr = 0x9100 if other == "object" else 0x9000
    by = third if other == "process" else server
    client.main.is_passed(by.main, manager.main, 9, 9, node=ptr)
    path = {"handle": 1, "ptr": 0x9000}
    beside = {**path, "code": 8} if other == "code" else {"handle": 9, "ptr": ptr}
    for at, number in enumerate([0] * 7 + [SPECIFIC] * (both or 10)):
        answers(client, by, number if both else 0 if at else SPECIFIC, **beside)
        answers(client, server, number, **path)
