"""More sessions as in cases.py: calls that are answered with a status from some call on."""

from checks.kit.captures import BC_RELEASE, MAX_32, each, u32
from checks.viewer.sessions.cases import case, each_of
from checks.viewer.sessions.session import STATUS_CODE

WRONG, OTHER = -74 & MAX_32, -38 & MAX_32


def answers(client, server, status, code=7, handle=0, ptr=0):
    """One call, which is answered with this status; None: with none."""
    address = server.main.gets(client.main.sends(handle, code), ptr)
    reply = {} if status is None else {"body": u32(status), "flags": STATUS_CODE}
    client.main.answered(server.main.replies(address, **reply))


@case("R3:10", "code 7 to service 100 node 0x0: -74 EBADMSG (all 10 since 00:00:00.032)", "R3 by service 100: 10",
      "maybe calls answered with an error: 10 of 15 code 7 to service",
      "defect: calls answered with an error | service on binder | code 7 to service: -74 EBADMSG")
@case("R3:10", "-74 EBADMSG (all 10 since the call at 2564)", has_side=False)
@case("R2:9", statuses=[None] * 5 + [WRONG] * 9)
@case("R3:10", statuses=[None] * 3 + [WRONG] * 10)
@case("R1:10", statuses=[None] * 2 + [WRONG] * 10)
@case("R2:11", statuses=[None] * 3 + [WRONG] + [None] * 3 + [WRONG] * 10)
@case("R2:10", statuses=[None] * 5 + [WRONG] * 10 + [None])
@case("R2:11", statuses=each_of([None] * 5 + [WRONG] * 10 + [OTHER], [None] * 5 + [OTHER] + [WRONG] * 10))
@case("R3:10", statuses=[0] * 5 + [WRONG] * 10)
@case("R2:10", statuses=[0] * 5 + [WRONG] * 10 + [0])
@case("L1:1 R3:10", "(all 10 since 00:00:00.032)", late=True)
def begins_to_answer_with_a_status(s, service, client, statuses=(*[None] * 5, *[WRONG] * 10), late=False):
    """Calls are answered well, and from some call on with a status. `late`: one more after the end of the recording."""
    for status in statuses:
        answers(client, service, status)
    if late:
        s.stops()
        answers(client, service, WRONG)


@case("R3:10 R2:1", other=each_of("code", "object", "way", "process", "node"))
@case("R2:12", other=each_of("code", "object", "way", "process", "node"), both=6)
def other_answers_meanwhile(s, manager, client, server, other, both=0):
    """Calls of one path are answered with a status from some call on. Those of another code, to another object, to
    objects that came another way, or to an object of another process at the same address, got one before, and good
    answers up to the end; or of both kinds `both` get one from then on."""
    client.main.is_given(server.main, 2, via=1, ptr=0x9000)
    client.main.is_given(server.main, 3, code=6, via=1, ptr=0x9000)
    third, ptr = s.process(310, "third") if other == "process" else server, 0x9000 if other == "process" else 0x9100
    client.main.is_passed(third.main, manager.main, 9, 9, node=ptr)
    path = {"handle": 2, "ptr": 0x200} if other == "way" else {"handle": 1, "ptr": 0x9000}
    beside = {"code": {**path, "code": 8}, "object": {"handle": 0, "ptr": 0}, "way": {"handle": 3, "ptr": 0x300}}.get(
        other, {"handle": 9, "ptr": ptr})
    of_other = manager if other == "object" else third
    for at, status in enumerate([None] * 7 + [WRONG] * (both or 10)):
        answers(client, of_other, status if both else None if at else WRONG, **beside)
        answers(client, server, status, **path)


@case("R3:10", "(all 10 since", "code 1 to objects given by replies to code 5 of server 300 node 0x9000: -74 EBADMSG")
def status_of_many_objects_since(s, client, server):
    """Each of fifteen objects that came the same way gets one call; the last ten answer with a status."""
    for handle, status in enumerate([None] * 5 + [WRONG] * 10, 2):
        client.main.is_given(server.main, handle, via=1, ptr=0x9000)
        answers(client, server, status, 1, handle, 0x100 * handle)
        client.main.writes(*each(BC_RELEASE, handle))
