"""More sessions as in cases.py: services that end while they serve a call."""

from checks.kit.captures import BR_DEAD_REPLY, ENTER, record
from checks.kit.tokens import marked
from checks.viewer.sessions.cases import case
from checks.viewer.sessions.session import DONE

ONE = marked("a.b.IOne")


@case("A1:4 E3:2", times=2)
@case("A1:6 E9:3", "maybe calls in which the server ended: 3 of 3 IOne code 7 to decoder",
      " E9 (decoder ended so 3 times)",
      "defect: calls in which the server ended (BR_DEAD_REPLY) | decoder on binder | a.b.IOne code 7 to decoder",
      "E9 by decoder 300: 1", "E9 by decoder 301: 1", times=3, serves=(110,))
@case("A1:6 E10:3", "real calls in which the server ended: 3 of 3 IOne code 7 to decoder",
      " E10 (decoder ended so 3 times)",
      "defect: calls in which the server ended (BR_DEAD_REPLY) | decoder on binder | a.b.IOne code 7 to decoder",
      "E10 by decoder 300: 1", "E10 by decoder 301: 1", times=3)
@case("A1:6 E10:3", times=3, serves=(80,))
@case("A1:8 E9:4", times=4, serves=(0, 150))
@case("A1:8 E10:3 E9:1", times=4, serves=(0, 0, 0, 150))
@case("A1:6 E3:3", times=3, names=("decoder", "decoder", "coder"))
@case("A1:6 E3:3", times=3, codes=(7, 7, 8))
@case("A1:8 E10:3 E3:1", times=4, codes=(7, 7, 8, 7))
@case("A1:6 E3:3", times=3, last=900)
@case("A1:6 E10:3", times=3, last=1100)
@case("A1:6 E3:3", times=3, before=50)
@case("A1:6 E9:3", times=3, before=150)
@case("A1:6 E10:3", times=3, after=1)
@case("A1:6 E3:3", times=3, left=150)
@case("A1:6 E10:3", times=3, left=50)
@case("A1:12 E3:6", times=3, callers=2)
@case("E3:3", times=3, got=False)
@case("A1:6 E3:3", times=3, lost=True)
@case("A1:6 E3:3", times=3, enters=False)
def ends_while_it_serves(s, service, client, times, names=("decoder",), codes=(7,), last=2000, before=None, after=None,
                         left=0, callers=1, got=True, lost=False, enters=True, serves=(0,)):
    """A service ends while it serves a call, is started again, and so on. `last`: the time from its last end to that of
    the recording; `before`: another process ends so much earlier each time; `after`: another one ends after it;
    `serves`: it serves the call so long before; `left`: the call fails so much earlier than it ends; `callers`: so many
    calls are served then; not `got`: it has not read the call; `lost`: a frame of the last one is missing; not
    `enters`: it has not said that it takes calls, so some of what it got may have been sent before the capture."""
    threads = [client.main, client.thread(1)][:callers]
    for at in range(times):
        decoder = s.process(300 + at, names[at % len(names)])
        if enters:
            decoder.main.writes(ENTER)
        decoder.main.gives(service.main, 3 + at)
        client.main.is_given(service.main, 1 + at, server_handle=3 + at)
        client.main.asks(decoder.main, 1, 1 + at, 0x9000 + 0x100 * (3 + at), body=ONE)
        other = s.process(400 + at, "other")
        other.main.asks(service.main)
        for number, one in enumerate(threads):
            sent = one.sends(1 + at, codes[at % len(codes)], body=ONE)
            if got:
                (decoder.looper(1) if number else decoder.main).gets(sent, 0x9000 + 0x100 * (3 + at))
        s.wait(serves[at % len(serves)])
        if lost and at == times - 1:
            s.loses(decoder)
        if before is not None:
            other.ends()
            s.wait(before)
        if not left:
            decoder.ends()
        if after is not None:
            s.wait(after)
            other.ends()
        for one in threads:
            one.reads(*([DONE] if got else []), record(BR_DEAD_REPLY))
        if left:
            s.wait(left)
            decoder.ends()
        s.wait(500)
    s.wait(last - 500 - callers)
