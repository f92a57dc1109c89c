"""More sessions as in cases.py: handles of processes that let go of them only when they collect garbage, and what a
process takes when it starts."""

from checks.kit.captures import BC_RELEASE, each
from checks.viewer.sessions.cases import case, each_of
from checks.viewer.sessions.kept_cases import SERVER, Quarters

# Command lines of what the zygote forked, each up to when it has its name; and of an app, which the system calls
# `com.example.app`.
OF_ZYGOTE = each_of("zygote", "zygote64", "usap32", "usap64", "<pre-initialized>", "system_server", "webview_zygote")
MAY_BE = "that are not used may be garbage: they came after the last collection"


@case("H5:12", f"6 held at half of its time, 12 at the end; 12 of 12 {MAY_BE}", command="zygote64")
@case("H5:12", command=OF_ZYGOTE, gains=(3, 3, 3, 3))
@case("H10:12", command="/system/bin/zygoted")
@case("H10:12 H5:20", command="/system/bin/zygoted", beside=20)
@case("H10:12", command="/system/bin/app\\x00zygote64")
@case("H5:12", command="com.example.app", name="com.example.app")
@case("H5:12", command="com.example.app.main", name="xample.app.main")
@case("H10:12", command="com.example.app.main", name="com.example.app")
@case("H10:12", command="com.example.app\\x00main", name="com.example.app")
@case("H10:12", command="com example.app", name="com example.app")
@case("H10:12", command="example", name="example")
@case("H10:12", command="./com.example", name="com.example")
@case("H5:12", command="zygote64", then="/data/app")
@case("H10:12", command="zygote64", collected=3)
@case("H5:12", f"3 of 12 {MAY_BE}", command="zygote64", collected=2)
@case("H10:12", command="zygote64", collected=2, gains=(4, 3, 3, 2))
@case("H10:20", command="zygote64", collected=2, gains=(4, 3, 4, 9))
@case("H5:22", command="zygote64", collected=2, gains=(4, 3, 4, 11))
@case("H5:9", "4 held at half of its time, 9 at the end)", command="zygote64", gains=(2, 2, 3, 2))
@case("H10:12", command="zygote64", collected=3, taken=True)
@case("H5:12", command="zygote64", collected=3, taken=False)
def garbage_waits(s, manager, server, command, name="client", then=None, gains=(3, 3, 3, 3), collected=None, taken=True,
                  beside=0):
    """In each part of its time a client gets handles and uses none; in one part it lets go of another one, which it had
    taken or not. `beside`: at first it got so many in another way."""
    client = s.process(500, name)
    client.is_called(command)
    client.main.is_given(manager.main, 1, server_handle=3)
    client.main.is_given(server.main, 9, 6, take=taken, **SERVER)
    if then:
        client.is_called(then)
    quarters, at = Quarters(s, client, manager), 20
    for handle in range(200, 200 + beside):
        client.main.is_given(server.main, handle, 7, **SERVER)
    for part, gained in enumerate(gains):
        quarters.lasts(part + 0.2)
        for handle in range(at, at + gained):
            client.main.is_given(server.main, handle, **SERVER)
        at += gained
        if part == collected and taken:
            client.main.writes(*each(BC_RELEASE, 9))
    quarters.lasts(4)
    client.main.asks(manager.main)


@case("H14:12", "(6 held at half of its time, 12 at the end)",
      "real references kept: 12 of 28 given by replies to code 5 of server 300 node 0x9000 H14")
@case("H14:10", keeps=(3, 3, 2, 2))
@case("H9:9", keeps=(3, 2, 2, 2))
@case("H5:4 H9:9", keeps=(3, 2, 2, 2), besides=4)
@case("H9:12", last=3)
@case("H9:3 H14:12", keeps=(3, 3, 6, 3), last=3)
@case("H9:12", uses=True)
@case("H5:16", keeps=(4, 4, 4, 4), others=0, last=4, uses=True)
@case("H10:16", keeps=(4, 4, 4, 4), others=0, last=4, command="zygote64")
@case("H14:12", collects=False, command="zygote64")
@case("", collects=False)
@case("H14:12", keeps=(5, 3, 2, 2), collects=False, command="zygote64")
@case("", keeps=each_of((5, 4, 2, 1), (6, 6, 0, 0)), collects=False, command="zygote64")
@case("H14:12", "(16 others were let go of, each within 3 ms)", keeps=(5, 3, 4, 0), at_once=True)
@case("H8:12", keeps=(5, 4, 3, 0), at_once=True)
@case("M2:12", lost=True)
@case("H5:39 H14:10", keeps=(5, 0, 5, 39), last=0, uses_last=True)
@case("H5:51", keeps=(5, 0, 5, 41), last=0, uses_last=True)
def beside_a_collector(s, manager, client, server, keeps=(3, 3, 3, 3), others=4, last=4, uses=False, uses_last=False,
                       collects=True, at_once=False, lost=False, besides=0, command="/system/bin/client"):
    """In each part of its time a client gets handles that it keeps, and then others, of which it lets go at the end of
    the part, or only in the end, or at once. It uses what it keeps, or only what came in the last part, or nothing.
    `besides`: it keeps so many that came another way."""
    client.is_called(command)
    for handle in range(90, 90 + besides):
        client.main.is_given(server.main, handle, 6, **SERVER)
    s.loses(client, lost)
    quarters, held, garbage, at = Quarters(s, client, manager), [], [], 20
    for part, kept in enumerate(keeps):
        quarters.lasts(part + 0.2)
        for handle in range(at, at + kept):
            client.main.is_given(server.main, handle, **SERVER)
            held.append(handle)
        at += kept
        for _ in range(others if part < 3 else last):
            client.main.is_given(server.main, at, **SERVER)
            if at_once:
                client.main.writes(*each(BC_RELEASE, at))
            else:
                garbage.append(at)
            at += 1
        quarters.lasts(part + 0.8)
        if collects or part == 3:
            client.main.writes(*each(BC_RELEASE, *garbage))
            garbage = []
        for handle in held if uses else held[-kept:] if uses_last and part == 3 else ():
            client.main.asks(server.main, 8, handle, 0x100 * handle)
    quarters.lasts(4)
    client.main.asks(manager.main)


# ---- what a process takes when it starts


STARTED = "all came when its process started, and none since)"


@case("H6:16", STARTED)
@case("H5:14", until=2.2, lasts=12)
@case("H6:16", STARTED, until=1.8, lasts=12)
@case("H6:16", STARTED, until=5.8, lasts=24)
@case("H5:14", until=6.2, lasts=24)
@case("H5:14", met="in-mid-life")
@case("H5:14", server_met="in-mid-life")
@case("H5:15", more=13)
@case("H5:14", has_side=False)
def binds_at_start(s, until=5, lasts=26, met="from-start", server_met="from-start", more=0):
    """A client gets handles from a server in its first seconds, and goes on with other work; later it may get one
    more."""
    manager = s.process(100, "service", enters=True)
    server = s.process(300, "server", server_met)
    server.main.gives(manager.main, 3, node=0x9000)
    client = s.process(200, "client", met)
    client.main.is_given(manager.main, 1, server_handle=3)
    begin = s.time - 4_000_000
    for handle in range(20, 33):
        client.main.is_given(server.main, handle, **SERVER)
    for second in sorted({*range(1, lasts + 1), until}):
        s.wait(second * 1000 - (s.time - begin) / 1_000_000)
        if second in (until, more):
            client.main.is_given(server.main, 33 + (second == more), **SERVER)
        client.main.asks(manager.main)
