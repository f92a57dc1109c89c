"""The kinds of faults that services, apps and HALs of Android were given in sessions of a real kernel, each as a small
session, with what the page says of it. Of most the verdict is real; of a fault that shows once, or a few times, and of
what may be a cache, it is maybe. Where a process lets go of handles only by collecting garbage, it did so before the
end."""

from checks.kit.captures import BC_RELEASE, BR_FAILED_REPLY, ENTER, each
from checks.viewer.sessions import cases, death_cases, garbage_cases, giver_cases, kept_cases, state_cases
from checks.viewer.sessions.cases import case, with_server
from checks.viewer.sessions.kept_cases import Quarters, calls_back

REAL, MAYBE = "groups that are real: 1", ("groups that are real: 0", "groups that are maybe: 1")

# ---- handles


@case("H10:12", REAL)
def app_keeps_each_cursor(s):
    garbage_cases.garbage_waits(s, command="zygote64", then="com.example.gallery", collected=3)


@case("H5:12", *MAYBE)
def app_keeps_each_cursor_and_collects_nothing(s):
    garbage_cases.garbage_waits(s, command="zygote64", then="com.example.gallery")


@case("H14:12", REAL)
def app_keeps_one_of_four(s):
    garbage_cases.beside_a_collector(s, others=9, last=9, command="zygote64")


@case("H10:12", REAL)
def native_client_keeps_one_of_two(s):
    kept_cases.more_and_more(s, gains=(3, 3, 3, 3), passing=3, uses=False)


@case("H8:3", *MAYBE)
def native_client_keeps_one_of_forty(s):
    kept_cases.one_in_ten(s, let_go=117)


@case("H5:5", *MAYBE)
def native_client_keeps_a_few(s):
    kept_cases.sessions_kept(s, kept=5, let_go=0)


@case("H10:12", REAL)
def service_keeps_callbacks(s):
    giver_cases.giver_forgets(s, others=0, uses=False)


@case("H10:12", REAL)
def system_server_keeps_listeners(s):
    """It was met in mid-life, and lets go of what others take back."""
    with_callbacks(s, keeps=(3, 3, 3, 3), others=0, met="in-mid-life")


@case("H14:10", REAL)
def system_server_loses_a_release(s):
    """On an error it does not let go of what came with the call."""
    with_callbacks(s, keeps=(3, 3, 2, 2), others=4)


def with_callbacks(s, keeps, others, met="from-start"):
    """In each part of its time system_server keeps some objects that an app gives, and lets go of others later."""
    manager, app, _ = with_server(s)
    server = s.process(1000, "system_server", met)
    server.is_called("system_server")
    app.main.is_passed(server.main, manager.main, 5, 4, node=0xA000)
    quarters, at = Quarters(s, server, manager), 20
    for part, kept in enumerate(keeps):
        quarters.lasts(part + 0.2)
        for handle in range(at, at + kept + others):
            calls_back(app.main, server.main, handle, via=5, ptr=0xA000)
        quarters.lasts(part + 0.8)
        server.main.writes(*each(BC_RELEASE, *range(at + kept, at + kept + others)) if others else [ENTER])
        at += kept + others
    quarters.lasts(4)
    calls_back(app.main, server.main, 9, code=6, via=5, ptr=0xA000)
    server.main.writes(*each(BC_RELEASE, 9))


@case("H13:12", REAL)
def app_forgets_to_unregister(s):
    giver_cases.giver_forgets(s)


@case("H13:28", REAL)
def app_registers_anew_and_forgets(s):
    giver_cases.giver_forgets(s, gains=(7, 7, 7, 7), others=14)


@case("H15:12", REAL)
def app_keeps_weak_references(s):
    kept_cases.each_taken_twice(s)


@case("H2:1", REAL)
def references_are_let_go_twice(s):
    state_cases.let_go_too_often(s, again=12)


# ---- buffers and oneway sends


@case("U2:3", REAL)
def replies_with_an_error_are_kept(s):
    cases.small_replies(s)


@case("U2:1", REAL)
def replies_are_kept(s):
    cases.buffers(s, kept=1, good=3, wait=1000, held=90)


@case("W2:3 W9:1", REAL)
def oneway_buffer_is_never_freed(s):
    cases.blocked_object(s)


@case("W2:3 W10:1", REAL)
def oneway_handler_never_returns(s):
    cases.blocked_object(s, good=3, goes_on=False)


@case("E5:1 U6:4", REAL)
def oneway_flood(s):
    cases.oneway_space_full(s)


@case("E5:1 W11:3 W3:1", REAL)
def sends_to_a_frozen_app(s):
    cases.full_at_a_frozen(s)


# ---- calls


@case("C4:1 A1:2", *MAYBE)
def service_never_answers(s):
    cases.never_answered(s, wait=200)


@case("C4:1 A1:2", *MAYBE)
def reply_is_lost_on_an_error(s, service, client):
    client.main.asks(service.main, 7, times=2)
    service.main.gets(client.main.sends(0, 7))
    s.wait(200)


@case("C3:2 A1:4", "groups that are real: 2")
def two_single_loopers_call_each_other(s):
    cases.embrace_of_mains(s, mains=True)


@case("C8:2 A1:4", "groups that are real: 2")
def two_locks(s):
    cases.ring_of_locks(s)


@case("C6:1 C7:2 A1:2", REAL)
def pool_hangs(s):
    cases.others_queue(s, wait=1100)


@case("U2:1 A1:2", REAL)
def callback_blocks_a_thread(s):
    cases.slow_answers(s, good=3, took=1, wait=150)


@case("U2:1", REAL)
def only_looper_reads_nothing_more(s, service, client):
    client.main.asks(service.main, times=3)
    client.main.sends(0, 1)
    s.wait(1100)


@case("E5:1", REAL)
def call_is_too_large(s):
    cases.failed_call(s, kind=BR_FAILED_REPLY)


@case("E6:1", REAL)
def reply_is_too_large(s):
    cases.failed_call(s, kind=BR_FAILED_REPLY, confirmed=True)


@case("E6:1", REAL, "E6 by client 200: 1")
def caller_takes_no_descriptors(s):
    cases.reply_with_a_descriptor(s)


# ---- deaths


@case("E11:10 E3:1", REAL)
def app_calls_the_dead(s):
    cases.dead_reply_before(s, wait=1100, sends=10)


@case("D8:3 H3:3", REAL)
def deaths_are_not_acknowledged(s):
    death_cases.deaths_not_acknowledged(s)


@case("D10:1", REAL)
def deaths_are_cleared_with_another_cookie(s):
    state_cases.clear_with_another_cookie(s)
