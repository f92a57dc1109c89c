"""Captures for `checks/run tables_again`, each of a rule of pairs that made-up traffic hardly ever needs."""

from typing import Callable

from checks.kit.captures import (BC_FREE_BUFFER, BC_REPLY, BC_TRANSACTION, BR_REPLY, BR_TRANSACTION,
                                 BR_TRANSACTION_COMPLETE, ENTER, HEADER_2, frame, record, transaction, u64)

NODE = 0x10


def of_frames(*frames: tuple[int, int, int, bytes]) -> bytes:
    """The capture of these frames of one record each: of each the direction, the process and the thread."""
    return HEADER_2 + b"".join(frame(direction, sequence, process, thread, [only])
                               for sequence, (direction, process, thread, only) in enumerate(frames, 1))


def guess_of_a_sure_send() -> bytes:
    """The first call shows which node handle 1 of process 100 means. So on the second walk it is found, of two calls of
    this process that are alike, that the one by handle 1 came by the last delivery. A delivery with another sender_pid
    took it by guess before that. So only a third walk finds the call of process 300 for that delivery."""
    return of_frames(
        (1, 200, 201, ENTER), (1, 200, 202, ENTER),
        (1, 100, 101, transaction(BC_TRANSACTION, 1, 9)), (2, 200, 201, transaction(BR_TRANSACTION, NODE, 9)),
        (1, 200, 201, transaction(BC_REPLY)), (2, 100, 101, record(BR_TRANSACTION_COMPLETE)),
        (2, 100, 101, transaction(BR_REPLY, buffer=0x7000)),
        (1, 100, 101, transaction(BC_TRANSACTION, 1, 1)), (1, 100, 102, transaction(BC_TRANSACTION, 2, 1)),
        (1, 300, 301, transaction(BC_TRANSACTION, 1, 1)),
        (2, 200, 202, transaction(BR_TRANSACTION, NODE, 1, sender=999, buffer=0x8000)),
        (1, 200, 202, transaction(BC_REPLY)),
        (2, 200, 201, transaction(BR_TRANSACTION, NODE, 1, sender=100, buffer=0x9000)))


def one_more_on_each_walk() -> bytes:
    """Calls of two threads that are alike, each of them sent before the one before it comes, to a process that is older
    than the capture. Each of them but the first may also have come by the delivery of the one before, until that one is
    found. So each walk finds one more, and after the last walk the sixth pair is a guess."""
    frames = [(1, 100, 101, transaction(BC_TRANSACTION, 1, 1))]
    for number in range(6):
        client, other = (101, 102)[::1 - number % 2 * 2]
        frames += [(1, 100, other, transaction(BC_TRANSACTION, 1, 1)),
                   (2, 200, 201, transaction(BR_TRANSACTION, NODE, 1, sender=100, buffer=0x8000 + number)),
                   (1, 200, 201, transaction(BC_REPLY)),
                   (2, 100, client, transaction(BR_REPLY, buffer=0x7000 + number))]
    return of_frames(*frames)


def said_after_a_delivery() -> bytes:
    """A thread gets a oneway transaction, and only then says that it takes calls. So it has said so before the capture
    too, and its process is older: the transaction may also come from a send before the capture."""
    return of_frames(
        (1, 200, 201, record(BC_FREE_BUFFER, u64(0x1000))),
        (1, 100, 101, transaction(BC_TRANSACTION, 1, 1, 1)), (2, 100, 101, record(BR_TRANSACTION_COMPLETE)),
        (2, 200, 201, transaction(BR_TRANSACTION, NODE, 1, 1, buffer=0x7000)), (1, 200, 201, ENTER))


PAIR_CASES: dict[str, Callable[[], bytes]] = {
    "guess-of-a-sure-send": guess_of_a_sure_send,
    "one-more-on-each-walk": one_more_on_each_walk,
    "said-after-a-delivery": said_after_a_delivery,
}
