"""The captures of crates/audit_cases/data, each made of its frames, records and attachments.

The format is in docs/ENVELOPE.md; code words, fields and objects are in docs/COMMANDS.md. The folder
also has the captures of samples/, byte for byte. What the program writes for each capture is in
crates/audit_cases/stdout. `checks/run captures` compares them.
"""

from typing import Any, Callable, Iterable, Sequence

# ---- numbers, frames, records, attachments, objects


def u32(number: int) -> bytes:
    return number.to_bytes(4, "little")


def u64(number: int) -> bytes:
    return number.to_bytes(8, "little")


def frame_header(direction: int, sequence: int, process: int, thread: int, commands: int, attachments: int,
                 device: int = 0) -> bytes:
    """The header of a frame with these lengths of command bytes and attachment bytes. A device other
    than 0 needs version 2."""
    return (u64(sequence) + u32(process) + u32(thread) + bytes([direction, 0, 0, 0])
            + u32(commands) + u32(attachments) + u32(device))


def frame(direction: int, sequence: int, process: int, thread: int, records: Sequence[bytes] = (),
          entries: Sequence[bytes] = (), device: int = 0) -> bytes:
    commands, attachments = b"".join(records), b"".join(entries)
    lengths = len(commands), len(attachments)
    header = frame_header(direction, sequence, process, thread, *lengths, device)
    return header + commands + attachments


def write(sequence: int, process: int, thread: int, *records: bytes, device: int = 0) -> bytes:
    return frame(1, sequence, process, thread, records, device=device)


def read(sequence: int, process: int, thread: int, *records: bytes, entries: Sequence[bytes] = (),
         device: int = 0) -> bytes:
    return frame(2, sequence, process, thread, records, entries, device)


def record(code: int, *numbers: bytes) -> bytes:
    """A record whose payload is these numbers, given as bytes, and then zeros up to the code's size."""
    return u32(code) + b"".join(numbers).ljust(code >> 16 & 0x3FFF, b"\0")


def transaction(kind: int, target: int = 0, code: int = 0, flags: int = 0, sender: int = 0,
                sizes: Sequence[int] = (0, 0), buffer: int = 0, cookie: int = 0) -> bytes:
    """A transaction or reply record. The sizes are data_size and offsets_size."""
    return record(kind, u64(target), u64(cookie), u32(code), u32(flags), u32(sender), u32(0),
                  u64(sizes[0]), u64(sizes[1]), u64(buffer))


def each(code: int, *numbers: int) -> list[bytes]:
    """Records of this code, one for each u32: references to handles."""
    return [record(code, u32(number)) for number in numbers]


def each_long(code: int, *numbers: int) -> list[bytes]:
    """Records of this code, one for each u64: freed buffers, cookies."""
    return [record(code, u64(number)) for number in numbers]


def node(code: int, ptr: int, cookie: int) -> bytes:
    return record(code, u64(ptr), u64(cookie))


def watch(code: int, handle: int, cookie: int) -> bytes:
    """A request for a death or a freeze notification, or its clear."""
    return record(code, u32(handle), u64(cookie))


def frozen(cookie: int, is_frozen: int) -> bytes:
    """A freeze notification."""
    return record(BR_FROZEN_BINDER, u64(cookie), u32(is_frozen), u32(0))


def entry(offset: int, body: bytes, listed: bytes) -> bytes:
    """An attachment entry for the record at this offset of the command bytes."""
    return u32(offset) + u32(len(body)) + u32(len(listed)) + body + listed


def offsets(*numbers: int) -> bytes:
    """The list of these offsets of objects."""
    return b"".join(map(u64, numbers))


def places_of(parts: Sequence[bytes]) -> list[int]:
    """Where each of these byte strings begins when they are joined."""
    return [sum(map(len, parts[:index])) for index in range(len(parts))]


def changed(capture: bytes, *changes: tuple[int, bytes]) -> bytes:
    """The capture with other bytes at some places."""
    for place, other in changes:
        capture = capture[:place] + other + capture[place + len(other):]
    return capture


# The file headers of the two versions.
HEADER = b"BNDRCAP1" + u32(8) + u32(0)
HEADER_2 = b"BNDRCAP2" + u32(8) + u32(0)
MAX_32, MAX_64 = 2**32 - 1, 2**64 - 1

COMMANDS = (
    BC_TRANSACTION, BC_REPLY, BC_ACQUIRE_RESULT, BC_FREE_BUFFER, BC_INCREFS,
    BC_ACQUIRE, BC_RELEASE, BC_DECREFS, BC_INCREFS_DONE, BC_ACQUIRE_DONE,
    BC_ATTEMPT_ACQUIRE, BC_REGISTER_LOOPER, BC_ENTER_LOOPER, BC_EXIT_LOOPER,
    BC_REQUEST_DEATH_NOTIFICATION, BC_CLEAR_DEATH_NOTIFICATION, BC_DEAD_BINDER_DONE,
    BC_TRANSACTION_SG, BC_REPLY_SG,
) = (
    0x40406300, 0x40406301, 0x40046302, 0x40086303, 0x40046304,
    0x40046305, 0x40046306, 0x40046307, 0x40106308, 0x40106309,
    0x4008630A, 0x0000630B, 0x0000630C, 0x0000630D,
    0x400C630E, 0x400C630F, 0x40086310,
    0x40486311, 0x40486312,
)

RETURNS = (
    BR_ERROR, BR_OK, BR_TRANSACTION, BR_TRANSACTION_SEC_CTX, BR_REPLY,
    BR_ACQUIRE_RESULT, BR_DEAD_REPLY, BR_TRANSACTION_COMPLETE, BR_INCREFS, BR_ACQUIRE,
    BR_RELEASE, BR_DECREFS, BR_ATTEMPT_ACQUIRE, BR_NOOP, BR_SPAWN_LOOPER, BR_FINISHED,
    BR_DEAD_BINDER, BR_CLEAR_DEATH_NOTIFICATION_DONE, BR_FAILED_REPLY, BR_FROZEN_REPLY,
    BR_ONEWAY_SPAM_SUSPECT, BR_TRANSACTION_PENDING_FROZEN,
) = (
    0x80047200, 0x00007201, 0x80407202, 0x80487202, 0x80407203,
    0x80047204, 0x00007205, 0x00007206, 0x80107207, 0x80107208,
    0x80107209, 0x8010720A, 0x8018720B, 0x0000720C, 0x0000720D, 0x0000720E,
    0x8008720F, 0x80087210, 0x00007211, 0x00007212,
    0x00007213, 0x00007214,
)

# Freeze notifications, which are opaque to the auditor.
FREEZES = (
    BC_REQUEST_FREEZE_NOTIFICATION, BC_CLEAR_FREEZE_NOTIFICATION, BC_FREEZE_NOTIFICATION_DONE,
    BR_FROZEN_BINDER, BR_CLEAR_FREEZE_NOTIFICATION_DONE,
) = 0x400C6313, 0x400C6314, 0x40086315, 0x80107215, 0x80087216

SORTS = BINDER, WEAK_BINDER, HANDLE, WEAK_HANDLE, FD, FDA, PTR = (
    u32(0x73622A85) + bytes(20), u32(0x77622A85) + bytes(20),
    u32(0x73682A85) + bytes(20), u32(0x77682A85) + bytes(20),
    u32(0x66642A85) + bytes(20), u32(0x66646185) + bytes(28), u32(0x70742A85) + bytes(36),
)

# ---- captures that others are made of

ENTER = record(BC_ENTER_LOOPER)

# Two references to handle 5, at 48 and 56.
ACQUIRES = HEADER + write(1, 100, 101, record(BC_ACQUIRE, u32(5)), record(BC_ACQUIRE, u32(5)))

# A call at 48, and its reply at 156.
CALL_AND_REPLY = HEADER + write(1, 100, 101, transaction(BC_TRANSACTION, target=1, code=2)) + read(
    2, 100, 101, record(BR_NOOP), record(BR_TRANSACTION_COMPLETE),
    transaction(BR_REPLY, buffer=0x7000))


def oneway(*sizes: int) -> bytes:
    """A oneway transaction that is delivered with these sizes."""
    return transaction(BR_TRANSACTION, flags=1, sizes=sizes, buffer=0x9000)


def attached(sequence: int, process: int, *attachments: tuple[bytes, bytes], device: int = 0) -> bytes:
    """A read of oneway transactions, each with an attachment entry of its own: a body and a list."""
    return read(sequence, process, 101,
                *(oneway(len(body), len(listed)) for body, listed in attachments),
                entries=[entry(68 * at, *both) for at, both in enumerate(attachments)],
                device=device)


ONE_HANDLE = HANDLE, offsets(0)

# Version 2: process 100 takes a reference to handle 5 on device 1, and lets one go on device 0.
TWO_DEVICES = (HEADER_2 + write(1, 100, 101, record(BC_ACQUIRE, u32(5)), device=1)
               + write(2, 100, 101, record(BC_RELEASE, u32(5)), device=0))

# A transaction at 48 with a HANDLE, whose entry is at 116.
DELIVERY = HEADER + attached(1, 100, ONE_HANDLE)

# Three of them: records at 48, 192 and 336, entries at 116, 260 and 404.
DELIVERIES = DELIVERY + attached(2, 100, ONE_HANDLE) + attached(3, 100, ONE_HANDLE)


def one_record(code: int, payload: bytes = b"") -> bytes:
    """A write of this code and payload, whether or not the size in the code is the payload's."""
    return HEADER + write(1, 1, 1, u32(code) + payload)


def loopers(frames: int, wrong: tuple[int, ...] = ()) -> bytes:
    """Writes of one BC_ENTER_LOOPER each; the frames in `wrong` have a BR_NOOP instead."""
    return HEADER + b"".join(
        write(k, 1, 1, record(BR_NOOP) if k in wrong else ENTER) for k in range(1, frames + 1))


def each_sort() -> bytes:
    """One BINDER, two of the next sort, and so on up to seven of the last."""
    objects = [sort for number, sort in enumerate(SORTS, 1) for _ in range(number)]
    return HEADER + attached(1, 100, (b"".join(objects), offsets(*places_of(objects))))


def of_all_kinds(**fields: Any) -> list[list[bytes]]:
    """The transactions and replies that a write may have, and those that a read may have, one of
    each kind."""
    return [[transaction(kind, **fields) for kind in kinds] for kinds in (
        (BC_TRANSACTION, BC_REPLY, BC_TRANSACTION_SG, BC_REPLY_SG),
        (BR_TRANSACTION, BR_TRANSACTION_SEC_CTX, BR_REPLY))]


def attachments_of_all_kinds() -> bytes:
    sent, returned = of_all_kinds(sizes=(24, 8))
    entries = [[entry(place, *ONE_HANDLE) for place in places_of(it)] for it in (sent, returned)]
    return (HEADER + frame(1, 1, 100, 101, sent, entries[0])
            + frame(2, 2, 100, 101, returned, entries[1]))


def of_handle(sort: int, handle: int) -> bytes:
    """An object of this sort with this handle."""
    return changed(SORTS[sort], (8, u32(handle)))


# A oneway delivery with a HANDLE of 7 to process 100, and what the process does next.
HELD = HEADER + attached(1, 100, (of_handle(2, 7), offsets(0)))
TAKEN = write(2, 100, 101, record(BC_ACQUIRE, u32(7)))
FREED = write(3, 100, 102, record(BC_FREE_BUFFER, u64(0x9000)))


def held_references() -> bytes:
    """Deliveries of each kind to three processes on two devices. Two are kept: a SEC_CTX one with a
    WEAK_HANDLE and a HANDLE of 5, and a reply with two HANDLEs of 9. One is freed, and its address is
    delivered again with a HANDLE of 5 and kept. One has no attachment entry. Process 200 keeps a
    HANDLE of 5 too. So does process 100 on device 1, where a good object comes after a bad one and
    does not count. A sent transaction has a HANDLE of 6, and one delivery also has a BINDER."""
    def kept(kind: int, buffer: int, *objects: bytes, flags: int = 0) -> tuple[bytes, tuple[bytes, bytes]]:
        body, listed = b"".join(objects), offsets(*places_of(objects))
        return transaction(kind, flags=flags, sizes=(len(body), len(listed)), buffer=buffer), (
            body, listed)

    def of(sequence: int, process: int, *deliveries: tuple[bytes, tuple[bytes, bytes]], device: int = 0,
           make: Callable = read) -> bytes:
        records = [it for it, _ in deliveries]
        entries = [entry(place, *both) for place, (_, both) in zip(places_of(records), deliveries)]
        direction = 2 if make is read else 1
        return frame(direction, sequence, process, 101, records, entries, device)
    strong, weak = of_handle(2, 5), of_handle(3, 5)
    return HEADER_2 + of(
        1, 100, kept(BR_TRANSACTION_SEC_CTX, 0x8000, weak, strong),
        kept(BR_TRANSACTION, 0x9000, of_handle(2, 7), flags=1),
    ) + write(
        2, 100, 101, *each_long(BC_FREE_BUFFER, 0x9000),
    ) + of(
        3, 100, kept(BR_TRANSACTION, 0x9000, SORTS[0], strong, flags=1),
        kept(BR_REPLY, 0xA000, of_handle(2, 9), of_handle(2, 9)),
    ) + read(
        4, 100, 101, transaction(BR_REPLY, buffer=0xB000),
    ) + of(
        5, 200, kept(BR_REPLY, 0x9000, strong),
    ) + read(
        6, 100, 101, transaction(BR_TRANSACTION, sizes=(72, 24), buffer=0x9000), entries=[
            entry(0, 2 * strong + of_handle(2, 3), offsets(0, 20, 48))], device=1,
    ) + of(
        7, 100, kept(BC_TRANSACTION, 0, of_handle(2, 6)), make=write,
    ) + write(
        8, 100, 101, record(BC_ACQUIRE, u32(9)), record(BC_INCREFS, u32(4)),
    )


def flags_of_all_kinds() -> bytes:
    sent, returned = of_all_kinds(flags=0xFFFFFFFF)
    return HEADER + write(1, 200, 201, *sent) + read(2, 100, 101, *returned)


def handles() -> bytes:
    """Two processes, whose frames alternate. In one of them each of the four commands names a handle
    that no other command names, 1 to 4. The strong and the weak count of 5 differ, 6 falls below 0
    and comes back above it, 7 and 8 end at 0, and 9 is only in a transaction. The other process
    refers to 5 and 6 too."""
    return HEADER + write(
        1, 200, 201, *each(BC_ACQUIRE, 5), *each(BC_RELEASE, 6), *each(BC_DECREFS, 5),
    ) + write(
        2, 100, 101, *each(BC_INCREFS, 1), *each(BC_ACQUIRE, 2), *each(BC_RELEASE, 3),
        *each(BC_DECREFS, 4), *each(BC_RELEASE, 6, 6), *each(BC_ACQUIRE, 5, MAX_32),
    ) + write(
        3, 200, 202, *each(BC_RELEASE, 5, 5),
    ) + write(
        4, 100, 102, *each(BC_ACQUIRE, 6, 6, 6, 5), *each(BC_DECREFS, 5), *each(BC_INCREFS, 0),
        *each(BC_DECREFS, 7), *each(BC_INCREFS, 7), transaction(BC_TRANSACTION, target=9),
    ) + write(
        5, 100, 101, *each(BC_ACQUIRE, 8), *each(BC_RELEASE, 8, 8), *each(BC_ACQUIRE, 8),
    )


def nodes() -> bytes:
    """In the first process each of the six records names a node that no other record names, ptr 1 to
    6. Two nodes have one ptr. One falls below 0 and comes back, and is still due. The second process
    has a node of the same ptr and cookie, which ends at 0, and one that the driver gives back without
    having asked for it."""
    return HEADER + read(
        1, 100, 101, node(BR_INCREFS, 1, 1), node(BR_ACQUIRE, 2, 1), node(BR_RELEASE, 3, 1),
        node(BR_DECREFS, 4, 1), node(BR_ACQUIRE, 0x20, 0x30), node(BR_ACQUIRE, 0x20, 0x31),
        node(BR_DECREFS, 0, 0), node(BR_INCREFS, 0, 0),
    ) + write(
        2, 100, 102, node(BC_INCREFS_DONE, 5, 1), node(BC_ACQUIRE_DONE, 6, 1),
        node(BC_ACQUIRE_DONE, 0x20, 0x31), node(BC_INCREFS_DONE, 0, 0),
    ) + read(
        3, 50, 51, node(BR_RELEASE, MAX_64, MAX_64), node(BR_ACQUIRE, 0x20, 0x30),
        node(BR_RELEASE, 0x20, 0x30), node(BR_INCREFS, 0x1F, MAX_64),
    ) + write(
        4, 50, 51, node(BC_ACQUIRE_DONE, 0x20, 0x30),
    ) + read(
        5, 100, 101, node(BR_RELEASE, 0x20, 0x31), node(BR_DECREFS, 0, 0), node(BR_INCREFS, 0, 0),
        node(BR_ACQUIRE, MAX_64, MAX_64), node(BR_ACQUIRE, MAX_64, 0),
    )


def buffers() -> bytes:
    """0x10 is freed before its delivery, and after it by another thread. 0x20 is delivered twice and
    freed once; 0x30 is delivered twice and freed three times; 0x40 is delivered again after its free.
    0x50 is freed only by another process, once before its delivery and once after it. Of the replies
    0x60 is freed and 0x70 is not; of the deliveries with a security context 0x80 and not 0x90; of
    the oneway ones 0xb0 and not 0xa0. The other process gets 0x20 too."""
    def deliver(address: int, kind: int = BR_TRANSACTION, **fields: Any) -> bytes:
        return transaction(kind, buffer=address, **fields)
    return HEADER + write(
        1, 100, 101, *each_long(BC_FREE_BUFFER, 0x10),
    ) + read(
        2, 100, 101, *map(deliver, (0x10, 0x20, 0x20, 0x30, 0x30)), deliver(0x60, BR_REPLY),
        deliver(0x70, BR_REPLY, sizes=(24, 8)), deliver(0x80, BR_TRANSACTION_SEC_CTX),
        deliver(0x90, BR_TRANSACTION_SEC_CTX, sizes=(1, 0)),
    ) + write(
        3, 200, 201, *each_long(BC_FREE_BUFFER, 0x50, MAX_64, MAX_64),
    ) + read(
        4, 200, 201, deliver(0x20),
    ) + read(
        5, 100, 102, *map(deliver, (0x50, 0x40)), deliver(0xA0, flags=1, sizes=(MAX_64, MAX_64)),
        deliver(0xB0, flags=1), *map(deliver, (0, MAX_64)),
    ) + write(
        6, 100, 102,
        *each_long(BC_FREE_BUFFER, 0x10, 0x20, 0x30, 0x30, 0x40, 0x60, 0x80, 0xB0, 0x30),
    ) + write(
        7, 200, 201, *each_long(BC_FREE_BUFFER, 0x50),
    ) + read(
        8, 100, 101, deliver(0x40),
    )


def requests() -> bytes:
    """What ends a request: a clear with its handle and cookie, or a death with its cookie. What does
    not: a clear with only one of the two, a clear or a death before it or in another process, an
    acknowledgement, a confirmation."""
    def request(*which: int) -> bytes:
        return watch(BC_REQUEST_DEATH_NOTIFICATION, *which)

    def clear(*which: int) -> bytes:
        return watch(BC_CLEAR_DEATH_NOTIFICATION, *which)
    return HEADER + write(
        1, 100, 101, clear(1, 0xA1), request(1, 0xA1), request(2, 0xA2), request(3, 0xA3),
        request(4, 0xA4), request(5, 0xA5), request(6, 0xA5), request(7, 0xA7), request(7, 0xA7),
    ) + read(
        2, 100, 101, *each_long(BR_DEAD_BINDER, 0xA8),
    ) + write(
        3, 100, 102, request(8, 0xA8), request(9, 0xA9), request(10, 0xAA), request(11, 0xAB),
        request(0, 0), request(MAX_32, MAX_64), clear(2, 0xA2), clear(3, 0xA4), clear(4, 0xA3),
        clear(7, 0xA7),
    ) + write(
        4, 200, 201, request(5, 0xA5), clear(9, 0xA9),
    ) + read(
        5, 200, 201, *each_long(BR_DEAD_BINDER, 0xA9),
    ) + read(
        6, 100, 101, *each_long(BR_DEAD_BINDER, 0xA5),
        *each_long(BR_CLEAR_DEATH_NOTIFICATION_DONE, 0xAA),
    ) + write(
        7, 100, 101, *each_long(BC_DEAD_BINDER_DONE, 0xAB), request(2, 0xA2),
    )


def deaths_and_clears() -> bytes:
    """Deaths and clears alike, with the same cookies: 1 is answered by another thread, 2 before it
    comes, 3 comes twice and is answered once, 4 is answered twice, 5 is answered by another process;
    0 and the greatest are not answered. The clears with cookie 3 have two handles."""
    clears = [watch(BC_CLEAR_DEATH_NOTIFICATION, *which) for which in (
        (7, 1), (7, 3), (8, 3), (7, 4), (7, 5), (7, 0), (MAX_32, MAX_64))]
    return HEADER + write(
        1, 100, 101, *each_long(BC_DEAD_BINDER_DONE, 2), *clears,
    ) + read(
        2, 100, 101, *each_long(BR_DEAD_BINDER, 1, 2, 3, 3, 4, 5, 0, MAX_64),
        *each_long(BR_CLEAR_DEATH_NOTIFICATION_DONE, 2),
    ) + write(
        3, 200, 201, *each_long(BC_DEAD_BINDER_DONE, 5),
    ) + read(
        4, 200, 201, *each_long(BR_CLEAR_DEATH_NOTIFICATION_DONE, 5),
    ) + write(
        5, 100, 102, *each_long(BC_DEAD_BINDER_DONE, 1, 3, 4, 4),
        watch(BC_CLEAR_DEATH_NOTIFICATION, 7, 2),
    ) + read(
        6, 100, 103, *each_long(BR_CLEAR_DEATH_NOTIFICATION_DONE, 1, 3, 4, 4),
    )


def processes() -> bytes:
    """Processes whose numbers fall, each with an empty first frame but for 10 and 0. Their references
    come later, in another order. The greatest number is first, and 0 last; 35 does nothing else."""
    falling = MAX_32, 40, 35, 30, 20
    return HEADER + b"".join(
        write(at, number, 1) for at, number in enumerate(falling, 1)
    ) + write(
        6, 10, 1, *each(BC_ACQUIRE, 2, 1),
    ) + read(
        7, 0, 0, node(BR_ACQUIRE, 1, 1),
    ) + write(
        8, 20, 2, *each(BC_INCREFS, 1),
    ) + read(
        9, 40, 2, node(BR_ACQUIRE, 2, 1), node(BR_ACQUIRE, 1, 2),
    ) + write(
        10, 30, 1, *each(BC_ACQUIRE, 1), node(BC_ACQUIRE_DONE, 1, 1),
    ) + write(
        11, 0, 0, *each(BC_ACQUIRE, 1),
    ) + write(
        12, MAX_32, 1, *each(BC_ACQUIRE, 1),
    ) + write(
        13, 40, 1, *each(BC_ACQUIRE, 1),
    )


def oneway_replies() -> bytes:
    """`TF_ONE_WAY` on a reply means nothing: the received reply answers a call, and the sent one
    replies to a served call. The sent one is refused; no oneway transaction is refused."""
    return HEADER + read(
        1, 100, 101, transaction(BR_TRANSACTION, code=3, sender=200, buffer=0x8000),
    ) + write(
        2, 100, 101, transaction(BC_TRANSACTION, target=1, code=4),
    ) + read(
        3, 100, 101, record(BR_TRANSACTION_COMPLETE),
        transaction(BR_REPLY, flags=1, buffer=0x7000),
    ) + write(
        4, 100, 101, *each_long(BC_FREE_BUFFER, 0x7000, 0x8000),
        transaction(BC_REPLY, flags=1, sizes=(24, 0)),
    ) + read(
        5, 100, 101, record(BR_FAILED_REPLY),
    )


def threads_of_one_number() -> bytes:
    """Thread 7 of two processes. The reply answers the call of one of them, which is not the last
    call. The error reply answers the call of the other, whose thread sent no oneway transaction."""
    return HEADER + write(
        1, 100, 7, transaction(BC_TRANSACTION, target=1, code=1),
    ) + write(
        2, 200, 7, transaction(BC_TRANSACTION, target=2, code=2),
    ) + read(
        3, 100, 7, transaction(BR_REPLY, buffer=0x7000),
    ) + write(
        4, 100, 7, transaction(BC_TRANSACTION, target=3, code=3, flags=1),
    ) + read(
        5, 200, 7, record(BR_FAILED_REPLY),
    ) + read(
        6, 100, 7, record(BR_TRANSACTION_COMPLETE),
    )


def threads_that_fall() -> bytes:
    """Threads 9, 5 and 1 of one process in this order. Each has rows in some of the sections of
    calls, and their rows alternate."""
    return HEADER + write(
        1, 100, 9, transaction(BC_TRANSACTION, target=1, code=1),
    ) + write(
        2, 100, 5, transaction(BC_TRANSACTION, target=2, code=2),
    ) + write(
        3, 100, 1, transaction(BC_TRANSACTION, target=3, code=3),
    ) + read(
        4, 100, 5, record(BR_DEAD_REPLY), record(BR_FROZEN_REPLY),
    ) + read(
        5, 100, 1, transaction(BR_TRANSACTION, code=4, sender=MAX_32, buffer=0x8000),
    ) + write(
        6, 100, 9, transaction(BC_REPLY),
    ) + read(
        7, 100, 9, record(BR_FAILED_REPLY), record(BR_FAILED_REPLY),
    ) + write(
        8, 100, 1, transaction(BC_TRANSACTION, target=4, flags=1),
    ) + read(
        9, 100, 1, record(BR_DEAD_REPLY),
    ) + read(
        10, 100, 5, transaction(BR_TRANSACTION, code=5, sender=2**31, buffer=0x9000),
    )


def refused_behind_a_call() -> bytes:
    """A oneway transaction after a call is refused, and the call is answered. Then a call after a
    oneway transaction fails."""
    return HEADER + write(
        1, 100, 101, transaction(BC_TRANSACTION, target=1, code=2),
        transaction(BC_TRANSACTION, target=2, code=3, flags=1, sizes=(8, 0)),
    ) + read(
        2, 100, 101, record(BR_FAILED_REPLY), record(BR_TRANSACTION_COMPLETE),
        transaction(BR_REPLY, buffer=0x7000),
    ) + write(
        3, 100, 101, *each_long(BC_FREE_BUFFER, 0x7000),
        transaction(BC_TRANSACTION, target=2, code=3, flags=1, sizes=(16, 0)),
        transaction(BC_TRANSACTION, target=1, code=4),
    ) + read(
        4, 100, 101, record(BR_FAILED_REPLY),
    )


def nested_calls() -> bytes:
    """Two threads of a process whose frames alternate. In one of them a call is made within a served
    call within a call, and each has its reply; two more replies close nothing. In the other a served
    call within a call within a served call has no reply of its own, so all three have a wrong closer
    or none."""
    return HEADER + write(
        1, 100, 1, transaction(BC_TRANSACTION, target=1, code=1),
    ) + read(
        2, 100, 2, transaction(BR_TRANSACTION, code=4, sender=300),
    ) + read(
        3, 100, 1, record(BR_TRANSACTION_COMPLETE), transaction(BR_TRANSACTION, code=2, sender=200),
    ) + write(
        4, 100, 2, transaction(BC_TRANSACTION, target=4, code=5),
    ) + write(
        5, 100, 1, transaction(BC_TRANSACTION_SG, target=2, code=3),
    ) + read(
        6, 100, 2, transaction(BR_TRANSACTION_SEC_CTX, code=6, sender=400),
    ) + read(
        7, 100, 1, record(BR_TRANSACTION_COMPLETE), transaction(BR_REPLY),
    ) + read(
        8, 100, 2, transaction(BR_REPLY),
    ) + write(
        9, 100, 1, transaction(BC_REPLY),
    ) + write(
        10, 100, 2, transaction(BC_REPLY),
    ) + read(
        11, 100, 1, transaction(BR_REPLY), transaction(BR_REPLY),
    ) + write(
        12, 100, 1, transaction(BC_REPLY_SG), *each_long(BC_FREE_BUFFER, 0),
    )


def in_a_frame(sequence: int, thread: int, one: bytes) -> bytes:
    """A frame of process 100 with this record: a write or a read, by the letter of its code."""
    return frame(1 if one[1:2] == b"c" else 2, sequence, 100, thread, [one])


def in_threads_of_their_own(threads: Iterable[list[bytes]]) -> bytes:
    """The records of each of these threads, 1, 2 and so on, in a frame for each record. At the end
    the buffers at 0 are freed."""
    told = [(at, one) for at, records in enumerate(threads, 1) for one in records]
    frames = [in_a_frame(sequence, *one) for sequence, one in enumerate(told, 1)]
    return HEADER + b"".join(frames) + write(
        len(frames) + 1, 100, 1, *each_long(BC_FREE_BUFFER, 0))


def verdicts() -> bytes:
    """Each of the four openers, closed by nothing and by each of the six closers. Threads 1 to 7
    have the first opener, 8 to 14 the second, and so on."""
    openers = BC_TRANSACTION, BC_TRANSACTION_SG, BR_TRANSACTION, BR_TRANSACTION_SEC_CTX
    closers = BR_REPLY, BC_REPLY, BC_REPLY_SG, BR_DEAD_REPLY, BR_FAILED_REPLY, BR_FROZEN_REPLY
    return in_threads_of_their_own(
        [record(opener), *map(record, closer)]
        for opener in openers for closer in ((), *((one,) for one in closers)))


def marks() -> bytes:
    """Between a oneway send and an error reply one record: of each kind in threads 1 to 41, and in the
    last two threads another oneway send, and a oneway transaction that is received."""
    send = transaction(BC_TRANSACTION, flags=1)
    between = (*map(record, COMMANDS + RETURNS), transaction(BC_TRANSACTION_SG, flags=1),
               transaction(BR_TRANSACTION_SEC_CTX, flags=1))
    return in_threads_of_their_own([send, one, record(BR_FAILED_REPLY)] for one in between)


def oneway_traffic() -> bytes:
    """Three processes; the first one has an empty first frame. Several threads send to handles in no
    order, and some sends have other flags besides `TF_ONE_WAY`. Calls and replies do not count. Of
    three refused sends one is a reply."""
    def send(target: int, size: int, kind: int = BC_TRANSACTION, flags: int = 1) -> bytes:
        return transaction(kind, target=target, flags=flags, sizes=(size, 0))

    def got(size: int, kind: int = BR_TRANSACTION, flags: int = 1) -> bytes:
        return transaction(kind, target=7, flags=flags, sizes=(size, 8))
    return HEADER + write(
        1, 300, 1,
    ) + write(
        2, 100, 101, send(9, 5), send(2, 7, BC_TRANSACTION_SG), send(2, 100, flags=0),
        send(9, MAX_64, flags=0x11), send(9, 1000, BC_REPLY), send(10, 0),
    ) + read(
        3, 100, 102, got(3), got(MAX_64, BR_TRANSACTION_SEC_CTX), got(50, flags=0),
        got(60, BR_REPLY),
    ) + read(
        4, 200, 201, got(0),
    ) + write(
        5, 300, 1, send(MAX_32, 1), send(0, 2, BC_TRANSACTION_SG, flags=MAX_32),
    ) + read(
        6, 300, 1, record(BR_DEAD_REPLY),
    ) + read(
        7, 100, 101, record(BR_FAILED_REPLY),
    ) + read(
        8, 300, 2, got(11), got(12),
    ) + write(
        9, 300, 2, send(1, 1, BC_REPLY_SG),
    ) + read(
        10, 300, 2, record(BR_FROZEN_REPLY),
    ) + write(
        11, 100, 103, send(2, 8),
    )


def one_number_on_two_devices() -> bytes:
    """Thread 101 of process 100 on device 3 and on device 0, with the same handles, nodes, addresses
    and cookies. What is opened on one device is closed only on the other. So in each ledger all that
    is opened stays open, and each close is a stray. Each device also has a oneway transaction."""
    def on_3(direction: int, sequence: int, *records: bytes) -> bytes:
        return frame(direction, sequence, 100, 101, records, device=3)

    def on_0(direction: int, sequence: int, *records: bytes) -> bytes:
        return frame(direction, sequence, 100, 101, records, device=0)

    def send(size: int) -> bytes:
        return transaction(BC_TRANSACTION, target=5, code=1, flags=1, sizes=(size, 0))
    return HEADER_2 + on_3(
        1, 1, *each(BC_ACQUIRE, 5, 5), *each(BC_INCREFS, 6),
        watch(BC_REQUEST_DEATH_NOTIFICATION, 7, 0x70), watch(BC_CLEAR_DEATH_NOTIFICATION, 8, 0x80),
        transaction(BC_TRANSACTION, target=5, code=2),
    ) + on_3(
        2, 2, node(BR_ACQUIRE, 0x20, 0x30), *each_long(BR_DEAD_BINDER, 0x90),
        transaction(BR_TRANSACTION, flags=1, sizes=(24, 0), buffer=0x8000),
    ) + on_0(
        1, 3, *each(BC_RELEASE, 5), *each(BC_DECREFS, 6),
        watch(BC_CLEAR_DEATH_NOTIFICATION, 7, 0x70), node(BC_ACQUIRE_DONE, 0x20, 0x30),
        *each_long(BC_DEAD_BINDER_DONE, 0x90), *each_long(BC_FREE_BUFFER, 0x8000), send(20),
    ) + on_0(
        2, 4, *each_long(BR_DEAD_BINDER, 0x70),
        *each_long(BR_CLEAR_DEATH_NOTIFICATION_DONE, 0x80),
        record(BR_TRANSACTION_COMPLETE), transaction(BR_REPLY, buffer=0x9000),
        transaction(BR_TRANSACTION, flags=1, sizes=(8, 0), buffer=0xA000),
    ) + on_3(
        1, 5, *each_long(BC_FREE_BUFFER, 0x9000), send(10),
    ) + on_0(
        2, 6, record(BR_FAILED_REPLY),
    )


def threads_of_two_devices() -> bytes:
    """Thread 7 of process 100 on devices 1 and 2. The reply answers the call on device 1, which is not
    the last call. The error reply on device 2 answers the call there, since the oneway transaction
    before it was sent on the other device."""
    return HEADER_2 + write(
        1, 100, 7, transaction(BC_TRANSACTION, target=1, code=1), device=1,
    ) + write(
        2, 100, 7, transaction(BC_TRANSACTION, target=2, code=2), device=2,
    ) + read(
        3, 100, 7, transaction(BR_REPLY, buffer=0x7000), device=1,
    ) + write(
        4, 100, 7, transaction(BC_TRANSACTION, target=3, code=3, flags=1), device=1,
    ) + read(
        5, 100, 7, record(BR_FAILED_REPLY), device=2,
    ) + read(
        6, 100, 7, record(BR_DEAD_REPLY), device=1,
    )


def sends_of_three_devices() -> bytes:
    """Oneway sends of one thread number to one handle, on device 0 and on the greatest device. Device
    1 has an error reply and no send. The greatest has an error reply that refuses its own send."""
    def send(size: int) -> bytes:
        return transaction(BC_TRANSACTION, target=2, flags=1, sizes=(size, 0))
    return HEADER_2 + write(
        1, 100, 101, send(8),
    ) + write(
        2, 100, 101, send(0), device=MAX_32,
    ) + read(
        3, 100, 101, transaction(BR_TRANSACTION, flags=1),
    ) + read(
        4, 100, 101, record(BR_FAILED_REPLY), device=1,
    ) + read(
        5, 100, 101, record(BR_FAILED_REPLY), device=MAX_32,
    )


def turns_of_two_devices() -> bytes:
    """A served call on device 1 and a call on device 0, of one thread number, by turns: neither is
    within the other. On the greatest device the thread serves another call, which stays open in spite
    of a reply on device 0."""
    return HEADER_2 + read(
        1, 100, 101, transaction(BR_TRANSACTION, sender=200), device=1,
    ) + write(
        2, 100, 101, transaction(BC_TRANSACTION, target=1),
    ) + write(
        3, 100, 101, transaction(BC_REPLY), device=1,
    ) + read(
        4, 100, 101, transaction(BR_REPLY),
    ) + read(
        5, 100, 101, transaction(BR_TRANSACTION, sender=200), device=MAX_32,
    ) + write(
        6, 100, 101, transaction(BC_REPLY),
    )


def processes_of_devices() -> bytes:
    """Processes on several devices, in the order of neither number. Some have an empty first frame.
    Process 2 on device 1 and process 1 on device 2 are two processes."""
    first = (2, 1), (1, 2), (MAX_32, 1), (1, MAX_32), (0, 2), (2, 2)
    return HEADER_2 + b"".join(
        write(at, number, 1, device=device) for at, (device, number) in enumerate(first, 1)
    ) + write(
        7, 1, 1, *each(BC_ACQUIRE, 2, 1), device=0,
    ) + read(
        8, 2, 1, node(BR_ACQUIRE, 1, 1), device=0,
    ) + write(
        9, 2, 1, *each(BC_INCREFS, 1), transaction(BC_TRANSACTION, target=4, flags=1), device=2,
    ) + write(
        10, 1, 1, *each(BC_ACQUIRE, 1), transaction(BC_TRANSACTION, target=4, flags=1), device=2,
    ) + write(
        11, MAX_32, 2, *each(BC_ACQUIRE, 1), device=1,
    ) + read(
        12, 2, 2, node(BR_INCREFS, 1, 1), oneway(3, 0), device=1,
    ) + write(
        13, 1, 1, *each(BC_ACQUIRE, 1), device=MAX_32,
    )


def rows_of_one_device() -> bytes:
    """A row in each section with places, all of process 100 on device 7."""
    return HEADER_2 + write(
        1, 100, 101, transaction(BC_TRANSACTION, target=1, code=2, flags=0x82),
        transaction(BC_TRANSACTION, target=2, code=3, flags=1, sizes=(5, 0)), device=7,
    ) + read(
        2, 100, 101, record(BR_FAILED_REPLY), device=7,
    ) + read(
        3, 100, 102, transaction(BR_TRANSACTION, code=4, sender=200, buffer=0x8000),
        *each_long(BR_DEAD_BINDER, 0x70), *each_long(BR_CLEAR_DEATH_NOTIFICATION_DONE, 0x80),
        device=7,
    ) + attached(
        4, 100, (HANDLE, offsets(2)), ONE_HANDLE, device=7,
    ) + write(
        5, 100, 103, transaction(BC_REPLY), *each_long(BC_FREE_BUFFER, 0x10),
        watch(BC_REQUEST_DEATH_NOTIFICATION, 7, 0x71), watch(BC_CLEAR_DEATH_NOTIFICATION, 8, 0x81),
        *each_long(BC_DEAD_BINDER_DONE, 0x72), device=7,
    )


def eight_frames() -> bytes:
    """Frames of two processes, with a fault of the objects in two of their four attachments: at 16, 56, 204 (no
    records), 236, 392, 508, 612 and 924, with the sequences 5, 6, 7, 10, 11, 12, 20 and 21. Transactions and replies
    are at 92, 272, 440, 540, 644 and 720, opaque records at 424 and 960."""
    return HEADER + write(5, 100, 101, *each(BC_ACQUIRE, 1)) + frame(
        1, 6, 100, 101,
        [record(BC_ENTER_LOOPER), transaction(BC_TRANSACTION, target=7, code=3, flags=0x100, sizes=(24, 8))],
        [entry(4, of_handle(2, 9), offsets(0))],
    ) + read(7, 100, 101) + frame(
        2, 10, 200, 201,
        [record(BR_NOOP), transaction(BR_TRANSACTION, code=3, flags=0x80000010, sizes=(24, 16), buffer=0x7000)],
        [entry(4, FD, offsets(0, 20))],
    ) + write(
        11, 200, 201, record(0x400C6313), transaction(BC_REPLY, flags=8),
    ) + read(
        12, 100, 101, transaction(BR_REPLY, flags=8, buffer=0x7000), record(BR_NOOP),
    ) + frame(
        1, 20, 100, 102,
        [transaction(BC_TRANSACTION_SG, target=7, code=3, flags=0x11, sizes=(40, 8)),
         transaction(BC_TRANSACTION, target=7, code=3, flags=0x82, sizes=(48, 16))],
        [entry(0, PTR, offsets(0)), entry(76, BINDER + u32(0x11111111) + bytes(20), offsets(0, 24))],
    ) + read(21, 200, 202, record(BR_TRANSACTION_COMPLETE), record(0x72F0))


# ---- the captures

# Each capture: its name, what it shows, and its bytes.
TABLE: tuple[tuple[str, str, bytes], ...] = (
    # -- what threads do
    ("freed-reply", "a reply's buffer is freed, by another thread of its process",
     CALL_AND_REPLY + write(3, 100, 102, record(BC_FREE_BUFFER, u64(0x7000)))),
    ("released-before-acquired", "a handle is released and then acquired",
     HEADER + write(1, 100, 101, record(BC_RELEASE, u32(3))) + write(2, 100, 101, record(BC_ACQUIRE, u32(3)))),
    ("refused-oneway", "within a served call a oneway send is refused; the call around both stays open",
     HEADER + write(1, 100, 101, transaction(BC_TRANSACTION, target=1))
     + read(2, 100, 101, record(BR_TRANSACTION_COMPLETE),
            transaction(BR_TRANSACTION, sender=200, buffer=0x8000))
     + write(3, 100, 101, transaction(BC_TRANSACTION, target=2, flags=1))
     + read(4, 100, 101, record(BR_FAILED_REPLY))),
    ("dead-reply", "a call to a process that has died",
     HEADER + write(1, 100, 101, transaction(BC_TRANSACTION, target=1)) + read(2, 100, 101, record(BR_DEAD_REPLY))),
    ("freed-before-delivered", "a buffer is freed before two transactions arrive in it",
     HEADER + write(1, 100, 101, record(BC_FREE_BUFFER, u64(0x10)))
     + read(2, 100, 101, *2 * [transaction(BR_TRANSACTION, flags=1, buffer=0x10)])),
    ("crossed-call", "a reply is sent while a later call of the same thread has no answer",
     HEADER + read(1, 100, 101, transaction(BR_TRANSACTION, sender=200, buffer=0x8000))
     + write(2, 100, 101, transaction(BC_TRANSACTION, target=1), transaction(BC_REPLY))),
    ("greatest-data-sizes", "oneway sends whose sizes add up to more than 64 bits hold",
     HEADER + write(1, 100, 101, *2 * [transaction(BC_TRANSACTION, target=2, flags=1, sizes=(2**64 - 1, 0))])),
    ("death-not-acknowledged", "a death that nobody acknowledges",
     HEADER + write(1, 100, 101, record(BC_REQUEST_DEATH_NOTIFICATION, u32(7), u64(1)))
     + read(2, 100, 101, record(BR_DEAD_BINDER, u64(1)))),
    ("handles-of-two-processes", "handles of two processes, the greater process first",
     HEADER + write(1, 9, 1, record(BC_ACQUIRE, u32(2)))
     + write(2, 4, 1, record(BC_ACQUIRE, u32(8)), record(BC_INCREFS, u32(1)))),
    ("node-half-confirmed", "of two references to a node one is confirmed",
     HEADER
     + read(1, 100, 101, record(BR_INCREFS, u64(0x20), u64(0x30)),
            record(BR_ACQUIRE, u64(0x20), u64(0x30)))
     + write(2, 100, 101, record(BC_INCREFS_DONE, u64(0x20), u64(0x30)))),
    ("freed-then-replied", "a served call, freed and then replied",
     HEADER + read(1, 100, 101, transaction(BR_TRANSACTION_SEC_CTX, sender=200, buffer=0x8000))
     + write(2, 100, 101, record(BC_FREE_BUFFER, u64(0x8000)), transaction(BC_REPLY_SG))),
    ("error-to-no-call", "an error reply to no call", HEADER + read(1, 100, 101, record(BR_FAILED_REPLY))),
    ("clear-confirmed-twice", "a cleared death notification, confirmed twice",
     HEADER + write(1, 100, 101, record(BC_CLEAR_DEATH_NOTIFICATION, u32(7), u64(1)))
     + read(2, 100, 101, *2 * [record(BR_CLEAR_DEATH_NOTIFICATION_DONE, u64(1))])),
    ("many-frames", "one frame more than a piece has", loopers(257)),
    ("eight-frames", "a frame for each of up to eight pieces, with something of most sections", eight_frames()),

    # -- what is counted and paired in each process
    ("handles", "counts of handles and their lows", handles()),
    ("nodes", "counts of nodes, their lows, and what is due", nodes()),
    ("buffers", "deliveries and frees, in all orders", buffers()),
    ("requests", "what ends a request, and what does not", requests()),
    ("deaths-and-clears", "deaths and clears, and their answers", deaths_and_clears()),
    ("processes", "the order of processes is that of their first frames", processes()),

    # -- calls of threads, and oneway transactions
    ("oneway-replies", "TF_ONE_WAY on replies", oneway_replies()),
    ("threads-of-one-number", "two threads with one number", threads_of_one_number()),
    ("threads-that-fall", "threads of a process whose numbers fall", threads_that_fall()),
    ("refused-behind-a-call", "a oneway transaction after a call is refused", refused_behind_a_call()),
    ("several-sends", "two oneway sends in one write, within a served call: the first is taken and the second refused",
     HEADER + read(1, 100, 101, transaction(BR_TRANSACTION, code=7, sender=200, buffer=0x8000))
     + write(2, 100, 101, transaction(BC_TRANSACTION, target=5, code=3, flags=1, sizes=(16, 0)),
             transaction(BC_TRANSACTION, target=6, code=3, flags=1, sizes=(2000000, 0)))
     + read(3, 100, 101, record(BR_NOOP), record(BR_TRANSACTION_COMPLETE), record(BR_FAILED_REPLY))
     + write(4, 100, 101, *each_long(BC_FREE_BUFFER, 0x8000), transaction(BC_REPLY))),
    ("lost-call", "a frame with a call is missing: its reply closes the served call around it",
     HEADER + read(1, 200, 201, transaction(BR_TRANSACTION, code=2, sender=100, buffer=0x8000))
     + read(3, 200, 201, record(BR_TRANSACTION_COMPLETE), transaction(BR_REPLY, buffer=0x9000))
     + write(4, 200, 201, transaction(BC_REPLY))),
    ("nested-calls", "calls in one another, two threads by turns", nested_calls()),
    ("verdicts", "each opener with each closer", verdicts()),
    ("marks", "which records are marks", marks()),
    ("oneway", "counts and sums of oneway transactions", oneway_traffic()),

    # -- devices
    ("version-2", "version 2, with device 0 only", changed(ACQUIRES, (7, b"2"))),
    ("version-2-empty", "version 2 without frames", HEADER_2),
    ("first-part", "a call in one file", CALL_AND_REPLY[:116]),
    ("second-part", "its reply in the next", HEADER + CALL_AND_REPLY[116:]),
    ("second-part-of-version-2", "which may be of the other version", HEADER_2 + CALL_AND_REPLY[116:]),
    ("sequence-5", "the first of two files between which three frames are missing", HEADER + write(5, 1, 1)),
    ("sequence-9-of-version-2", "the second of them", HEADER_2 + write(9, 1, 1)),
    ("sequence-0", "a frame that may come before any other", HEADER_2 + write(0, 100, 101, device=1)),
    ("deaths-1", "deaths and clears of two processes in three files", deaths_and_clears()[:312]),
    ("deaths-2", "the second of them", HEADER + deaths_and_clears()[312:400]),
    ("deaths-3", "the third of them", HEADER_2 + deaths_and_clears()[400:]),
    ("handle-of-two-devices", "one handle number of one process number on two devices", TWO_DEVICES),
    ("device-in-version-1", "the same bytes in version 1, which has no device field", changed(TWO_DEVICES, (7, b"1"))),
    ("one-number-on-two-devices", "one process number on two devices: what is opened on one device is closed on the"
     " other", one_number_on_two_devices()),
    ("threads-of-two-devices", "two threads with one number, of one process number on two devices",
     threads_of_two_devices()),
    ("sends-of-three-devices", "oneway sends and error replies of one thread number on three devices",
     sends_of_three_devices()),
    ("turns-of-two-devices", "calls of one thread number on several devices by turns", turns_of_two_devices()),
    ("freed-on-two-devices", "a buffer is freed on another device, and then on its own",
     HEADER_2 + read(1, 100, 101, transaction(BR_TRANSACTION, flags=1, buffer=0x9000))
     + write(2, 100, 101, *each_long(BC_FREE_BUFFER, 0x9000), device=1)
     + write(3, 100, 102, *each_long(BC_FREE_BUFFER, 0x9000))),
    ("processes-of-devices", "the order of processes is that of their first frames, whatever the device",
     processes_of_devices()),
    ("rows-of-one-device", "each row that has a place has its device", rows_of_one_device()),
    ("greatest-device", "the greatest device", HEADER_2 + write(1, 100, 101, *each(BC_ACQUIRE, 5), device=MAX_32)),
    ("device-of-one-bit", "only the highest bit of the device", changed(ACQUIRES, (7, b"2"), (47, b"\x80"))),
    ("missing-of-two-devices", "sequences rise over all devices; the gap is counted over both together",
     HEADER_2 + write(5, 1, 1, device=1) + write(9, 1, 1, device=2)),
    ("sequence-of-two-devices", "the same sequence on two devices",
     HEADER_2 + write(5, 1, 1, device=1) + write(5, 1, 1, device=2)),
    ("reserved-of-version-2", "the byte after the direction is reserved in version 2 too",
     changed(TWO_DEVICES, (33, b"\x01"))),
    ("reserved-and-length-of-version-2", "so is the byte before the lengths; a length is wrong too, which is judged"
     " later", changed(TWO_DEVICES, (35, b"\x80"), (36, b"\x60"))),
    ("letter-on-a-device", "a return in a write, in the second frame", changed(TWO_DEVICES, (89, b"\x72"))),

    # -- each record of the tables, and names
    ("every-command", "each command and each return of the tables, once",
     HEADER + write(1, 100, 101, *map(record, COMMANDS)) + read(2, 100, 101, *map(record, RETURNS))),
    ("opaque-edges", "numbers after those of the tables, the second with the greatest number and size",
     HEADER + write(1, 100, 101, record(0x00006313), record(0x7FFF63FF)) + read(2, 100, 101, record(0x00007215))),
    ("opaque-acquire", "a number after those of the table in place of BC_ACQUIRE", changed(ACQUIRES, (48, b"\x13"))),
    ("-name", "a name that looks like an option", ACQUIRES),

    # -- faults of the file header
    ("no-bytes", "an empty file", b""),
    ("magic-and-protocol", "the first byte of the magic; the protocol is wrong too, which is judged later",
     changed(ACQUIRES, (0, b"b"), (8, b"\x07"))),
    ("magic-of-version-3", "the last byte of the magic, of a capture that has devices",
     changed(TWO_DEVICES, (7, b"3"))),
    ("magic-of-version-0", "the same, one below that of version 1", changed(ACQUIRES, (7, b"0"))),
    ("magic-in-small", "the first byte of the magic, in version 2", changed(TWO_DEVICES, (0, b"b"))),
    ("protocol-7", "the first byte of the protocol", changed(ACQUIRES, (8, b"\x07"))),
    ("protocol-and-reserved", "the last byte of the protocol, and the reserved field, which is judged later",
     changed(ACQUIRES, (11, b"\x01"), (12, b"\x01"))),
    ("file-reserved", "the first byte of the reserved field", changed(ACQUIRES, (12, b"\x01"))),
    ("file-reserved-and-direction", "its last byte; the frame is wrong too, which is judged later",
     changed(ACQUIRES, (15, b"\x80"), (32, b"\x00"))),

    # -- faults of a frame header
    ("frame-of-1-byte", "one byte of a frame header", ACQUIRES[:17]),
    ("frame-of-31-bytes", "all but one byte of it", ACQUIRES[:47]),
    ("no-command-bytes", "the header only, with a length of 16 command bytes", ACQUIRES[:48]),
    ("command-bytes-cut", "all command bytes but one", ACQUIRES[:63]),
    ("frame-twice", "the same sequence twice", ACQUIRES + ACQUIRES[16:]),
    ("sequence-and-direction", "the sequence falls from the greatest to 0; the direction is wrong too, which is"
     " judged later", HEADER + write(2**64 - 1, 1, 1) + frame(0, 0, 1, 1)),
    ("direction-3", "the least direction above a read", changed(ACQUIRES, (32, b"\x03"))),
    ("direction-and-reserved", "no direction; the byte before the lengths is wrong too, which is judged later",
     changed(ACQUIRES, (32, b"\x00"), (35, b"\x01"))),
    ("reserved-behind-direction", "the byte after the direction", changed(ACQUIRES, (33, b"\x01"))),
    ("reserved-between", "the byte between these two", changed(ACQUIRES, (34, b"\x10"))),
    ("reserved-before-lengths", "the byte before the lengths", changed(ACQUIRES, (35, b"\x80"))),
    ("reserved-behind-lengths", "the byte after the lengths", changed(ACQUIRES, (44, b"\x01"))),
    ("reserved-and-length", "the last byte of the header; a length is wrong too, which is judged later",
     changed(ACQUIRES, (36, b"\x11"), (47, b"\x80"))),
    ("command-length-17", "one command byte more than there is", changed(ACQUIRES, (36, b"\x11"))),
    ("lengths-past-32-bits", "lengths whose sum would fit what follows if it were taken in 32 bits",
     changed(ACQUIRES, (36, u32(2**32 - 1)), (40, u32(17)))),
    ("frame-of-8-bytes", "the frame ends before its second record, and 8 bytes follow it",
     changed(ACQUIRES, (36, b"\x08"))),
    ("later-frame-past-the-end", "a frame after a good one has a length of 100 bytes that are not there",
     HEADER + write(1, 1, 1, ENTER) + frame_header(1, 2, 1, 1, 100, 0)),

    # -- faults of records
    ("code-of-1-byte", "one byte where a code word is due", changed(ACQUIRES, (36, b"\x09"))),
    ("code-of-2-bytes", "two bytes", changed(ACQUIRES, (36, b"\x0a"))),
    ("code-of-3-bytes", "three bytes", changed(ACQUIRES, (36, b"\x0b"))),
    ("payload-cut", "a payload without its last byte", changed(ACQUIRES, (36, b"\x0f"))),
    ("code-cut-before-a-bad-frame", "two bytes of a code word, and after them a frame that is wrong too",
     HEADER + write(1, 1, 1, ENTER, b"\x05\x63") + frame_header(1, 2, 1, 1, 100, 0)),
    ("two-wrong-directions", "900 frames; the second and the last have a return in a write",
     loopers(900, wrong=(2, 900))),
    ("last-wrong-direction", "only the last one has it", loopers(900, wrong=(900,))),
    ("acquire-in-a-read", "a command in a read", changed(ACQUIRES, (32, b"\x02"))),
    ("letter-of-returns", "the letter of returns", changed(ACQUIRES, (49, b"\x72"))),
    ("both-direction-bits", "both direction bits", one_record(0xC0046305, u32(5))),
    ("payload-without-direction", "a payload, and no direction bit", one_record(0x00046305, u32(5))),
    ("direction-without-payload", "a direction bit, and no payload", one_record(0x4000630C)),
    ("direction-before-length", "a return in a write, whose payload is not there: the code word is judged first",
     one_record(BR_ERROR)),
    ("call-of-4-bytes", "BC_TRANSACTION of 4 bytes", changed(ACQUIRES, (48, b"\x00"))),
    ("call-of-40-bytes", "BC_TRANSACTION of 40 bytes", one_record(0x40286300, bytes(40))),
    ("size-before-length", "the same without its payload: the code word is judged first", one_record(0x40286300)),
    ("acquire-of-no-bytes", "BC_ACQUIRE without a payload", one_record(0x00006305)),
    ("looper-of-4-bytes", "BC_ENTER_LOOPER with one", one_record(0x4004630C, u32(0))),
    ("transaction-of-68-bytes", "a size between those of BR_TRANSACTION and BR_TRANSACTION_SEC_CTX",
     HEADER + read(1, 100, 101, record(0x80447202))),

    # -- faults of attachments
    ("attachment-cut", "all of the frame but its last byte", DELIVERY[:159]),
    ("command-length-69", "one command byte more than there is", changed(DELIVERY, (36, b"\x45"))),
    ("attachment-length-45", "one attachment byte more", changed(DELIVERY, (40, b"\x2d"))),
    ("command-length-67", "one command byte less: the record is judged before the attachment",
     changed(DELIVERY, (36, b"\x43"))),
    ("entry-of-1-byte", "one byte of an entry", changed(DELIVERY, (40, b"\x01"))),
    ("entry-of-11-bytes", "all of its numbers but one byte", changed(DELIVERY, (40, b"\x0b"))),
    ("entry-of-12-bytes", "only its numbers", changed(DELIVERY, (40, b"\x0c"))),
    ("entry-of-43-bytes", "all of it but one byte", changed(DELIVERY, (40, b"\x2b"))),
    ("body-of-25-bytes", "one body byte more than there is", changed(DELIVERY, (120, b"\x19"))),
    ("entry-past-32-bits", "body and list of 2^32 bytes, a sum that is 0 in 32 bits",
     changed(DELIVERY, (120, u32(2**32 - 8)))),
    ("length-before-record", "too long, and for no record: the length is judged first",
     changed(DELIVERY, (116, b"\x04"), (124, b"\x09"))),
    ("entry-inside-a-record", "an entry for what is no record's first byte", changed(DELIVERY, (116, b"\x04"))),
    ("entry-behind-the-records", "for the end of the command bytes, after the records",
     changed(DELIVERY, (116, b"\x44"))),
    ("entry-of-an-opaque-record", "for an opaque record", changed(DELIVERY, (48, b"\x15"))),
    ("entry-twice", "for the same record twice", changed(DELIVERY, (40, b"\x58")) + DELIVERY[116:]),
    ("entries-that-fall", "for the second record and then for the first; the sizes are wrong too, which is judged"
     " later",
     HEADER + read(1, 100, 101, *2 * [oneway(24, 8)], entries=[entry(68, HANDLE, offsets(0)), entry(0, HANDLE, b"")])),
    ("body-of-23-bytes", "a body shorter than the record says", changed(DELIVERY, (120, b"\x17"))),
    ("list-of-no-bytes", "a list of offsets shorter than the record says", changed(DELIVERY, (124, b"\x00"))),
    ("data-size-28", "another size in the record", changed(DELIVERY, (84, b"\x1c"))),
    ("data-size-past-32-bits", "a size whose low four bytes are those of the entry", changed(DELIVERY, (88, b"\x01"))),
    ("attachment-before-next-frame", "the second of three frames has a wrong size, the third an entry for no record",
     changed(DELIVERIES, (264, b"\x17"), (404, b"\x04"))),
    ("attachment-behind-a-frame", "an attachment that the lengths of its frame leave out is read as a frame, and is"
     " not one", changed(DELIVERY, (40, b"\x00"))),

    # -- good attachments and their objects
    ("attachment-absent", "none, though the record has sizes", changed(DELIVERY, (40, b"\x00"))[:116]),
    ("attachment-of-a-reply", "of BR_REPLY", changed(DELIVERY, (48, b"\x03"))),
    ("attachments-of-all-kinds", "of each kind of record that may have one", attachments_of_all_kinds()),
    ("attachment-of-no-bytes", "of no bytes, in a frame whose first record has no attachment",
     HEADER + read(1, 100, 101, oneway(24, 8), oneway(0, 0), entries=[entry(68, b"", b"")])),
    ("unknown-sort", "a body that begins with no sort", changed(DELIVERY, (128, b"\x00"))),
    ("held-and-taken", "a delivery holds a reference that the process takes too", HELD + TAKEN),
    ("held-taken-and-freed", "then the buffer is freed too", HELD + TAKEN + FREED),
    ("held-and-freed", "the same, but only freed", HELD + FREED),
    ("held-references", "by deliveries of each kind", held_references()),
    ("each-sort", "a different number of each sort", each_sort()),
    ("overlapping-objects", "the second object begins within the first; the third is good and is not read",
     HEADER + attached(1, 100, (2 * HANDLE, offsets(0, 20, 24)))),
    ("rows-of-two-devices", "a misaligned object on a device, and a call with unknown flags on the greatest one,"
     " two sequences later",
     HEADER_2 + attached(1, 100, (HANDLE + bytes(4), offsets(2)), device=5)
     + write(3, 7, 8, transaction(BC_TRANSACTION, target=1, flags=0x82), record(0x400C6313), device=MAX_32)),
    ("every-cause", "each cause in an attachment of its own, in two processes. In the second attachment the bad"
     " object is both misaligned and within the object before it; after it comes a good object, which is not read. The"
     " last attachment is good",
     HEADER + attached(
         1, 200,
         (HANDLE, bytes(7)),
         (2 * HANDLE, offsets(0, 6, 24)),
         (2 * HANDLE, offsets(24, 0)),
         (HANDLE + b"\x85\x2a\x62", offsets(0, 24)),
     ) + attached(
         2, 100,
         (HANDLE, offsets(2**64 - 4)),
         (HANDLE + PTR[:36], offsets(0, 24)),
         (FD + bytes(4), offsets(0, 24)),
         (BINDER, offsets(0)),
     )),

    # -- flags of transactions
    ("flags-of-all-kinds", "each bit, in each kind of record that has flags, the greater process first",
     flags_of_all_kinds()),
    ("known-flags", "the six known flags; and records without flags, one of them opaque",
     HEADER + write(
         1, 100, 101, transaction(BC_TRANSACTION, target=1, flags=0x7D),
         record(BC_ACQUIRE, u32(2**32 - 1)), record(0x40406313, b"\xff" * 64))),
)

CAPTURES = {f"{name}.cap": capture for name, _, capture in TABLE}
