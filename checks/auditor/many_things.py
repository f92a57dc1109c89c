"""Captures with very many of one thing in a process, and the reports on them."""

from checks.kit.captures import (BC_ACQUIRE, BC_FREE_BUFFER, BC_REQUEST_DEATH_NOTIFICATION, BC_TRANSACTION,
                                 BR_DEAD_BINDER, BR_DEAD_REPLY, BR_TRANSACTION, each, each_long, frame, record,
                                 transaction, watch)
from checks.kit.written import with_buffer, write_frames

HEADS = """calls 0 answered 0 failed 0 unanswered 0
served 0 replied 0 crossed 0 open 0
strays 0
refused 0
handles 0 unbalanced 0
nodes 0 unbalanced 0
buffers 0 leaked 0
frees 0 stray 0
requests 0 standing 0
deaths 0 unacknowledged 0 stray 0
clears 0 unconfirmed 0 stray 0
oneway sent 0 received 0 refused 0
objects binder 0 weak_binder 0 handle 0 weak_handle 0 fd 0 fda 0 ptr 0 bad 0
flags 0""".splitlines()


def by_thousands(direction, process, records):
    """Frames of these, 1,000 records each."""
    return [(direction, process, records[at:at + 1000]) for at in range(0, len(records), 1000)]


def report(totals, *sections):
    """A report with these sections, a head and rows each."""
    known = {section[0].split()[0]: section for section in sections}
    lines = ["BINDER AUDIT 2", totals, *known["codes"]]
    for head in HEADS:
        lines += known.get(head.split()[0], [head])
    return "".join(f"{line}\n" for line in lines)


def many_rows():
    """65,537 code words, one more than sixteen times the rows that are rendered at a time, the greatest first."""
    words = [0x40006300 | size << 16 | number for size in range(1, 278) for number in range(19, 256)]
    words = sorted(words)[:65537]
    return [(1, 1, [record(word) for word in reversed(words)])], report(
        "frames 1 records 65537 opaque 65537 missing 0",
        ["codes 65537", *(f"  0x{word:08x} OPAQUE 1" for word in words)])


def many_handles():
    """As many handles, the greatest first."""
    return [(1, 1, each(BC_ACQUIRE, *range(65537, 0, -1)))], report(
        "frames 1 records 65537 opaque 0 missing 0",
        ["codes 1", "  0x40046305 BC_ACQUIRE 65537"],
        ["handles 65537 unbalanced 65537", *(f"  0 1 {handle} 1 0 0 0 0 0" for handle in range(1, 65538))])


def many_buffers():
    """100,000 oneway deliveries that are never freed, and in another process as many that are freed in reverse order.
    The leaked ones come after 100 frames of 68,032 bytes."""
    addresses = range(0x1000, 0x1000 + 100000)
    delivery = transaction(BR_TRANSACTION, flags=1)
    deliveries = [with_buffer(delivery, address) for address in addresses]
    places = [16 + 68032 * (100 + at // 1000) + 32 + 68 * (at % 1000) for at in range(100000)]
    return (by_thousands(2, 2, deliveries) + by_thousands(2, 1, deliveries)
            + by_thousands(1, 2, each_long(BC_FREE_BUFFER, *reversed(addresses)))), report(
        "frames 300 records 300000 opaque 0 missing 0",
        ["codes 2", "  0x40086303 BC_FREE_BUFFER 100000", "  0x80407202 BR_TRANSACTION 200000"],
        ["buffers 200000 leaked 100000",
         *(f"  {at} 0 1 0x{address:x} 0 BR_TRANSACTION" for at, address in zip(places, addresses))],
        ["frees 100000 stray 0"],
        ["oneway sent 0 received 200000 refused 0", "  0 2 received 100000 0", "  0 1 received 100000 0"])


def many_requests():
    """1,000,000 requests with one cookie, and then a death with that cookie, after 1,000 frames of 16,032 bytes."""
    requests = [watch(BC_REQUEST_DEATH_NOTIFICATION, handle, 1) for handle in range(1000000)]
    return by_thousands(1, 1, requests) + [(2, 1, each_long(BR_DEAD_BINDER, 1))], report(
        "frames 1001 records 1000001 opaque 0 missing 0",
        ["codes 2", "  0x400c630e BC_REQUEST_DEATH_NOTIFICATION 1000000", "  0x8008720f BR_DEAD_BINDER 1"],
        ["requests 1000000 standing 0"],
        ["deaths 1 unacknowledged 1 stray 0", "  16032048 0 1 0x1 unacknowledged"])


def many_calls():
    """100,000 calls of a thread that stay open, and in another process as many that fail, the last one first. The error
    replies come after 200 frames of 68,032 bytes, 1,000 in each frame of 4,032 bytes."""
    call = transaction(BC_TRANSACTION, target=3, code=4)
    errors = [16 + 68032 * 200 + 4032 * (at // 1000) + 32 + 4 * (at % 1000) for at in range(100000)]
    calls = [16 + 68032 * (at // 1000) + 32 + 68 * (at % 1000) for at in range(200000)]
    return (by_thousands(1, 2, 100000 * [call]) + by_thousands(1, 1, 100000 * [call])
            + by_thousands(2, 2, 100000 * [record(BR_DEAD_REPLY)])), report(
        "frames 300 records 300000 opaque 0 missing 0",
        ["codes 2", "  0x00007205 BR_DEAD_REPLY 100000", "  0x40406300 BC_TRANSACTION 200000"],
        ["calls 200000 answered 0 failed 100000 unanswered 100000",
         *(f"  {at} 0 2 1 3 4 failed {end}" for at, end in zip(calls, reversed(errors))),
         *(f"  {at} 0 1 1 3 4 open -" for at in calls[100000:])])


def many_frames():
    """3,000 frames of 100 bytes, each with a call that stays open, so that workers share many pieces."""
    return [(1, 1, [transaction(BC_TRANSACTION, target=handle)]) for handle in range(1, 3001)], report(
        "frames 3000 records 3000 opaque 0 missing 0",
        ["codes 1", "  0x40406300 BC_TRANSACTION 3000"],
        ["calls 3000 answered 0 failed 0 unanswered 3000",
         *(f"  {at} 0 1 1 {handle} 0 open -" for handle, at in enumerate(range(48, 299949, 100), 1))])


def written(path, made):
    """Writes a capture. Returns the report on it."""
    frames, due = made()
    write_frames(path, (frame(direction, sequence, process, 1, records)
                        for sequence, (direction, process, records) in enumerate(frames, 1)))
    return due
