"""Numbers as words: for the page, and for the notes of the rules."""

import errno
# As hashlib has it, which loads OpenSSL too: that takes longer than all keys of a small capture.
from _blake2 import blake2s


def signed(unsigned: int) -> int:
    """The number as SQLite has it, in two's complement."""
    return unsigned - 2**64 if unsigned >= 2**63 else unsigned


def duration_of(nanoseconds: int | None) -> str:
    """A time, with three digits."""
    if nanoseconds is None:
        return ""
    for unit, size in (("s", 10**9), ("ms", 10**6), ("µs", 10**3)):
        if nanoseconds >= size:
            count = nanoseconds / size
            return f"{count:.3g} {unit}" if count < 1000 else f"{count:,.0f} {unit}"
    return f"{nanoseconds} ns"


def counted(count: int, what: str, many: str | None = None) -> str:
    """A number of things: 1 row, 2 rows."""
    return f"{count:,} {what if count == 1 else many or what + 's'}"


# The statuses of libbinder that are no errno, by their distance to the least number of 32 bits.
OF_LIBBINDER = {0: "UNKNOWN_ERROR", 1: "BAD_TYPE", 2: "FAILED_TRANSACTION", 7: "FDS_NOT_ALLOWED", 8: "UNEXPECTED_NULL"}


def status_name(number: int | None) -> str:
    """A status with its name: of the errno, or of libbinder. `-EBADMSG` is the answer to a code that is not known."""
    if number is None:
        return "a status"
    name = OF_LIBBINDER.get(number + 2**31) or errno.errorcode.get(-number, "")
    return f"{number} {name}".rstrip()


# The codes that are four letters, the first one's number in front: libbinder and libhwbinder use them for what all
# objects answer. The first letter is `_`, or in libhwbinder the number 15.
LETTERS, HIDL = range(0x0F000000, 0x80000000), 0x0F


def code_name(code: int | None) -> str | None:
    """A code, by its letters if it is made of them: `_PNG`, or `HIDL_PNG` of libhwbinder."""
    if code is None or not LETTERS.start <= code < LETTERS.stop:
        return None if code is None else str(code)
    first, *others = code.to_bytes(4, "big")
    letters = others if first == HIDL else [first, *others]
    if not all(ord("0") <= one <= ord("z") for one in letters):
        return str(code)
    return ("HIDL_" if first == HIDL else "") + bytes(letters).decode()


def defect_key(kind: str, who: str, path: str) -> str:
    """The key of a defect, of 16 hexadecimal digits."""
    return blake2s("\t".join((kind, who, path)).encode(), digest_size=8).hexdigest()
