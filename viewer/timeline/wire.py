"""The wire format of protocol buffers, as far as a timeline needs it: fields of messages, one after another."""

import functools

VARINT, FIXED, LENGTH = 0, 1, 2


def varint(number: int) -> bytes:
    """A number, in bytes of 7 bits, the lowest first; a negative one has 64 bits."""
    if number < 0:
        number += 2**64
    made = bytearray()
    while number >= 128:
        made.append(number & 127 | 128)
        number >>= 7
    made.append(number)
    return bytes(made)


@functools.cache
def key(field: int, kind: int) -> bytes:
    """What comes before the value of a field."""
    return varint(field << 3 | kind)


def number(field: int, value: int) -> bytes:
    return key(field, VARINT) + varint(value)


def fixed(field: int, value: int) -> bytes:
    """A number of eight bytes."""
    return key(field, FIXED) + (value % 2**64).to_bytes(8, "little")


def message(field: int, *parts: bytes) -> bytes:
    """A message, or bytes."""
    body = b"".join(parts)
    return key(field, LENGTH) + varint(len(body)) + body


def text(field: int, value: str) -> bytes:
    """A text. What is no character of UTF-8, as half of a pair of UTF-16, becomes a question mark."""
    return message(field, value.encode(errors="replace"))
