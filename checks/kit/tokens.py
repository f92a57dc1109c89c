"""Payloads of transactions, each with the interface that it names: made ones of each form, recorded ones, and payloads
that name none. And payloads to the manager of names, each with the service that it is about. `checks/listing` takes
them."""

import random
import struct

PARTITIONS = "SYST", "VNDR", "RECO", "UNKN"
GATHER, NO_SOURCE = 0x400000, 2**32 - 1
MANAGER = "android.os.IServiceManager"


def string16(text: str) -> bytes:
    units = text.encode("utf-16-le", "surrogatepass")
    return ended(struct.pack("<I", len(units) // 2) + units + b"\0\0")


def ended(data: bytes) -> bytes:
    """These bytes, and zeros up to a multiple of four."""
    return data + bytes(-len(data) % 4)


def numbers(*words: int) -> bytes:
    return struct.pack(f"<{len(words)}I", *words)


def partition(letters: str) -> int:
    return int.from_bytes(letters.encode(), "big")


def marked(name: str, letters: str = "SYST") -> bytes:
    return numbers(GATHER, NO_SOURCE, partition(letters)) + string16(name)


# Tokens, each without a byte after it.
MADE = {
    numbers(GATHER) + string16(MANAGER): MANAGER,
    numbers(0) + string16("com.example.a_b2.IThing$Sub"): "com.example.a_b2.IThing$Sub",
    numbers(0x42000004) + string16("a.I"): "a.I",
    numbers(GATHER, NO_SOURCE) + string16(MANAGER): MANAGER,
    numbers(2**31, 10123) + string16("android.app.IActivityManager"): "android.app.IActivityManager",
    numbers(0, 26) + string16("p.I2"): "p.I2",
    **{marked(MANAGER, letters): MANAGER for letters in PARTITIONS},
    marked("android.gui.SensorServer"): "android.gui.SensorServer",
    marked("NvRAMAgent"): "NvRAMAgent",
    marked("a." + "b" * 254): "a." + "b" * 254,
    b"android.hardware.nfc@1.2::INfc\0": "android.hardware.nfc@1.2::INfc",
    b"vendor.a_1.b@10.23::IB_2\0": "vendor.a_1.b@10.23::IB_2",
}

# What clients on libgbinder 1.1.54 sent to code 1: its protocols aidl, aidl2, aidl3 and hidl.
HELLO = "6f00720067002e006500780061006d0070006c0065002e004900480065006c006c006f0000000000"
THERE = "0b000000480065006c006c006f002000740068006500720065000000"
RECORDED = {
    bytes.fromhex(f"0000400012000000{HELLO}{THERE}"): "org.example.IHello",
    bytes.fromhex(f"00004000ffffffff12000000{HELLO}{THERE}"): "org.example.IHello",
    bytes.fromhex(f"00004000ffffffff5453595312000000{HELLO}66726f6d2062696e6465722d63616c6c00000000"):
        "org.example.IHello",
    bytes.fromhex(f"6f72672e6578616d706c6540312e303a3a4948656c6c6f00{THERE}"): "org.example@1.0::IHello",
}

# Texts that are no name of an interface, even after the mark of a partition.
FOREIGN = ("", ".", "a.", ".a", "a..b", "1.b", "a.1b", "a b", "a-b", "a.I\n", "$a", "a.$b", "пароль.Iароль",
           "\u202eI.b", "a.I\u202e", "\ud800.I", "a.I\udc00", "\ufeffa.I", "<b>.I", "a.I<script>", "&lt;", "a.I'b",
           'a.I"b', "a.I\0b", "\u0141.I", "a.b@1.0::IC", "a:I", "a@I", "\uff41.I")
# Texts that may be names, but look like none: only after a mark are they taken for names.
UNLIKE = ("swordfish", "sword.fish", "IFish", "a.b.c", "Isword.fish", "android.gui.SensorServer")
# Texts that are no name of HIDL.
UNVERSIONED = (b"swordfish", b"sword.fish.IFish", b"a.b::IC", b"a.b@1::IC", b"a.b@1.::IC", b"a.b@.0::IC", b"a.b@1.0:IC",
               b"a.b@1.0::C", b"a.b@1.0::", b"a.b@1.0::IC.D", b"a@1.0::IC", b"a.b@1.0::IC@1.0::ID", b"@1.0::IC",
               b"a.b@1.0::I<C>", b"a.b@1.0::I\xe2\x80\xae", b"1.b@1.0::IC", b"a.b@x.0::IC", b"a.b@1.0.0::IC",
               b"a.b@1.0:::IC", b"a." + b"b" * 300 + b"@1.0::IC")


def cuts() -> dict[bytes, None]:
    """Each token, cut at each byte."""
    return {token[:end]: None for token in MADE for end in range(len(token))}


def hostile() -> dict[bytes, None]:
    heads = (numbers(GATHER), numbers(GATHER, NO_SOURCE), numbers(GATHER, NO_SOURCE, partition("SYST")))
    text = string16(MANAGER)
    made = [head + string16(word) for head in heads for word in FOREIGN]
    made += [head + string16(word) for head in heads[:2] for word in UNLIKE]
    made += [head + numbers(count) + text[4:] for head in heads
             for count in (0, 25, 27, 257, 2**16, 2**30, 2**31 - 1, 2**31, 2**32 - 1)]
    made += [head + string16("a." + "I" * 255) for head in heads]
    made += [head + text[:-4] + end for head in heads for end in (b"abcd", b"\0\0\0\1", b"\1\0\0\0")]
    made += [numbers(GATHER, NO_SOURCE, partition(word)) + text for word in ("SWRD", "TSYS", "syst", "SYS\0")]
    made += [text, numbers(1, 2, 3, 4) + text, marked(MANAGER)[1:], ended(MANAGER.encode() + b"\0")]
    made += [ended(word + b"\0") for word in UNVERSIONED]
    return dict.fromkeys(made)


def strangers(count: int) -> dict[bytes, None]:
    """Payloads that name no interface, at random: bytes, numbers, and numbers with texts."""
    chance = random.Random(67)
    letters = "abcdefghijklmnopqrstuvwxyzABCDEFGHIJKLMNOPQRSTUVWXYZ0123456789_$."

    def text() -> str:
        word = "".join(chance.choice(letters) for _ in range(chance.randrange(40)))
        return word.replace(".I", ".J")

    def one() -> bytes:
        match chance.randrange(5):
            case 0:
                return chance.randbytes(chance.randrange(200))
            case 1:
                return numbers(*(chance.choice((0, 1, 26, 256, NO_SOURCE, GATHER, chance.randrange(2**32)))
                                 for _ in range(chance.randrange(40))))
            case 2:
                return numbers(chance.randrange(2**32)) + string16(text()) + string16(text())
            case 3:
                return numbers(GATHER, NO_SOURCE) + string16(text()) + chance.randbytes(8)
            case _:
                return ended(text().encode() + b"\0") + numbers(chance.randrange(10))

    made: dict[bytes, None] = {}
    while len(made) < count:
        made[one()] = None
    return made


# ---- services

# Names of services, and texts that are none.
SERVICES = ("activity", "SurfaceFlinger", "android.hardware.power.IPower/default", "media.audio_flinger", "0", "-",
            "a-b_c.d/e:f@g$h", "z" * 256)
NO_SERVICES = ("", "a b", "a\n", "a\tb", "a\0b", "\0", "<b>", "a<script>", "&lt;", "a'b", 'a"b', "a\\b", "a;b", "(a)",
               "\u202ea", "a\u202e", "\u2066a", "a\ufeff", "\ud800", "a\udc00", "\U0001f600", "\u0141", "\uff41",
               "\u6161", "\x7f", "z" * 257)

# What clients on libgbinder sent to the manager by aidl, aidl2 and aidl3: to ask for a service, and to register one.
TO_MANAGER = "1a00000061006e00640072006f00690064002e006f0073002e00490053006500720076006900630065004d0061006e006100"
TO_MANAGER += "6700650072000000000005000000680065006c006c006f000000"
HEADS = "00004000", "00004000ffffffff", "00004000ffffffff54535953"
REGISTERED = ("852a62737f010000704dba8355550000000000000000000000000000",
              "852a62737f010000f05fea845555000000000000000000000000000008000000",
              "852a62737f01000050b2fa6d5555000000000000000000000c0000000000000008000000")
RECORDED_SERVICES = {bytes.fromhex(head + TO_MANAGER + more): "hello"
                     for head, object_of in zip(HEADS, REGISTERED) for more in ("", object_of)}


def managers() -> tuple[bytes, ...]:
    """The tokens of the manager, of all forms."""
    return tuple(token for token, name in MADE.items() if name == MANAGER)


def services() -> dict[bytes, str | None]:
    """Payloads, most of them to the manager. The name comes right after the interface."""
    long = string16("activity")
    made: dict[bytes, str | None] = {}
    for token in managers():
        made |= {token + long[:end]: None for end in range(len(long))}
        made |= {token + string16(text): None for text in NO_SERVICES}
        made |= {token + numbers(count) + long[4:]: None
                 for count in (0, 7, 9, 257, 2**16, 2**30, 2**31 - 1, 2**31, 2**32 - 1)}
        made |= {token + long[:-4] + end: None for end in (b"abcd", b"\0\0\0\1", b"\1\0\0\0")}
        made |= {token + numbers(0) + long: None}
        made |= {token + string16(name) + more: name for name in SERVICES for more in (b"", numbers(1, 2, 3))}
    others = (token for token, name in MADE.items() if name != MANAGER)
    made |= {token + long: None for token in (*others, ended(b"android.hidl.manager@1.0::IServiceManager\0"), b"")}
    return made | RECORDED_SERVICES


def payloads() -> dict[bytes, str | None]:
    """All that name an interface, or none."""
    more = {token + bytes(range(1, 30)): name for token, name in MADE.items()}
    return cuts() | hostile() | strangers(500) | MADE | more | RECORDED
