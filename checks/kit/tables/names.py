"""The names of interfaces and services that payloads hold, by the forms in viewer/database/schema.sql, above
raw_record."""

import re

from checks.kit.second_reading import number

MOST = 256
IDENTIFIER = r"[A-Za-z_][A-Za-z0-9_$]*"
# A name after one of MARKS; one that must look like the name of an interface; and one of HIDL.
NAME = re.compile(rf"{IDENTIFIER}(\.{IDENTIFIER})*")
INTERFACE = re.compile(rf"({IDENTIFIER}\.)+I[A-Za-z0-9_$]*")
HIDL = re.compile(rf"({IDENTIFIER}\.)+{IDENTIFIER}@[0-9]+\.[0-9]+::I[A-Za-z0-9_]*".encode())
SERVICE = re.compile(r"[A-Za-z0-9._\-/:@$]+")
MARKS = b"TSYS", b"RDNV", b"OCER", b"NKNU"
MANAGER = "android.os.IServiceManager"

LAST_CODE, OF_IBASE = 0x00FFFFFF, range(0x0F000000, 0x10000000)


def string16(data: bytes, at: int) -> tuple[str, int] | None:
    """The String16 that begins there, of 1 to 256 units, and where it ends."""
    count = number(data, at, 4)
    text, end = at + 4 + 2 * count, at + (4 + 2 * count + 2 + 3) // 4 * 4
    if at + 4 > len(data) or not 1 <= count <= MOST or end > len(data) or any(data[text:end]):
        return None
    return data[at + 4:text].decode("utf-16-le", "replace"), end


def token_of(data: bytes, form: int) -> tuple[str, int] | None:
    """The interface with which data begin, in the form with so many numbers before the String16, and where it ends."""
    found = string16(data, 4 * form)
    if found is None or form == 3 and data[8:12] not in MARKS:
        return None
    return found if (NAME if form == 3 else INTERFACE).fullmatch(found[0]) else None


def hidl_of(data: bytes) -> str | None:
    end = data.find(b"\0", 0, MOST + 1)
    return data[:end].decode() if end > 0 and HIDL.fullmatch(data[:end]) else None


def names_in(code: int, data: bytes) -> tuple[str | None, str | None]:
    """The interface and the service that the data of a transaction with this code name."""
    is_method = 1 <= code <= LAST_CODE
    for form in (1, 2, 3) if is_method else ():
        if found := token_of(data, form):
            name, end = found
            service = string16(data, end) if name == MANAGER else None
            return name, service[0] if service and SERVICE.fullmatch(service[0]) else None
    return (hidl_of(data) if is_method or code in OF_IBASE else None), None


def name_of_reply(data: bytes) -> str | None:
    """The interface that is all of the data of a reply."""
    found = string16(data, 0)
    return found[0] if found and found[1] == len(data) and INTERFACE.fullmatch(found[0]) else None
