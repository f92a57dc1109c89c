"""The text of a path. A path is columns until it is shown: how a finding belongs to what it is about (`relation`), the
call with its code, interface and method, and the object that this goes to, or comes of. Here is how each relation puts
them together, whatever they are called: by the numbers of one capture, by names alone where findings are alike, and by
what is the same in another capture, in the key of a defect."""

from typing import NamedTuple

from viewer.units import code_name


class Relation(NamedTuple):
    """What stands before the call, what stands between call and object, and what is there in place of all if the call
    is not known."""
    before: str
    between: str = ""
    unknown: str | None = None


RELATIONS = {
    "to": Relation("", " to "), "at": Relation("", " at "), "oneway at": Relation("oneway ", " at "),
    "reply to": Relation("reply to ", " of ", "reply to no call"),
    # Of what a process sends: a reply, and the served call that it answers.
    "a reply": Relation("", "", "a reply"), "a reply to": Relation("a reply to ", "", "a reply"),
    # How handles came, which is the way of many; and objects that came so.
    "given by replies to": Relation("given by replies to ", " of "),
    "given by calls of": Relation("given by calls of ", " from "),
    # What was freed twice, and was delivered once.
    "freed": Relation("", "", "code ?"), "freed reply to": Relation("reply to ", "", "reply to code ?"),
    # Not a call, but a thing with a number.
    "handle": Relation(""), "node": Relation(""), "cookie": Relation(""), "address": Relation(""),
    # A name that the context manager was asked for.
    "service": Relation("service "),
    # Which oneway send finds no space at a receiver is chance: a key has no call there.
    "no space at": Relation("oneway", " to ")}


def path_text(relation: str | None, call: str | None, other: str | None, status: str | None = None) -> str | None:
    """A path of these words; None if there is none. `call` is a call or a thing, `other` an object or a process, and
    `status` what a call was answered with."""
    if relation is None:
        return None
    before, between, unknown = RELATIONS[relation]
    if call is None:
        return unknown
    return "".join((before, call, "" if other is None else between + other, "" if status is None else f": {status}"))


def name_text(interface: str, others: int | None, method: str | None) -> str:
    """The interface of a call, with the method if that is known. Some name another interface if there are `others`."""
    return f"{interface}{'' if method is None else '.' + method}{' or others' if others else ''}"


def call_words(code: int | None, interface: str | None, others: int | None, method: str | None) -> str | None:
    """A call with its code: `IHello.sayHello (code 1)`, `IHello code 1` or `code 1`. The interface is shown as it is
    given here."""
    if code is None:
        return None
    told = f"code {code_name(code)}"
    if interface is None:
        return told
    name = name_text(interface, others, method)
    return f"{name} {told}" if method is None else f"{name} ({told})"
