"""A session of made-up processes: the capture that a recorder would write of it, and its side list.

Times are milliseconds. Each read or write takes one, unless a case waits longer. A process with handle 0 of another one
needs nothing more to call it: `serve` makes a process the context manager, whose node is 0.
"""

import re

from checks.kit.captures import (BC_ACQUIRE, BC_FREE_BUFFER, BC_INCREFS, BC_REGISTER_LOOPER, BC_REPLY, BC_TRANSACTION,
                                 BR_REPLY, BR_TRANSACTION, BR_TRANSACTION_COMPLETE, ENTER, HEADER_2, SORTS, changed,
                                 each, each_long, entry, frame, of_handle, offsets, places_of, record, transaction, u64)

ACCEPT_FDS, ONE_WAY, STATUS_CODE, UPDATE_TXN = 0x10, 0x01, 0x08, 0x40
DONE = record(BR_TRANSACTION_COMPLETE)


class Sent:
    """A transaction or reply: what its delivery has of it."""

    def __init__(self, sender, code, flags, body, listed):
        self.sender, self.code, self.flags, self.body, self.listed = sender, code, flags, body, listed

    def record(self, kind, target=0, buffer=0, sender=0, cookie=0):
        sizes = len(self.body), len(self.listed)
        return transaction(kind, target, self.code, self.flags, sender, sizes, buffer, cookie)


class Thread:
    """A thread of a process. What it does takes a millisecond."""

    def __init__(self, session, process, number):
        self.session, self.process, self.number = session, process, number
        session.tell(f"thread 0 {process.number} {number} pid={process.number} tid={number} start=1"
                     f" name={process.name}")

    def does(self, direction, records, attached=None):
        """One frame: records, of which one may have an attachment: its index, a body and a list."""
        entries = ()
        if attached is not None and (attached[1] or attached[2]):
            entries = [entry(places_of(records)[attached[0]], *attached[1:])]
        self.session.frame(direction, self, records, entries)

    def writes(self, *records, attached=None):
        self.does(1, records, attached)

    def reads(self, *records, attached=None):
        self.does(2, records, attached)

    def goes_on(self, times):
        """It does something so many times."""
        for _ in range(times):
            self.writes(ENTER)

    # -- transactions

    def sends(self, handle, code, flags=ACCEPT_FDS, body=b"", listed=b"", seen=True, told=None):
        """Sends a transaction, and may be told at once that it failed: by this code word."""
        sent = Sent(self, code, flags, body, listed)
        self.writes(sent.record(BC_TRANSACTION, handle), attached=(0, body, listed) if seen else None)
        if flags & ONE_WAY:
            self.reads(DONE)
        if told:
            self.reads(record(told))
        return sent

    def gets(self, sent, ptr=0, body=None, listed=None, seen=True, cookie=0):
        """Reads a delivery of what was sent. Objects may have other handles here. Returns the address of its buffer."""
        body, listed = sent.body if body is None else body, sent.listed if listed is None else listed
        address = self.process.address()
        told = Sent(sent.sender, sent.code, sent.flags, body, listed)
        number = 0 if sent.flags & ONE_WAY else sent.sender.process.number
        delivery = told.record(BR_TRANSACTION, ptr, address, number, cookie)
        self.reads(delivery, attached=(0, body, listed) if seen else None)
        return address

    def replies(self, free=None, body=b"", listed=b"", flags=0, taken=()):
        """Replies, in one write with what it has taken and the free of a buffer."""
        sent = Sent(self, 0, flags, body, listed)
        before = [*taken, *(each_long(BC_FREE_BUFFER, free) if free else ())]
        self.writes(*before, sent.record(BC_REPLY), attached=(len(before), body, listed))
        self.reads(DONE)
        return sent

    def answered(self, reply, body=None, listed=None, free=True, seen=True):
        """Reads the answer of its call, and frees it. Returns the address of its buffer."""
        body, listed = reply.body if body is None else body, reply.listed if listed is None else listed
        address = self.process.address()
        self.reads(DONE, Sent(None, 0, reply.flags, body, listed).record(BR_REPLY, 0, address),
                   attached=(1, body, listed) if seen else None)
        if free:
            self.frees(address)
        return address

    def frees(self, *addresses):
        self.writes(*each_long(BC_FREE_BUFFER, *addresses))

    def asks(self, server, code=1, handle=0, ptr=0, took=0, free=True, flags=0, body=b"", times=1):
        """A whole call, so many times: it is served, answered and freed. Returns the address of the last answer."""
        got = None
        for _ in range(times):
            address = server.gets(self.sends(handle, code, body=body), ptr)
            self.session.wait(took)
            reply = server.replies(address, b"1234" if flags & STATUS_CODE else b"", flags=flags)
            got = self.answered(reply, free=free)
        return got

    # -- handles

    def is_given(self, server, handle, code=5, take=True, node=None, server_handle=None, via=0, ptr=0, body=b"",
                 weakly=False):
        """Gets this handle in the answer to a call: an object of the server, or one that the server has a handle of."""
        theirs = of_handle(2, server_handle) if server_handle else node_object(node or 0x100 * handle)
        ours, listed = of_handle(2, handle), offsets(0)
        address = server.gets(self.sends(via, code, body=body), ptr)
        reply = server.replies(address, theirs, listed)
        got = self.answered(reply, ours, free=False)
        if take:
            self.writes(*each(BC_INCREFS if weakly else BC_ACQUIRE, handle))
        self.frees(got)

    def is_passed(self, owner, manager, handle, theirs, node=None):
        """Gets this handle of an object that its owner hands over to the manager, which has it by `theirs`."""
        owner.gives(manager, theirs, node=node)
        self.is_given(manager, handle, server_handle=theirs)

    def gives(self, server, handle, code=4, node=None, before=b"", after=b"", flags=0):
        """Hands an object of its own over to the server, which takes it by this handle. Before and after the object
        there may be other data, and the answer may be a status."""
        body, listed = before + node_object(node or 0x9000 + 0x100 * handle) + after, offsets(len(before))
        address = server.gets(self.sends(0, code, body=body, listed=listed), 0, before + of_handle(2, handle) + after)
        server.writes(*each(BC_ACQUIRE, handle))
        self.answered(server.replies(address, b"1234" if flags & STATUS_CODE else b"", flags=flags))

    def ends(self, why="ended"):
        self.session.tell(f"end thread 0 {self.process.number} {self.number} after={self.session.sequence} why={why}")


def node_object(ptr, sort=0):
    return changed(SORTS[sort], (8, u64(ptr)))


class Process:
    def __init__(self, session, number, name, met):
        self.session, self.number, self.name, self.next = session, number, name, 0x7000
        session.tell(f"process 0 {number} pid={number} start=1 opening={number} met={met} name={name}")
        self.main = Thread(session, self, number)

    def thread(self, number):
        return Thread(self.session, self, self.number + number)

    def looper(self, number):
        made = self.thread(number)
        made.writes(record(BC_REGISTER_LOOPER))
        return made

    def address(self):
        self.next += 0x1000
        return self.next

    def is_called(self, command):
        """It has this command line from now on."""
        self.session.tell(f"command 0 {self.number} after={self.session.sequence} uid=10001 name={command}")

    def ends(self):
        """Its main thread ends, and the process with it."""
        self.session.tell(f"end pid {self.number} after={self.session.sequence}")


class Session:
    def __init__(self, has_side=True):
        self.time, self.sequence, self.has_side = 1_000_000_000, 0, has_side
        self.frames, self.lines, self.missing, self.copies = [HEADER_2], [], 0, {}
        self.stack = self.end = None
        self.tell("begin realtime=1 kernel=6.1 machine=x86_64")
        self.tell("device 0 major=10 minor=1 name=binder")

    def tell(self, line):
        self.lines.append(f"{self.time} {line}\n")

    def wait(self, milliseconds):
        self.time += int(milliseconds * 1_000_000)

    def frame(self, direction, thread, records, entries):
        self.wait(1)
        self.sequence += 1
        self.tell(f"frame {self.sequence}")
        if direction == 1 and self.stack is not None:
            self.tell(f"call {self.sequence} stack={self.stack}")
        self.frames.append(frame(direction, self.sequence, thread.process.number, thread.number, records, entries))

    def with_stack(self, stack):
        """From now on writes have this stack; None: they have none."""
        self.stack = stack

    def loses(self, process=None, indeed=True):
        """A frame is lost, if it is one indeed; the side list says whose it was, if a process is given."""
        if not indeed:
            return
        self.sequence += 1
        whose = f" device=0 process={process.number} thread={process.number}" if process else ""
        self.tell(f"lost {self.sequence}{whose} why=ring-full")
        self.missing += 1

    def drops(self, sequence):
        """A frame that is there was lost; the side list says whose it was. Returns the bytes of the frame."""
        at = next(at for at, bytes in enumerate(self.frames[1:], 1) if bytes.startswith(u64(sequence)))
        lost = self.frames.pop(at)
        process, thread = (int.from_bytes(lost[at:at + 4], "little") for at in (8, 12))
        whose = f"device=0 process={process} thread={thread} why=ring-full"
        self.lines = [re.sub(rf" frame {sequence}\n", f" lost {sequence} {whose}\n", line) for line in self.lines
                      if f" call {sequence} " not in line]
        self.missing += 1
        return lost

    def books(self, moment, in_rust="", **openings):
        """The driver's book `state`, copied now: of each process, as `of_100`, the lines; then what the driver in Rust
        writes, if there is one."""
        text = "binder state:\n" + "".join(
            f"proc {name.removeprefix('of_')}\ncontext binder\n{lines}" for name, lines in openings.items()) + in_rust
        self.copies[f"{moment}.state"] = text
        self.tell(f"books {moment} state from={self.sequence} after={self.sequence} bytes={len(text)}")

    def process(self, number, name, met="from-start", enters=False):
        """A new process; `enters`: its main thread says that it takes calls."""
        made = Process(self, number, name, met)
        if enters:
            made.main.writes(ENTER)
        return made

    def two(self, met="from-start", enters=True):
        """A service, which is the context manager and has said that its only thread takes calls, and a client."""
        service, client = self.process(100, "service", met), self.process(200, "client", met)
        service.main.writes(*([ENTER] if enters else []))
        return service, client

    def stops(self, now=True):
        """The recording ends now, and what comes later is in it all the same."""
        self.end = self.time if now else None

    def capture(self):
        return b"".join(self.frames)

    def side(self):
        frames = self.sequence - self.missing
        end = f"{self.end or self.time} end recording after={self.sequence} frames={frames} lost={self.missing}\n"
        return "binder side list 1\n" + "".join(self.lines) + end
