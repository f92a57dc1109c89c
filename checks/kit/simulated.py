"""A made-up Binder driver and processes that use it at random: the capture of a session, and the truth about it.

A process has threads, objects of its own (nodes) and handles. A number of a handle is the lowest free one; it is taken
when an object is sent, and free once the process has neither taken a reference nor holds a buffer with the object. The
oneway transactions of a node come in order, the next one once the buffer of the last one is freed. A call goes to an
idle thread, or to the one that waits further down. Texts, codes and sizes are few, so that much is alike.

A process may ask, by a handle, to be told when the process of the object is frozen or thawed. It is told of one change
after another, each once it has acknowledged the one before. It may never do that; then it keeps its request until it
lets go of the handle. A frozen process goes on here.

A write gets its sequence before the driver works on it, a read when it returns; meanwhile others go on. So the order of
the sequences is not that of the driver.
"""

import random
from collections import Counter, deque
from typing import NamedTuple

from checks.kit.captures import (BC_ACQUIRE, BC_ACQUIRE_DONE, BC_CLEAR_FREEZE_NOTIFICATION, BC_FREEZE_NOTIFICATION_DONE,
                                 BC_FREE_BUFFER, BC_INCREFS_DONE, BC_RELEASE, BC_REPLY, BC_REQUEST_FREEZE_NOTIFICATION,
                                 BC_TRANSACTION, BR_ACQUIRE, BR_CLEAR_FREEZE_NOTIFICATION_DONE, BR_DEAD_REPLY,
                                 BR_FAILED_REPLY, BR_INCREFS, BR_NOOP, BR_REPLY, BR_TRANSACTION,
                                 BR_TRANSACTION_COMPLETE, ENTER, HEADER_2, SORTS, changed, entry, frame, frozen,
                                 of_handle, offsets, places_of, record, transaction, u32, u64, watch)

ONE_WAY = 1
TEXTS = b"", b"tick", b"ping"
ACTS = "find", "call", "listen", "make", "oneway", "give", "drop", "tick", "watch"


class Sent:
    """A transaction or reply that was sent. `frame` and `offset` say where its record is."""

    def __init__(self, thread, code, flags, text, objects, caller=None):
        self.thread, self.code, self.flags, self.text, self.objects = thread, code, flags, text, objects
        self.caller, self.target, self.within = caller, None, None

    @property
    def oneway(self):
        return bool(self.flags & ONE_WAY)


class Node:
    """An object of a process."""

    def __init__(self, owner, ptr):
        self.owner, self.ptr = owner, ptr
        self.references, self.announced, self.busy = 0, False, False
        self.waiting: deque[Sent] = deque()


class Freeze:
    """A request for freeze notifications: the state that is told next, and what the driver has to tell. `told` is the
    notification that waits to be acknowledged; `again`, that there is more to tell then."""

    def __init__(self, cookie, frozen):
        self.cookie, self.frozen = cookie, frozen
        self.told, self.again, self.cleared, self.ignored = None, False, False, False


class Notification:
    """A freeze notification that was told to a process."""

    def __init__(self):
        self.acknowledged = False


class Reference:
    """What a process has of a node by a handle: how often it took it, how many buffers have it, and its request for
    freeze notifications."""

    def __init__(self, node):
        self.node, self.taken, self.held, self.freeze = node, 0, 0, None


class Buffer:
    def __init__(self, sent, handles):
        self.sent, self.handles = sent, handles


class Process:
    def __init__(self, driver, number):
        self.driver, self.number = driver, number
        self.handles, self.buffers, self.threads, self.nodes = {}, {}, [], []
        self.todo: deque[object] = deque()
        self.in_use: Counter[int] = Counter()
        self.listeners, self.leaving, self.dead = [], set(), False
        self.frozen, self.told = False, []

    def thread(self, looper):
        made = Thread(self, self.number + len(self.threads), looper)
        self.threads.append(made)
        self.driver.threads.append(made)
        return made

    def new_node(self):
        self.nodes.append(Node(self, 0x1000 * (len(self.nodes) + 1)))
        return self.nodes[-1]

    def handle_of(self, node):
        """The handle by which it has this node: the lowest free number, if it has none yet."""
        for handle, reference in self.handles.items():
            if reference.node is node:
                return handle
        handle = 0 if node is self.driver.manager else next(n for n in range(1, 1000) if n not in self.handles)
        self.handles[handle] = Reference(node)
        node.references += 1
        return handle

    def drop_if_empty(self, handle):
        reference = self.handles[handle]
        if handle and not reference.taken and not reference.held:
            del self.handles[handle]
            self.forget(reference.freeze)
            reference.node.references -= 1

    def forget(self, freeze):
        """A request for freeze notifications goes with its reference, and what was told by it."""
        if ("freeze", freeze) in self.todo:
            self.todo.remove(("freeze", freeze))
        if freeze in self.told:
            self.told.remove(freeze)

    def take_buffer(self, sent, handles):
        address = next(a for a in range(0x7000, 0x7000_0000, 0x1000) if a not in self.buffers)
        self.buffers[address] = Buffer(sent, handles)
        return address


class Delivery(NamedTuple):
    sent: Sent
    address: int
    body: bytes
    listed: bytes


class Thread:
    """A thread: what it waits for, and its calls, the innermost last. `made` and `served` are its open calls."""

    def __init__(self, process, number, looper):
        self.process, self.number, self.looper = process, number, looper
        self.todo: deque[object] = deque()
        self.stack, self.wake, self.blocked, self.given = [], 0, False, []
        self.writing = ()
        self.life = None

    @property
    def driver(self):
        return self.process.driver

    def is_idle(self):
        return self.looper and not self.stack

    def has_work(self):
        return bool(self.todo) or self.is_idle() and bool(self.process.todo)


class Driver:
    """All processes, and the frames so far. What happens next is drawn from a seed."""

    def __init__(self, seed):
        self.random = random.Random(seed)
        self.time, self.threads, self.processes, self.frames = 0, [], [], []
        self.manager = None

    def process(self):
        made = Process(self, 100 * (len(self.processes) + 1))
        self.processes.append(made)
        return made

    def often(self, hundredths):
        return self.random.random() * 100 < hundredths

    # -- the driver

    def translated(self, objects, sender, receiver):
        """The objects as the receiver gets them, and the handles that its buffer holds."""
        body, handles = [], []
        for kind, what in objects:
            node = what if kind == "own" else sender.handles[what].node if what in sender.handles else None
            if node is None:
                return None
            if node.owner is receiver:
                body.append(node_of(node))
                continue
            if not node.announced and kind == "own":
                node.announced = True
                self.announce(node)
            handle = receiver.handle_of(node)
            receiver.handles[handle].held += 1
            handles.append(handle)
            body.append(of_handle(2, handle))
        return b"".join(body), handles

    def announce(self, node):
        self.acting.todo.append(("records", [node_record(BR_INCREFS, node), node_record(BR_ACQUIRE, node)]))

    def deliver(self, sent, receiver):
        """Puts what was sent into a buffer of the receiver."""
        came = self.translated(sent.objects, sent.thread.process, receiver)
        if came is None:
            return None
        objects, handles = came
        body = sent.text + objects
        listed = offsets(*range(len(sent.text), len(body), 24))
        return Delivery(sent, receiver.take_buffer(sent, handles), body, listed)

    def transact(self, thread, handle, sent):
        """The driver takes a transaction."""
        self.acting = thread
        reference = thread.process.handles.get(handle)
        node = self.manager if handle == 0 else reference.node if reference else None
        if node is None or node.owner.dead or node.owner is thread.process:
            thread.todo.append(("records", [record(BR_DEAD_REPLY)]))
            return
        delivery = self.deliver(sent, node.owner)
        if delivery is None:
            thread.todo.append(("records", [record(BR_FAILED_REPLY)]))
            return
        sent.target = node
        if sent.oneway:
            thread.todo.append(("records", [record(BR_TRANSACTION_COMPLETE)]))
            if node.busy:
                node.waiting.append(delivery)
            else:
                node.busy = True
                node.owner.todo.append(delivery)
            return
        sent.within = thread.stack[-1][1] if thread.stack else None
        thread.stack.append(("made", sent))
        thread.given.append(record(BR_TRANSACTION_COMPLETE))
        waits = self.waiting_below(sent, node.owner)
        (waits or node.owner).todo.append(delivery)

    def waiting_below(self, sent, process):
        """The thread of this process that waits for the sender of a call, if there is one."""
        while sent.within is not None:
            sent = sent.within
            if sent.thread.process is process:
                return sent.thread
        return None

    def reply(self, thread, sent):
        """The driver takes a reply to the innermost call that the thread serves."""
        self.acting = thread
        at = max(n for n, (side, _) in enumerate(thread.stack) if side == "served")
        _, call = thread.stack.pop(at)
        sent.caller = call
        delivery = None if call.thread.process.dead else self.deliver(sent, call.thread.process)
        thread.todo.append(("records", [record(BR_TRANSACTION_COMPLETE if delivery else BR_DEAD_REPLY)]))
        call.thread.todo.append(delivery or ("failed", call))

    def free(self, process, address):
        buffer = process.buffers.pop(address, None)
        if buffer is None:
            return
        for handle in buffer.handles:
            process.handles[handle].held -= 1
            process.drop_if_empty(handle)
        node = buffer.sent.target
        if buffer.sent.oneway and node is not None:
            if node.waiting:
                process.todo.append(node.waiting.popleft())
            else:
                node.busy = False

    def end(self, process):
        """A process ends: no call to it is answered any more, and nothing that waits for it comes."""
        process.dead = True
        waits = [*process.todo, *(it for thread in process.threads for it in thread.todo)]
        fails = [it.sent for it in waits if isinstance(it, Delivery) and it.sent.caller is None]
        fails += [sent for thread in process.threads for side, sent in thread.stack[-1:] if side == "served"]
        for sent in fails:
            if not sent.oneway:
                sent.thread.todo.append(("failed", sent))
        for reference in process.handles.values():
            reference.node.references -= 1

    def change(self, process, handle, by):
        reference = process.handles.get(handle)
        if reference is not None and reference.taken + by >= 0:
            reference.taken += by
            process.drop_if_empty(handle)

    # -- freeze notifications

    def watch(self, process, handle, cookie):
        reference = process.handles[handle]
        reference.freeze = Freeze(cookie, reference.node.owner.frozen)
        process.todo.append(("freeze", reference.freeze))

    def freeze(self, target, frozen):
        """A process is frozen or thawed: all are told that asked for it."""
        target.frozen = frozen
        for process in self.processes:
            for reference in process.handles.values():
                freeze = reference.freeze
                if process.dead or reference.node.owner is not target or freeze is None:
                    continue
                if freeze.told is not None:
                    freeze.again |= freeze.frozen != frozen
                elif ("freeze", freeze) not in process.todo:
                    process.todo.append(("freeze", freeze))
                freeze.frozen = frozen

    def tell(self, process, freeze):
        """What is read of a request: the state, or that the request is cleared."""
        if freeze.cleared:
            return record(BR_CLEAR_FREEZE_NOTIFICATION_DONE, u64(freeze.cookie))
        freeze.told = Notification()
        process.told.append(freeze)
        return frozen(freeze.cookie, int(freeze.frozen))

    def acknowledge(self, process, cookie):
        freeze = next(it for it in process.told if it.cookie == cookie)
        process.told.remove(freeze)
        freeze.told.acknowledged, freeze.told = True, None
        if freeze.again:
            freeze.again = False
            process.todo.append(("freeze", freeze))

    def clear(self, process, handle):
        freeze, process.handles[handle].freeze = process.handles[handle].freeze, None
        freeze.cleared = True
        if freeze.told is not None:
            freeze.again = True
        elif ("freeze", freeze) not in process.todo:
            process.todo.append(("freeze", freeze))

    # -- frames

    def note(self, direction, thread, records, marks=(), entries=()):
        """A frame. `marks` are the records of it that are sent or delivered, by their number."""
        places = places_of(records)
        made = Frame(direction, thread, records, [
            entry(places[at], body, listed) for at, body, listed in entries if body or listed], [
            (places[at], what, sent) for at, what, sent in marks])
        self.frames.append(made)
        return made

    def play(self, frames, now_and_then, share=0.2):
        """Goes on until there are this many frames, or nothing happens any more. At some steps, about one in 500 if the
        share is 0.2, it also calls a function. In the end the driver has done all that is in frames."""
        self.play_on(frames, now_and_then, share)
        for thread in self.threads:
            for _, _, act in thread.writing if not thread.process.dead else ():
                act()

    def play_on(self, frames, now_and_then, share):
        while len(self.frames) < frames:
            if self.often(share):
                now_and_then()
            ready = [it for it in self.threads
                     if not it.process.dead and it.wake <= self.time and (not it.blocked or it.has_work())]
            if not ready:
                later = [it.wake for it in self.threads
                         if not it.process.dead and it.wake > self.time and (not it.blocked or it.has_work())]
                if not later:
                    return
                self.time = min(later)
                continue
            self.time += 1
            thread = self.random.choice(ready)
            thread.wake = self.time + next(thread.life, 10**9)


class Frame(NamedTuple):
    direction: int
    thread: Thread
    records: list
    entries: list
    marks: list


def node_of(node):
    return changed(SORTS[0], (8, u64(node.ptr)))


def node_record(code, node):
    return record(code, u64(node.ptr), u64(0))


# ---- what threads do. Each yields how long it waits until the next step


class Actor:
    """The steps of a thread: one call into the driver after another."""

    def __init__(self, thread, habits):
        self.thread, self.habits, self.owed, self.late = thread, habits, [], []
        self.process, self.driver = thread.process, thread.driver

    def pause(self, least, most):
        return self.driver.random.randint(least, most)

    def call(self, commands, wait):
        """One call into the driver: what it writes, and whether it then waits for work. Returns what it read."""
        if commands:
            records, marks, entries = [], [], []
            for at, (text, sent, _) in enumerate(commands):
                records.append(text)
                if sent is not None:
                    marks.append((at, "sent", sent))
                    body = sent.text + b"".join(node_of(what) if kind == "own" else of_handle(2, what)
                                                for kind, what in sent.objects)
                    entries.append((at, body, offsets(*range(len(sent.text), len(body), 24))))
            self.driver.note(1, self.thread, records, marks, entries)
            self.thread.writing = commands
            yield self.pause(0, 2 if self.driver.often(90) else 20)
            for _, _, act in commands:
                act()
            self.thread.writing = ()
        if not wait and not self.thread.todo:
            return None
        self.thread.blocked = True
        while not self.thread.has_work():
            yield 0
        self.thread.blocked = False
        got, records, marks = None, [record(BR_NOOP), *self.thread.given], []
        self.thread.given = []
        while got is None and (self.thread.todo or wait and len(records) == 1 and self.thread.has_work()):
            work = (self.thread.todo or self.process.todo).popleft()
            if isinstance(work, Delivery):
                got = work
            elif work[0] == "failed":
                got = work
                records.append(record(BR_DEAD_REPLY))
            elif work[0] == "freeze":
                records.append(self.driver.tell(self.process, work[1]))
                if not work[1].cleared:
                    marks.append((len(records) - 1, "told", work[1].told))
                    self.owe_acknowledgement(work[1])
            else:
                records += work[1]
        if isinstance(got, Delivery):
            yield from self.taken(got, records, marks)
        else:
            if got is not None:
                self.thread.stack.remove(("made", got[1]))
            yield self.pause(0, 1)
            self.driver.note(2, self.thread, records, marks)
            self.answer_nodes(records)
        return got

    def owe_acknowledgement(self, freeze):
        """It is owed at once, but for what the process never acknowledges."""
        freeze.ignored = self.driver.often(self.habits.ignores)
        if not freeze.ignored:
            self.owed.append((record(BC_FREEZE_NOTIFICATION_DONE, u64(freeze.cookie)), None,
                              lambda: self.driver.acknowledge(self.process, freeze.cookie)))

    def answer_nodes(self, records):
        for text in records:
            if text[:4] == u32(BR_INCREFS):
                self.owed.append((u32(BC_INCREFS_DONE) + text[4:], None, lambda: None))
            elif text[:4] == u32(BR_ACQUIRE):
                self.owed.append((u32(BC_ACQUIRE_DONE) + text[4:], None, lambda: None))

    def taken(self, got, records, marks):
        """A delivery is taken out of the driver, and some time later the call returns."""
        sent = got.sent
        if sent.caller is not None:
            side, call = self.thread.stack.pop()
            assert side == "made" and call is sent.caller
            made = transaction(BR_REPLY, 0, 0, sent.flags, 0, (len(got.body), len(got.listed)), got.address)
        else:
            if not sent.oneway:
                self.thread.stack.append(("served", sent))
            told = 0 if sent.oneway else sent.thread.process.number
            made = transaction(BR_TRANSACTION, sent.target.ptr, sent.code, sent.flags, told,
                               (len(got.body), len(got.listed)), got.address)
        records.append(made)
        yield self.pause(0, 1) if self.driver.often(95) else self.pause(2, 12)
        self.driver.note(2, self.thread, records, [*marks, (len(records) - 1, "came", sent)],
                         [(len(records) - 1, got.body, got.listed)])
        self.answer_nodes(records)

    # -- commands

    def send(self, handle, code, flags, text, objects=()):
        return self.command(BC_TRANSACTION, handle, Sent(self.thread, code, flags, text, list(objects)),
                            lambda sent: self.driver.transact(self.thread, handle, sent))

    def reply(self, text, objects=()):
        return self.command(BC_REPLY, 0, Sent(self.thread, 0, 0, text, list(objects)),
                            lambda sent: self.driver.reply(self.thread, sent))

    def command(self, kind, handle, sent, act):
        """A send. Until the driver has taken it, its handles are in use."""
        handles = [handle, *(what for kind, what in sent.objects if kind == "of")]
        self.process.in_use.update(handles)

        def taken():
            act(sent)
            self.process.in_use.subtract(handles)
        size = len(sent.text) + 24 * len(sent.objects), 8 * len(sent.objects)
        return transaction(kind, handle, sent.code, sent.flags, 0, size), sent, taken

    def free(self, address):
        return (record(BC_FREE_BUFFER, u64(address)), None, lambda: self.driver.free(self.process, address))

    def take(self, handle):
        return record(BC_ACQUIRE, u32(handle)), None, lambda: self.driver.change(self.process, handle, 1)

    def let_go(self, handle):
        self.process.leaving.add(handle)

        def taken():
            self.driver.change(self.process, handle, -1)
            self.process.leaving.discard(handle)
        return record(BC_RELEASE, u32(handle)), None, taken

    # -- a delivery

    def handles_in(self, got):
        return self.process.buffers[got.address].handles

    def use(self, got):
        """What a thread does with a delivery before it frees it: it takes the handles in it."""
        for handle in self.handles_in(got):
            if self.process.handles[handle].taken == 0 or self.driver.often(20):
                yield self.take(handle)

    def serve(self, got):
        """Works on a delivery, and replies."""
        sent = got.sent
        takes = list(self.use(got))
        if self.habits.listens and sent.code == 3:
            self.process.listeners += self.handles_in(got)
        if sent.oneway:
            if takes or self.driver.often(30):
                yield from self.call(takes + self.due(), False)
            yield self.pause(*self.habits.works)
            self.owed.append(self.free(got.address))
            return
        if takes:
            yield from self.call(takes, False)
        if sent.code != 1 and self.driver.often(self.habits.nests) and len(self.thread.stack) < 3:
            yield from self.act()
        yield self.pause(*self.habits.works)
        text, objects = self.driver.random.choice(TEXTS[:2]), []
        if sent.code == 1:
            known = self.known()
            objects = [("of", self.driver.random.choice(known))] if known else []
        elif sent.code == 4:
            objects = [("own", self.some_node())]
        early = self.driver.often(50)
        freed = self.free(got.address)
        replied = self.reply(text, objects)
        yield from self.call([freed, replied] if early else [replied, freed], False)
        yield from self.drained()

    def some_node(self):
        if self.process.nodes and self.driver.often(30):
            return self.driver.random.choice(self.process.nodes)
        return self.process.new_node()

    def due(self):
        owed, self.owed = self.owed, []
        return owed

    def drained(self):
        """Reads what the driver has for the thread alone."""
        while self.thread.todo and not isinstance(self.thread.todo[0], Delivery):
            yield from self.call([], False)

    # -- what it does by itself

    def full_call(self, handle, code, text, objects=()):
        """A call up to its answer. What comes meanwhile is served."""
        yield from self.drained()
        depth = len(self.thread.stack)
        got = yield from self.call(self.due() + [self.send(handle, code, 0, text, objects)], True)
        while len(self.thread.stack) > depth or isinstance(got, Delivery) and got.sent.caller is None:
            if isinstance(got, Delivery) and got.sent.caller is None:
                yield from self.serve(got)
                if len(self.thread.stack) <= depth:
                    return
            got = yield from self.call(self.due(), True)
        if isinstance(got, Delivery):
            takes = list(self.use(got))
            yield from self.call(takes + [self.free(got.address)], False)

    def known(self):
        """The handles that it may use: those that it has taken, and that no thread lets go of."""
        return [h for h, it in self.process.handles.items() if it.taken and h not in self.process.leaving]

    def act(self):
        """One thing that a thread does by itself."""
        yield from self.drained()
        draw, text = self.driver.random, self.driver.random.choice(TEXTS)
        what = draw.choices(ACTS, self.habits.weights)[0]
        known = self.known()
        if what == "find" or not known:
            yield from self.full_call(0, 1, text)
        elif what == "call":
            yield from self.full_call(draw.choice(known), 2, text)
        elif what == "listen":
            yield from self.full_call(draw.choice(known), 3, text, [("own", self.some_node())])
        elif what == "make":
            yield from self.full_call(draw.choice(known), 4, text)
        elif what == "oneway":
            yield from self.oneways([draw.choice(known)], 5, text)
        elif what == "give":
            given = ("of", draw.choice(known)) if self.driver.often(50) else ("own", self.some_node())
            if self.driver.often(50):
                yield from self.oneways([draw.choice(known)], 6, text, [given])
            else:
                yield from self.full_call(draw.choice(known), 6, text, [given])
        elif what == "drop":
            unused = [handle for handle in known if not self.process.in_use[handle] and not self.is_watched(handle)]
            if unused:
                yield from self.call(self.due() + [self.let_go(draw.choice(unused))], False)
        elif what == "watch":
            handle = draw.choice(known)
            freeze = self.process.handles[handle].freeze
            if not self.process.in_use[handle] and (freeze is None or not freeze.ignored):
                yield from self.call(self.due() + [self.watch_or_clear(handle)], False)
        else:
            for _ in range(draw.randint(1, 3)):
                known = self.known()
                listeners = [h for h in dict.fromkeys(self.process.listeners) if h in known]
                yield from self.oneways(listeners or known, 5, text)

    def is_watched(self, handle):
        """Whether the driver may still tell something of a handle that the process answers to."""
        freeze = self.process.handles[handle].freeze
        return freeze is not None and not freeze.ignored

    def watch_or_clear(self, handle):
        """Asks for freeze notifications of a handle, or takes the request back."""
        self.process.in_use[handle] += 1
        cookie = 0x100 * handle

        def taken(act):
            act()
            self.process.in_use[handle] -= 1
        if self.process.handles[handle].freeze is not None:
            return (watch(BC_CLEAR_FREEZE_NOTIFICATION, handle, cookie), None,
                    lambda: taken(lambda: self.driver.clear(self.process, handle)))
        return (watch(BC_REQUEST_FREEZE_NOTIFICATION, handle, cookie), None,
                lambda: taken(lambda: self.driver.watch(self.process, handle, cookie)))

    def oneways(self, handles, code, text, objects=()):
        """The same text to each of these handles, in one write or in several."""
        sends = [self.send(handle, code, ONE_WAY, text, objects) for handle in handles]
        for some in ([sends] if self.driver.often(30) else [[it] for it in sends]):
            yield from self.call(self.due() + some, False)
            yield from self.drained()

    def register(self):
        """A service names an object of its own to the manager."""
        yield from self.full_call(0, 7, TEXTS[0], [("own", self.some_node())])

    def live(self):
        yield self.pause(0, 30)
        if self.thread.looper:
            yield from self.call([(ENTER, None, lambda: None)], False)
        if self.habits.registers and self.thread is self.process.threads[0]:
            yield from self.register()
        while True:
            if self.thread.looper:
                got = yield from self.call(self.due(), True)
                if isinstance(got, Delivery):
                    yield from self.serve(got)
            else:
                yield self.pause(*self.habits.rests)
                yield from self.act()


class Habits(NamedTuple):
    """What a process does: how often each of ACTS, how long it rests and works, how often it calls while it serves, and
    of how many hundredths of the freeze notifications it acknowledges none."""
    weights: tuple
    rests: tuple = (5, 60)
    works: tuple = (0, 8)
    nests: int = 15
    registers: bool = True
    listens: bool = True
    ignores: int = 0


def began(driver, loopers, others, habits):
    process = driver.process()
    for at in range(loopers + others):
        thread = process.thread(at < loopers)
        thread.life = Actor(thread, habits).live()
    return process


# ---- the capture, and the truth about it


class Truth(NamedTuple):
    """Of each delivery, by its place, the place of the send that it came from; None if that is not in the capture. The
    places of the freeze notifications that were not acknowledged."""
    capture: bytes
    sent_at: dict
    ignored: list


def capture_of(frames, left_out=frozenset(), first=0):
    """The capture of these frames from the first one on, without those that are left out. Sequences go on over them."""
    text, places, came, told = [HEADER_2], {}, {}, {}
    at = len(HEADER_2)
    for sequence, it in enumerate(frames[first:], 1):
        if sequence in left_out:
            continue
        made = frame(it.direction, sequence, it.thread.process.number, it.thread.number, it.records, it.entries)
        for offset, what, sent in it.marks:
            place = at + 32 + offset
            if what == "sent":
                places[sent] = place
            elif what == "told":
                told[place] = sent
            else:
                came[place] = sent
        text.append(made)
        at += len(made)
    return Truth(b"".join(text), {place: places.get(sent) for place, sent in came.items()},
                 [place for place, it in told.items() if not it.acknowledged])
