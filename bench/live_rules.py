"""The rules of live runs, plainly over whole histories: frames, what a replica may do, what an object is, and live inputs.

`bench/live_check.py` reads texts by them, and `bench/live_made.py` makes texts by them; `bench/keep_rules.py` has scripts of
durable replicas by the same rules, and `bench/list_rules.py` those of a store. Nothing here is quick: a state is the list of all
messages that were delivered, and each test and each answer asks that list.
"""

import operator
import re
from typing import NamedTuple

from elements import Elements

# How many messages a member sends at most, and the bytes of an input, a line, a key and a value.
LIMIT = 65535
INPUT_BYTES = 4194304
LINE_BYTES = 16384
KEY = re.compile(rb"[a-z0-9_.-]{1,32}")
VALUE_BYTES = 4096
OLD_VALUE_BYTES = 64
# The operations in the order of their codes, from 1: kind, act, and what it takes.
OPERATIONS = [
    (b"awset", b"add", "value"), (b"awset", b"rmv", "value"), (b"awset", b"clear", None),
    (b"rwset", b"add", "value"), (b"rwset", b"rmv", "value"), (b"rwset", b"clear", None),
    (b"ewflag", b"enable", None), (b"ewflag", b"disable", None), (b"ewflag", b"clear", None),
    (b"dwflag", b"enable", None), (b"dwflag", b"disable", None), (b"dwflag", b"clear", None),
    (b"mvreg", b"write", "value"), (b"mvreg", b"clear", None),
    (b"counter", b"inc", "amount"), (b"counter", b"dec", "amount"),
    (b"rcounter", b"inc", "amount"), (b"rcounter", b"dec", "amount"), (b"rcounter", b"clear", None),
    (b"list", b"ins", "place"), (b"list", b"del", "id"), (b"list", b"clear", None),
]
# How many words stand behind an act for what it takes: a value, an amount, a value and a place, the id of an element, or nothing.
WORDS = {"value": 1, "amount": 1, "place": 2, "id": 1, None: 0}
# The last code of frames of version 1.
OLD_CODES = 19
KINDS = list(dict.fromkeys(kind for kind, _, _ in OPERATIONS))


# ---------------------------------------------------------------- messages
class Operation(NamedTuple):
    """An operation on an object, as its text says it; a no-op has the code 0 and nothing else. An element is named by its id, as
    three numbers, and the head is `None`."""

    code: int
    object: bytes | None = None
    argument: bytes | int | None = None
    element: tuple | None = None

    @property
    def act(self):
        return OPERATIONS[self.code - 1][1] if self.code else None


NO_OP = Operation(0)


class Message(NamedTuple):
    """What a member sends: who it is of, how many messages of each member its sender had, itself counted, what it does, and its
    epoch."""

    origin: int
    tag: tuple
    operation: Operation
    epoch: int = 0

    @property
    def number(self):
        return self.tag[self.origin]

    @property
    def id(self):
        return self.origin, self.number

    def is_after(self, earlier):
        """Whether it happened after another."""
        if self.epoch != earlier.epoch:
            return self.epoch > earlier.epoch
        return self.tag[earlier.origin] >= earlier.number and self.id != earlier.id


def is_value(word):
    """Whether a word is a value."""
    if not 1 <= len(word) <= VALUE_BYTES or any(byte <= 0x20 or byte == 0x7F for byte in word):
        return False
    try:
        word.decode()
    except UnicodeDecodeError:
        return False
    return True


# ---------------------------------------------------------------- frames
class BadFrame(Exception):
    """Bytes that are no frame, with the number of their first fault."""


def frame_of(message, n):
    """The frame of a message among n members, in the version that is written."""
    code, object_, argument, element = message.operation
    parts = [bytes([2, message.origin, n, code]), message.epoch.to_bytes(4, "big"), *(entry.to_bytes(4, "big") for entry in message.tag)]
    if code:
        key = object_.split(b":", 1)[1]
        parts += [len(key).to_bytes(2, "big"), key]
        if isinstance(argument, bytes):
            parts += [len(argument).to_bytes(2, "big"), argument]
        elif argument is not None:
            parts.append(argument.to_bytes(4, "big"))
        if OPERATIONS[code - 1][2] == "place":
            parts.append(bytes([element is not None]))
        if element is not None:
            parts += [element[0].to_bytes(4, "big"), bytes([element[1]]), element[2].to_bytes(4, "big")]
    return b"".join(parts)


class Fields:
    """The bytes of a frame behind its timestamp, which are taken field by field; lengths have so many bytes. What is cut, or not
    as it has to be, is told by a fault."""

    def __init__(self, data, length):
        self.data, self.length = data, length

    def bytes(self, size, fault):
        """So many bytes."""
        if len(self.data) < size:
            raise BadFrame(fault)
        taken, self.data = self.data[:size], self.data[size:]
        return taken

    def number(self, size, fault):
        return int.from_bytes(self.bytes(size, fault), "big")

    def text(self, is_right, fault):
        """A length, and as many bytes, which have to be right."""
        taken = self.bytes(self.number(self.length, fault), fault)
        if not is_right(taken):
            raise BadFrame(fault)
        return taken

    def value(self):
        most = VALUE_BYTES if self.length == 2 else OLD_VALUE_BYTES
        return self.text(lambda value: len(value) <= most and is_value(value), 8)

    def id(self):
        """The id of an element."""
        id_ = self.number(4, 8), self.number(1, 8), self.number(4, 8)
        if not is_id(*id_):
            raise BadFrame(8)
        return id_

    def place(self):
        """The head, or an id."""
        is_behind = self.number(1, 8)
        if is_behind > 1:
            raise BadFrame(8)
        return self.id() if is_behind else None

    def operation(self, code):
        """What a code other than 0 does."""
        kind, _, takes = OPERATIONS[code - 1]
        object_ = kind + b":" + self.text(KEY.fullmatch, 7)
        if takes == "value":
            return Operation(code, object_, self.value())
        if takes == "amount":
            return Operation(code, object_, self.number(4, 8))
        if takes == "place":
            return Operation(code, object_, self.value(), self.place())
        return Operation(code, object_, element=self.id() if takes == "id" else None)


def message_of(data, n, epoch=0, limit=None, oldest=2):
    """The message whose frame these bytes are, among n members, in an epoch. Version 1 is read where it is the oldest that is."""
    is_wide = data[:1] == b"\2"
    head = 8 if is_wide else 4
    if len(data) < head + 4 * n:
        raise BadFrame(1)
    version, origin, members, code = data[:4]
    faults = [
        (not is_wide and not (version == oldest == 1 and epoch == 0), 2), (is_wide and data[4:8] != epoch.to_bytes(4, "big"), 10),
        (members != n, 3), (origin >= n, 4), (code > (len(OPERATIONS) if is_wide else OLD_CODES), 5),
    ]
    for is_so, fault in faults:
        if is_so:
            raise BadFrame(fault)
    tag = tuple(int.from_bytes(data[head + 4 * x:head + 4 + 4 * x], "big") for x in range(n))
    if tag[origin] == 0 or max(tag) > (LIMIT if limit is None else limit):
        raise BadFrame(6)
    fields = Fields(data[head + 4 * n:], 2 if is_wide else 1)
    operation = fields.operation(code) if code else NO_OP
    if fields.data:
        raise BadFrame(9)
    return Message(origin, tag, operation, epoch)


# ---------------------------------------------------------------- one replica
def is_below(one, other):
    """Whether no entry of a timestamp is above that of another."""
    return all(map(operator.le, one, other))


class State:
    """What a replica has: all messages that it delivered, in their order, those of each member of its epoch too, and its early
    ones. It begins an epoch with what it delivered in those before."""

    def __init__(self, me, n, w, limit=None, epoch=0, past=()):
        self.me, self.n, self.w, self.epoch = me, n, w, epoch
        self.limit = LIMIT if limit is None else limit
        self.noop_window = 2 * (n - 1) * w + 1
        self.history = list(past)
        self.of = [[] for _ in range(n)]
        self.early = {}

    def counts(self):
        """How many messages of each member were delivered."""
        return tuple(map(len, self.of))

    def last(self, y):
        """The timestamp of the last message of a member."""
        return self.of[y][-1].tag if self.of[y] else (0,) * self.n

    def known(self, y):
        """What a member is known to have delivered."""
        return self.counts() if y == self.me else self.last(y)

    def stable(self):
        """How many messages of each member every member is known to have."""
        return tuple(map(min, zip(*map(self.known, range(self.n)))))

    def stable_messages(self):
        """The messages that are stable: those of epochs that are over, and of this as many of each member as all are known to have."""
        stable = self.stable()
        return [m for m in self.history if m.epoch < self.epoch or m.number <= stable[m.origin]]

    def unstable(self, is_noop):
        """How many own operations aren't stable, or how many own no-ops."""
        return sum((m.operation == NO_OP) == is_noop for m in self.outbox())

    def outbox(self):
        """The own messages that aren't stable, oldest first."""
        return self.of[self.me][self.stable()[self.me]:]

    def deliver(self, message):
        self.history.append(message)
        self.of[message.origin].append(message)

    # --- sending
    def local_refusal(self):
        """Why no operation can be sent, or `None`."""
        if self.unstable(is_noop=False) == self.w:
            return b"busy"
        return b"end" if len(self.of[self.me]) == self.limit else None

    def is_due(self):
        """Whether an operation of another member was delivered since the last own message, or at all where there is none."""
        for message in reversed(self.history):
            if message.origin == self.me or message.epoch < self.epoch:
                return False
            if message.operation != NO_OP:
                return True
        return False

    def beat_refusal(self):
        """Why no no-op can be sent, or `None`."""
        if not self.is_due():
            return b"quiet"
        if self.unstable(is_noop=True) == self.noop_window:
            return b"held"
        return b"end" if len(self.of[self.me]) == self.limit else None

    def own(self, operation):
        """The next own message, where it may be sent."""
        counts = self.counts()
        return Message(self.me, counts[:self.me] + (counts[self.me] + 1,) + counts[self.me + 1:], operation, self.epoch)

    # --- receiving
    def refusal(self, message):
        """Why a message isn't accepted, or `None`."""
        have, own = len(self.of[message.origin]), len(self.of[self.me])
        if message.origin == self.me or message.number <= have:
            return b"old"
        if message.id in self.early:
            return b"again"
        if message.number > have + self.w + self.noop_window or message.tag[self.me] > own:
            return b"far"
        return None

    def is_deliverable(self, message):
        """Whether it is the next of its member, and all else that it has seen was delivered."""
        counts = self.counts()
        return all(message.tag[x] == counts[x] + 1 if x == message.origin else message.tag[x] <= counts[x] for x in range(self.n))

    def next_early(self):
        """The early message that is taken next: of those that can be delivered the one of the least member."""
        nexts = (self.early.get((x, len(self.of[x]) + 1)) for x in range(self.n))
        return next((message for message in nexts if message is not None and self.is_deliverable(message)), None)

    def crook(self, message):
        """Why a message that can be delivered doesn't fit what was delivered, or `None`."""
        if not is_below(self.last(message.origin), message.tag):
            return "it has seen less than its member's last message had"
        for x, seen in enumerate(message.tag):
            if x != message.origin and seen and not is_below(self.of[x][seen - 1].tag, message.tag):
                return "it has seen less than a message had that it has seen"
        known = [message.number if y in (self.me, message.origin) else self.known(y)[message.origin] for y in range(self.n)]
        unstable = [m.operation == NO_OP for m in [*self.of[message.origin], message][min(known):]]
        if unstable.count(False) > self.w:
            return "more operations of its member than its window aren't stable with it"
        if unstable.count(True) > self.noop_window:
            return "more no-ops of its member than their window aren't stable with it"
        return None

    def steps(self):
        """Takes early messages while one can be delivered, and tells for each its id, and why it was dropped or `None`."""
        while (message := self.next_early()) is not None:
            del self.early[message.id]
            why = self.crook(message)
            if why is None:
                self.deliver(message)
            yield message.id, why


# ---------------------------------------------------------------- what objects are
def answer_of(object_, history, elements=Elements):
    """What an object is after these messages: `=`, and its answer. The elements of a list are told by a class."""
    done = [m for m in history if m.operation.object == object_]
    kind = object_.split(b":", 1)[0]

    def of_act(*acts):
        return [m for m in done if m.operation.act in acts]

    def of_value(value, act):
        return [m for m in done if m.operation.act == act and m.operation.argument == value]

    def is_followed(m, others):
        return any(other.is_after(m) for other in others)

    def add_wins(adds, takers):
        return any(not is_followed(m, takers) for m in adds)

    def live(messages):
        clears = of_act(b"clear")
        return [m for m in messages if not is_followed(m, clears)]

    def remove_wins(adds, removes):
        return bool(live(adds)) and all(is_followed(m, adds) for m in live(removes))

    named = sorted({m.operation.argument for m in done if isinstance(m.operation.argument, bytes)})
    if kind == b"awset":
        values = [v for v in named if add_wins(of_value(v, b"add"), of_value(v, b"rmv") + of_act(b"clear"))]
    elif kind == b"rwset":
        values = [v for v in named if remove_wins(of_value(v, b"add"), of_value(v, b"rmv"))]
    elif kind == b"mvreg":
        values = [v for v in named if add_wins(of_value(v, b"write"), done)]
    elif kind == b"ewflag":
        values = [b"on" if add_wins(of_act(b"enable"), of_act(b"disable", b"clear")) else b"off"]
    elif kind == b"dwflag":
        values = [b"on" if remove_wins(of_act(b"enable"), of_act(b"disable")) else b"off"]
    elif kind == b"list":
        values = elements(done).values()
    else:
        counted = live(of_act(b"inc", b"dec")) if kind == b"rcounter" else done
        values = [b"%d" % sum(m.operation.argument if m.operation.act == b"inc" else -m.operation.argument for m in counted)]
    return b" ".join([b"=", *values])


# ---------------------------------------------------------------- live inputs
class Bad(Exception):
    """A line that is no command, with its code."""


class Command(NamedTuple):
    """A client's command: what it does, or the object that it asks for."""

    line: int
    operation: Operation | None
    object: bytes


class Run:
    """What a live input asks for: its numbers, each client's commands and replica, and its bad lines with their codes."""

    def __init__(self, n, w, clients, turns, loss):
        self.n, self.w, self.clients, self.turns, self.loss = n, w, clients, turns, loss
        self.commands = [[] for _ in range(clients)]
        self.at = [c % n for c in range(clients)]
        self.bad_lines = []

    def objects(self):
        """The objects that commands name, in byte order and each once."""
        return sorted({command.object for commands in self.commands for command in commands})


def number_of(word):
    """The number that a word is, or `None`."""
    return int(word) if re.fullmatch(rb"[0-9]{1,10}", word) and int(word) < 2**32 else None


def member_of(word, n):
    """A client or a replica below n."""
    number = number_of(word)
    if number is None or number >= n:
        raise Bad(4)
    return number


def object_of(word):
    """An object's text."""
    kind, colon, key = word.partition(b":")
    if kind not in KINDS or not colon or not KEY.fullmatch(key):
        raise Bad(5)
    return word


def is_id(epoch, origin, number):
    """Whether three numbers are the id of an element, if of none that there is."""
    return origin <= 15 and number >= 1


def id_of(word):
    """The id of an element."""
    numbers = tuple(map(number_of, word.split(b".")))
    if len(numbers) != 3 or None in numbers or not is_id(*numbers):
        raise Bad(8)
    return numbers


def amount_of(word):
    """A number."""
    number = number_of(word)
    if number is None:
        raise Bad(8)
    return number


def operation_of(words):
    """The operation that an object, an act and what it takes are."""
    object_, act, *arguments = object_of(words[0]), *words[1:]
    kind = object_.split(b":", 1)[0]
    code = next((at for at, (of, name, _) in enumerate(OPERATIONS, 1) if (of, name) == (kind, act)), None)
    if code is None or len(arguments) != WORDS[OPERATIONS[code - 1][2]]:
        raise Bad(6)
    takes = OPERATIONS[code - 1][2]
    if takes in ("value", "place") and not is_value(arguments[0]):
        raise Bad(7)
    if takes == "value":
        return Operation(code, object_, arguments[0])
    if takes == "amount":
        return Operation(code, object_, amount_of(arguments[0]))
    if takes == "place":
        return Operation(code, object_, arguments[0], None if arguments[1] == b"head" else id_of(arguments[1]))
    return Operation(code, object_, element=id_of(arguments[0]) if takes == "id" else None)


def words_of(line):
    """The words of a line, without the CR at its end."""
    return re.findall(rb"[^ \t]+", line.removesuffix(b"\r"))


def take_line(run, number, line):
    """Notes what a line behind the header asks for."""
    if len(line.removesuffix(b"\r")) > LINE_BYTES:
        raise Bad(1)
    first, *words = words_of(line)
    if first == b"client":
        if len(words) != 2:
            raise Bad(3)
        c, r = member_of(words[0], run.clients), member_of(words[1], run.n)
        run.at[c] = r
        return
    if not re.fullmatch(rb"[0-9]+:", first) or words and words[0] not in (b"do", b"ask"):
        raise Bad(2)
    if not words or words[0] == b"do" and len(words) not in (3, 4, 5) or words[0] == b"ask" and len(words) != 2:
        raise Bad(3)
    c = member_of(first[:-1], run.clients)
    if words[0] == b"ask":
        run.commands[c].append(Command(number, None, object_of(words[1])))
        return
    operation = operation_of(words[1:])
    run.commands[c].append(Command(number, operation, operation.object))


def header_of(line):
    """The run of a header, or `None`."""
    words = words_of(line)
    numbers = [number_of(word) for word in words[1:]]
    if len(line.removesuffix(b"\r")) > LINE_BYTES or words[0] != b"live" or len(numbers) != 5 or None in numbers:
        return None
    ranges = ((1, 16), (1, 64), (1, 8), (0, 10000), (0, 1000000))
    return Run(*numbers) if all(least <= number <= most for number, (least, most) in zip(numbers, ranges)) else None


def read_input(data):
    """What a live input asks for. `None` where it has no header of a live run, or is too long."""
    lines = data.split(b"\n")
    run = None
    for number, line in enumerate(lines, 1):
        words = words_of(line)
        if not words or words[0].startswith(b"#"):
            continue
        if run is None:
            run = header_of(line)
            if run is None:
                return None
            continue
        try:
            take_line(run, number, line)
        except Bad as bad:
            run.bad_lines.append((number, bad.args[0]))
    return run if len(data) <= INPUT_BYTES else None
