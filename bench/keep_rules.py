#!/usr/bin/env python3
"""The rules of scripts of durable replicas, plainly over whole lists of notes: a script in, its transcript out.

usage: bench/keep_rules.py SCRIPT    writes what the script has to reply; the status is 2 where it has no header `keep`

A replica is the groups of notes that are kept of it. What it delivered and what waits is had from their replay, a log and settled
items by asking all that was delivered, and a stop by adding up the lengths of records. What a replica may send and accept, and
what an object is, are the rules of live runs (`bench/live_rules.py`). Nothing here is quick, and nothing is shared with the
program: `.ci/keep` compares the two.
"""

import sys
from typing import NamedTuple

sys.dont_write_bytecode = True
from elements import Elements
from live_rules import (
    LINE_BYTES, NO_OP, Bad, Message, State, amount_of, answer_of, frame_of, member_of, number_of, object_of, operation_of, words_of,
)

# How many messages a member sends at most where the header doesn't say.
USUAL_LIMIT = 10000
# The commands, with how many words stand behind each.
COMMANDS = {
    b"do": (3, 4, 5), b"ask": (2,), b"ids": (2,), b"tombs": (2,), b"beat": (1,), b"give": (3,), b"log": (1,), b"size": (1,),
    b"stable": (1,), b"seen": (1,), b"stop": (2,),
}
# The acts that are logged, by their kinds.
LOGGED = {
    b"awset": (b"add",), b"rwset": (b"add", b"rmv"), b"ewflag": (b"enable",), b"dwflag": (b"enable", b"disable"),
    b"mvreg": (b"write",), b"counter": (), b"rcounter": (b"inc", b"dec"), b"list": (b"del", b"clear"),
}


# ---------------------------------------------------------------- notes and records
class Note(NamedTuple):
    """What is noted of a call: a message that was sent or accepted, or the id of one that was taken, or dropped."""

    word: str
    message: Message | None = None
    id: tuple | None = None


def record_of(group, n):
    """The record of a group of notes: its length, how its message came, and the message's frame."""
    first = group[0]
    content = bytes([1 if first.word == "sent" else 2]) + frame_of(first.message, n)
    return len(content).to_bytes(4, "big") + content


def replay(groups, state):
    """The state that groups of notes give, from one that has nothing."""
    for note in (note for group in groups for note in group):
        if note.word == "sent":
            state.deliver(note.message)
        elif note.word == "kept":
            state.early[note.message.id] = note.message
        else:
            message = state.early.pop(note.id)
            if note.word == "took":
                state.deliver(message)
    return state


# ---------------------------------------------------------------- logs and settled items
def kind_of(message):
    return message.operation.object.split(b":", 1)[0]


def is_logged(message):
    """Whether an operation is one that its kind logs."""
    return message.operation.act in LOGGED[kind_of(message)]


def value_of(message):
    """The value that an operation names, or `None`."""
    argument = message.operation.argument
    return argument if isinstance(argument, bytes) else None


def covers(later, earlier):
    """Whether an operation makes an earlier one of its object redundant, which is logged. In a list none does."""
    kind = kind_of(earlier)
    if kind in (b"ewflag", b"dwflag", b"mvreg") or kind != b"list" and later.operation.act == b"clear":
        return True
    return kind in (b"awset", b"rwset") and value_of(later) == value_of(earlier)


def is_covered(message, done):
    """Whether one of what was done makes an operation redundant that is logged."""
    later = (m for m in done if m.operation.object == message.operation.object and m.is_after(message))
    return is_logged(message) and any(covers(m, message) for m in later)


def operations_of(state):
    """The messages with an operation that a replica delivered."""
    return [message for message in state.history if message.operation != NO_OP]


def uncovered_of(state):
    """The operations that no later one covers: those that are stable, and those that aren't."""
    done, stable = operations_of(state), state.stable_messages()
    uncovered = [m for m in done if not is_covered(m, done)]
    return [m for m in uncovered if m in stable], [m for m in uncovered if m not in stable]


def log_of(state):
    """The ids of a log, oldest first."""
    return [message.id for message in uncovered_of(state)[1] if is_logged(message)]


def sum_of(messages):
    """What increments and decrements add up to."""
    signs = {b"inc": 1, b"dec": -1}
    return sum(signs[m.operation.act] * m.operation.argument for m in messages if m.operation.act in signs)


def is_item(kind, done, settled, pending):
    """Whether there is a settled item of an object, or of one of its values, by what was done to it: all, what of that is stable
    and uncovered, and what is uncovered alone.
    """
    if kind in (b"counter", b"rcounter"):
        return sum_of(done if kind == b"counter" else settled) != 0
    puts_in, takes_out = (b"add", b"write", b"enable"), (b"rmv", b"disable")
    # Where what takes out wins, it stays as long as something that puts in isn't stable.
    if kind in (b"rwset", b"dwflag") and any(m.operation.act in takes_out for m in settled):
        return any(m.operation.act in puts_in for m in pending)
    return any(m.operation.act in puts_in for m in settled)


def items_of(state):
    """How many settled items there are."""
    lists = operations_of(state), *uncovered_of(state)

    def place_of(message):
        return message.operation.object, value_of(message)

    places = set(map(place_of, lists[0]))
    of_each = ([[m for m in messages if place_of(m) == place] for messages in lists] for place in places)
    return sum(is_item(kind_of(of_place[0][0]), *of_place) for of_place in of_each)


# ---------------------------------------------------------------- a replica
class Replica:
    """A durable replica: its groups of notes, how many of them are synced, and their replay."""

    def __init__(self, numbers):
        self.numbers = numbers
        self.groups, self.synced, self.state = [], 0, State(*numbers)

    def send(self, operation, why):
        """Sends an operation or a no-op, unless it is refused: all is synced then. What it replies, and the message."""
        if why is not None:
            return why, None
        message = self.state.own(operation)
        self.state.deliver(message)
        self.groups.append([Note("sent", message)])
        self.synced = len(self.groups)
        return b"ok %d" % message.number, message

    def receive(self, message):
        """Accepts a message, unless it is refused: nothing is synced. What it replies."""
        why = self.state.refusal(message)
        if why is not None:
            return why
        self.state.early[message.id] = message
        steps = list(self.state.steps())
        self.groups.append([Note("kept", message)] + [Note("took" if why is None else "crook", id=id_) for id_, why in steps])
        words = [b"%s%d:%d" % (b"" if why is None else b"!", *id_) for id_, why in steps]
        return b" ".join([b"took", *words]) if words else b"kept"

    def left(self, room):
        """The groups that a stop leaves: those that are synced, and the next whose records have at most so many bytes."""
        left = self.groups[:self.synced]
        for group in self.groups[self.synced:]:
            room -= len(record_of(group, self.state.n))
            if room < 0:
                break
            left.append(group)
        return left

    def stop(self, room):
        """Stops it and opens it again. What it replies."""
        self.groups = self.left(room)
        self.synced = len(self.groups)
        self.state = replay(self.groups, State(*self.numbers))
        return b"open %d" % sum(map(len, self.groups))


# ---------------------------------------------------------------- a script
def list_of(word):
    """A list's text."""
    object_ = object_of(word)
    if not object_.startswith(b"list:"):
        raise Bad(5)
    return object_


class Store:
    """The durable replicas of a script, and what each member sent."""

    # The word of its header, and its commands; what a replica is made by, and what tells the elements of a list.
    word, commands = b"keep", COMMANDS
    make, elements = Replica, Elements

    def __init__(self, n, w, limit):
        self.n, self.w, self.limit = n, w, limit
        self.replicas = [self.make((me, n, w, limit)) for me in range(n)]
        self.sent = [[] for _ in range(n)]

    def reply(self, line):
        """What is replied to a line. `None` where it is passed over."""
        if is_passed_over(line):
            return None
        try:
            return self.run(line, *words_of(line))
        except Bad as bad:
            return b"bad %d" % bad.args[0]

    def run(self, line, verb, *words):
        """Runs a command. What it replies."""
        if len(line.removesuffix(b"\r")) > LINE_BYTES:
            raise Bad(1)
        if verb not in self.commands:
            raise Bad(2)
        if len(words) not in self.commands[verb]:
            raise Bad(3)
        return self.of_store(verb, *words) or self.of_member(verb, member_of(words[0], self.n), *words[1:])

    def of_store(self, verb, *words):
        """Runs a command that is of no member. What it replies, or `None` where it is of one."""

    def of_member(self, verb, r, *rest):
        """Runs a command of a member. What it replies."""
        state = self.replicas[r].state
        if verb == b"do":
            operation = operation_of(rest)
            return self.send(r, operation, state.local_refusal())
        if verb == b"beat":
            return self.send(r, NO_OP, state.beat_refusal())
        if verb == b"give":
            return self.give(r, member_of(rest[0], self.n), amount_of(rest[1]))
        if verb == b"stop":
            return self.replicas[r].stop(amount_of(rest[0]))
        return self.answer(verb, rest[0], state) if verb in (b"ask", b"ids", b"tombs") else self.shown(verb, state)

    def answer(self, verb, word, state):
        """What is asked of an object at a replica."""
        if verb == b"ask":
            return answer_of(object_of(word), state.history, self.elements)
        object_ = list_of(word)
        elements = self.elements(m for m in state.history if m.operation.object == object_)
        if verb == b"ids":
            return b" ".join([b"ids", *(b"%d.%d.%d" % id_ for id_ in elements.ids())])
        return b"tombs %d" % elements.tombs(state.stable_messages())

    def send(self, r, operation, why):
        """Sends an operation or a no-op at a replica."""
        said, message = self.replicas[r].send(operation, why)
        if message is not None:
            self.sent[r].append(message)
        return said

    def give(self, r, k, s):
        """Gives a message that was sent to a replica."""
        return self.replicas[r].receive(self.sent[k][s - 1]) if 1 <= s <= len(self.sent[k]) else b"unsent"

    def shown(self, verb, state):
        """What is shown of a replica."""
        if verb == b"log":
            return b" ".join([b"log", *(b"%d:%d" % id_ for id_ in log_of(state))])
        if verb == b"size":
            counts = len(log_of(state)), items_of(state)
        else:
            counts = state.stable() if verb == b"stable" else state.counts()
        return b" ".join([verb, *(b"%d" % count for count in counts)])


def header_of(line, first):
    """The store of a header with such a first word, as its numbers, or `None`."""
    words = words_of(line)
    numbers = [number_of(word) for word in words[1:]]
    if len(line.removesuffix(b"\r")) > LINE_BYTES or words[0] != first or len(numbers) not in (2, 3) or None in numbers:
        return None
    n, w, limit = [*numbers, USUAL_LIMIT][:3]
    return (n, w, limit) if 1 <= n <= 16 and 1 <= w <= 64 and 1 <= limit <= 1000000 else None


def is_passed_over(line):
    """Whether a line has no word, or a first one that begins with #."""
    words = words_of(line)
    return not words or words[0].startswith(b"#")


def exchanges_of(script, make=Store):
    """The lines behind a script's header that have a reply, each with its number and that. `None` without such a header."""
    lines = enumerate(script.split(b"\n"), 1)
    header = next((line for _, line in lines if not is_passed_over(line)), None)
    numbers = header_of(header, make.word) if header is not None else None
    if numbers is None:
        return None
    store = make(*numbers)
    replies = ((number, line, store.reply(line)) for number, line in lines)
    return [exchange for exchange in replies if exchange[2] is not None]


def transcript_of(script, make=Store):
    """The transcript of a script. `None` without a header of such a store."""
    exchanges = exchanges_of(script, make)
    return None if exchanges is None else b"".join(reply + b"\n" for _, _, reply in exchanges)


def main():
    if len(sys.argv) != 2:
        sys.exit("usage: bench/keep_rules.py SCRIPT")
    with open(sys.argv[1], "rb") as file:
        transcript = transcript_of(file.read())
    if transcript is None:
        print("the script has no header of durable replicas", file=sys.stderr)
        sys.exit(2)
    sys.stdout.buffer.write(transcript)


if __name__ == "__main__":
    main()
