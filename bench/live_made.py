"""Drawn live inputs, and right texts for them that a small simulation makes.

The simulation is of one thread: at each turn one worker, a client or a courier, is drawn that makes its next call. Letters are
lost as the input says, and mailboxes may be small. When all workers are done the replicas settle by rounds.
"""

import random
from collections import deque

from live_rules import KINDS, NO_OP, OPERATIONS, State, answer_of, frame_of, read_input

# What a courier posts and takes in a turn, and the letters that a mailbox holds.
POSTED, TAKEN, MAILBOX = 32, 64, 256
# What a worker gives that has ended.
DONE = object()


# ---------------------------------------------------------------- inputs
VALUES = [b"a", b"b", b"c", b"milk", b"~", "\u00e9t\u00e9".encode(), "\U0001f34e".encode(), b"x" * 300, b"on", b"5", b"!#:/"]
BAD_LINES = [
    # too long, and no command
    b"0: ask counter:a" + b" " * 16384, b"x" * 16385,
    b"frob", b":", b": ask counter:a", b"x: ask counter:a", b"0 : ask counter:a", b"0: frob", b"99: frob a b c d",
    b"0: client 0 0", b"Client 0 0", b"live 1 1 1 0 0",
    # words that lack, or are too many
    b"0:", b"99:", b"client", b"client 0", b"client 0 0 0", b"0: do", b"0: do counter:a", b"0: do awset:a add x y", b"0: ask",
    b"0: ask counter:a counter:a",
    # no such client or replica
    b"8: ask counter:a", b"client 8 0", b"client 0 16", b"client x 0", b"client 0 0 \r", b"99999999999: ask counter:a",
    b"00000000000: do counter:a inc 1", b"4294967296: ask counter:",
    # no object, no act, no value, no amount
    b"0: ask counter:", b"0: ask set:a", b"0: ask counter", b"0: do awset:A add x", b"0: ask mvreg:" + b"k" * 33,
    b"0: ask ewflag:a:b", b"0: ask awset:a\r\r",
    b"0: do counter:a add x", b"0: do awset:a clear x", b"0: do awset:a add", b"0: do counter:a clear", b"0: do ewflag:a on",
    b"0: do mvreg:a rmv x",
    b"0: do awset:a add x y z", b"0: do awset:a clear x y", b"0: do list:a ins x", b"0: do list:a ins x head y", b"0: do list:a del",
    b"0: do list:a clear x", b"0: do list:a add x", b"0: do list:a ins \x7f 0.0.0", b"0: do list:a ins x 0.16.1",
    b"0: do list:a ins x 0.0", b"0: do list:a ins x Head", b"0: do list:a del head", b"0: do list:a del 0.0.0", b"0: ids list:a",
    b"0: do awset:a add " + b"v" * 4097, b"0: do rwset:a rmv \xff", b"0: do mvreg:a write x\x01", b"0: do awset:a add \x7f",
    b"0: do counter:a inc x", b"0: do counter:a dec -1", b"0: do rcounter:a inc 4294967296",
    b"0: do rcounter:a inc 00000000001",
]
SKIPPED = [b"", b"  \t", b"# a comment", b"\t#0: ask counter:a", b"#" * 20000, b"\r"]
HEADERS = [b"live %d %d %d %d %d", b"live\t%d  %d %d %d %d ", b"  live %d 0%d %d %d %d\r"]


def drawn_id(draw):
    """The id of an element, as a word: there may be one."""
    return b"0.%d.%d" % (draw.choice([0, 0, 1, 2]), draw.randint(1, 12))


def drawn_operation(draw, keys):
    """The words of an operation."""
    kind, act, takes = draw.choice(OPERATIONS)
    # A clear, or what takes away, is drawn again now and then, so that more is there to be taken away.
    if act == b"clear" and draw.random() < 0.6:
        return drawn_operation(draw, keys)
    words = [kind + b":" + draw.choice(keys), act]
    if takes == "value":
        words.append(draw.choice(VALUES))
    elif takes == "amount":
        words.append(b"%d" % draw.choice([0, 1, 2, 7, 100, 4294967295]))
    elif takes == "place":
        words += [draw.choice(VALUES), draw.choice([b"head", drawn_id(draw), drawn_id(draw)])]
    elif takes == "id":
        words.append(drawn_id(draw))
    return words


def drawn_input(seed, size, all_turns=(0, 1, 2, 3, 5, 10, 25, 60)):
    """A live input: of few members or many, small windows and large ones, with losses and bad lines. It has the fewer commands
    the more members and turns it has, since each can be repeated as often: at most `size` commands of one member."""
    draw = random.Random(seed)
    n = draw.choice([1, 2, 2, 3, 3, 4, 5, 6, 8, 11, 16])
    w = draw.choice([1, 1, 2, 3, 4, 8, 16, 31, 32, 33, 64])
    clients = draw.randint(1, 8)
    turns = draw.choice(all_turns)
    loss = draw.choice([0, 0, 0, 1, 2, 3, 5, 7, 50, 1000000])
    keys = draw.choice([[b"a"], [b"a", b"b"], [b"a", b"b", b"c", b"k.0_-"]])
    kinds = draw.choice([None, None, [draw.choice(KINDS)]])
    count = draw.randint(0, max(8, size // n // (1 + turns // 100)))
    lines = [draw.choice(SKIPPED) for _ in range(draw.randint(0, 2))]
    lines.append(draw.choice(HEADERS) % (n, w, clients, turns, loss))
    while count:
        kind = draw.random()
        if kind < 0.03:
            lines.append(draw.choice(SKIPPED))
        elif kind < 0.06:
            lines.append(draw.choice(BAD_LINES))
        elif kind < 0.09:
            lines.append(b"client %d %d" % (draw.randrange(clients), draw.randrange(n)))
        else:
            count -= 1
            operation = drawn_operation(draw, keys)
            while kinds and operation[0].split(b":")[0] not in kinds:
                operation = drawn_operation(draw, keys)
            words = [b"do", *operation] if draw.random() < 0.7 else [b"ask", operation[0]]
            words.insert(0, b"%d:" % draw.randrange(clients))
            lines.append(draw.choice([b" ", b" ", b"\t", b"  "]).join(words) + draw.choice([b"", b"", b"", b" ", b"\r"]))
    return b"\n".join(lines) + draw.choice([b"\n", b"\n", b""])


# ---------------------------------------------------------------- the simulation
class Replica:
    """A replica with its journal, and its mailbox."""

    def __init__(self, r, run):
        self.state, self.journal, self.mailbox = State(r, run.n, run.w), [], deque()

    def send(self, operation, why):
        """Sends an operation or a no-op, unless it is refused. What it answers."""
        if why is not None:
            return why
        message = self.state.own(operation)
        self.state.deliver(message)
        self.journal.append(b"sent " + frame_of(message, self.state.n).hex().encode())
        return b"ok %d" % message.number

    def local(self, operation):
        return self.send(operation, self.state.local_refusal())

    def beat(self):
        return self.send(NO_OP, self.state.beat_refusal())

    def receive(self, message):
        """Whether a message was delivered."""
        if self.state.refusal(message) is not None:
            return False
        self.state.early[message.id] = message
        self.journal.append(b"kept " + frame_of(message, self.state.n).hex().encode())
        steps = [(b"took" if why is None else b"crook", *id_) for id_, why in self.state.steps()]
        self.journal += [b"%s %d:%d" % step for step in steps]
        return any(word == b"took" for word, *_ in steps)


def client(run, replica, commands, told):
    """A client at work: it stops behind each of its calls."""
    for command in commands:
        if command.operation is None:
            told.append((len(replica.journal), answer_of(command.object, replica.state.history)))
        else:
            for turn in range(run.turns + 1):
                said, place = replica.local(command.operation), len(replica.journal)
                if said != b"busy":
                    break
                if turn < run.turns:
                    yield
            told.append((place, said))
        yield


def courier(run, replicas, r, room):
    """A courier at work: it stops behind each of its calls, and between the letters that it posts."""
    number = 0
    for _ in range(run.turns):
        messages = replicas[r].state.outbox()[:POSTED]
        yield
        for message in messages:
            for x, other in enumerate(replicas):
                if x == r:
                    continue
                number += 1
                if not (run.loss and number % run.loss == 0) and len(other.mailbox) < room:
                    other.mailbox.append(message)
            yield
        for _ in range(TAKEN):
            if not replicas[r].mailbox:
                break
            replicas[r].receive(replicas[r].mailbox.popleft())
            yield
        replicas[r].beat()
        yield


def work(workers, draw):
    """All workers work, each at its own pace."""
    paces = [draw.choice([1, 3, 10, 30]) for _ in workers]
    waiting = list(range(len(workers)))
    while waiting:
        at = draw.choice(waiting)
        for _ in range(draw.randint(1, paces[at])):
            if next(workers[at], DONE) is DONE:
                waiting.remove(at)
                break


def make_round(replicas):
    """Each replica upwards is offered each other outbox, and then each makes a beat. Whether something moved."""
    moved = False
    for replica in replicas:
        for other in replicas:
            if other is not replica:
                moved = any([replica.receive(message) for message in other.state.outbox()]) or moved
    return any([replica.beat().startswith(b"ok ") for replica in replicas]) or moved


def settle(replicas, most):
    """Rounds until one moves nothing, and so many at most. How many moved something."""
    rounds = 0
    while rounds < most and make_round(replicas):
        rounds += 1
    return rounds


def text_of(run, told, replicas):
    """The lines of the text of a run."""
    lines = [b"bad line %d %d" % bad for bad in run.bad_lines]
    for c, replies in enumerate(told):
        lines += [b"reply %d %d %d %s" % (c, i, place, said) for i, (place, said) in enumerate(replies, 1)]
    lines.append(b"settled")
    for r, replica in enumerate(replicas):
        lines += [b"journal %d %d" % (r, len(replica.journal)), *replica.journal]
    for object_ in run.objects():
        for r, replica in enumerate(replicas):
            lines.append(b"final %d %s %s" % (r, object_, answer_of(object_, replica.state.history)))
    return lines


def made_text(data, seed, most_rounds=10**6):
    """The lines of a text for a live input, one of many, and how many rounds of settling moved something. It is right where as
    many rounds were let in as there are."""
    draw = random.Random(seed)
    run = read_input(data)
    replicas = [Replica(r, run) for r in range(run.n)]
    told = [[] for _ in range(run.clients)]
    room = draw.choice([1, 3, 20, MAILBOX])
    clients = [client(run, replicas[run.at[c]], run.commands[c], told[c]) for c in range(run.clients)]
    work([*clients, *(courier(run, replicas, r, room) for r in range(run.n))], draw)
    rounds = settle(replicas, most_rounds)
    return text_of(run, told, replicas), rounds


def whole(lines):
    """Lines as a text."""
    return b"\n".join(lines) + b"\n"
