"""Drawn scripts of a store with lists, for `.ci/lists`.

Members put elements in at the same places, delete them and clear the lists while they don't hear of each other; places and ids
are also those of elements that were taken out, that a member hasn't seen or that there are none of. Each line is drawn with an
eye to what the plain reading (`bench/list_rules.py`) makes of those before it. So few lines are idle.
"""

import random

from list_rules import Store
from live_made import SKIPPED, VALUES, drawn_operation
from live_rules import NO_OP, OPERATIONS, Message, Operation, frame_of

BAD_LINES = [
    # no command of these scripts
    b"stop 0 0", b"keep 2 2", b"ids", b"tombs 0 list:a x", b"Ids 0 list:a", b"tomb 0 list:a", b"ids 0", b"do 0 list:a del 0.0.1 x y z",
    # no such member
    b"ids 16 list:a", b"tombs x list:a", b"do 16 list:a clear",
    # no list
    b"ids 0 awset:a", b"tombs 0 counter:a", b"ids 0 list:", b"tombs 0 list", b"ids 0 lists:a", b"ask 0 list:A", b"do 0 list ins x head",
    # no act, or another count of words
    b"do 0 list:a ins", b"do 0 list:a ins x", b"do 0 list:a ins x head y", b"do 0 list:a del", b"do 0 list:a del 0.0.1 x",
    b"do 0 list:a del 0.0.1 x y", b"do 0 list:a clear x", b"do 0 list:a clear x y", b"do 0 list:a add x", b"do 0 list:a rmv x",
    b"do 0 list:a", b"do 0 awset:a add x y", b"do 0 awset:a clear x y", b"do 0 awset:a ins x head", b"do 0 counter:a inc 1 2",
    b"do 0 ewflag:a enable x y", b"do 0 awset:a add x y z", b"do 0 awset:a del 0.0.1",
    # no value, even where the place is none
    b"do 0 list:a ins \x7f head", b"do 0 list:a ins \xff 0.0.0", b"do 0 list:a ins " + b"v" * 4097 + b" head",
    # no place, no id
    b"do 0 list:a ins x 0.16.1", b"do 0 list:a ins x 0.0.0", b"do 0 list:a ins x 0.0", b"do 0 list:a ins x 0.0.1.1",
    b"do 0 list:a ins x Head", b"do 0 list:a ins x .0.1", b"do 0 list:a ins x 0.0.1.", b"do 0 list:a ins x 0..1", b"do 0 list:a del head",
    b"do 0 list:a del 0:1", b"do 0 list:a del 4294967296.0.1", b"do 0 list:a del 0.0.4294967296", b"do 0 list:a del -1.0.1",
    b"do 0 list:a del 0.0.00000000001", b"do 0 list:a del 0.0x1.1", b"do 0 list:a del 0.0.1\r\r", b"do 0 list:a del ...",
    b"raw 0 0", b"raw 0 0g", b"raw 0 02", b"members 0", b"members 17", b"members x",
]
BAD_HEADERS = [b"store 0 1", b"store 1 65", b"stores 1 1", b"do 0 list:a ins x head"]
HEADERS = [b"store %d %d", b"store\t%d  %d ", b"  store %d 0%d\r"]
LIMITED = [b"store %d %d %d", b"store %d\t%d 00%d"]
# Ids that name no element of any script, though their form is right.
NOWHERE = [(0, 15, 1), (0, 0, 4294967295), (4294967295, 0, 1), (65536, 0, 1), (1, 0, 16777217), (0, 1, 1000001)]
# How often each kind of line is drawn.
LINES = {
    "ins": 36, "del": 13, "clear": 1, "other": 2, "give": 20, "round": 6, "resend": 6, "beat": 6, "settle": 2, "members": 1, "epoch": 2,
    "forged": 5, "ask": 10, "ids": 3, "tombs": 6, "show": 5, "bad": 2, "skip": 1,
}
# Where elements are put, and which are deleted, where it is no place that all share: how often an element that was just put in,
# that is shown, or that was ever put in; and one of which it is uncertain whether there is any.
STYLES = [{"last": 6, "shown": 2, "any": 3, "strange": 2}, {"last": 1, "shown": 6, "any": 4, "strange": 2}, {"last": 2, "shown": 2, "any": 2, "strange": 5}]
CODES = {act: code for code, (kind, act, _) in enumerate(OPERATIONS, 1) if kind == b"list"}


def text_of(place):
    """A place as a word."""
    return b"head" if place is None else b"%d.%d.%d" % place


class Drawn:
    """A script that is drawn line by line, and the store that its lines leave."""

    def __init__(self, seed):
        self.draw = random.Random(seed)
        draw = self.draw
        n, w = draw.choice([1, 2, 2, 2, 3, 3, 3, 4, 4]), draw.choice([1, 2, 4, 6, 8, 8, 16, 64])
        limit = draw.choice([None, None, None, None, None, 9, 40, 65536, 1000000])
        self.lists = draw.choice([[b"list:a"], [b"list:a"], [b"list:a", b"list:b"]])
        # How often a message comes in its turn, and which lines come.
        self.in_turn = draw.choice([1.0, 0.9, 0.6, 0.3])
        self.weights = {**LINES, "forged": LINES["forged"] * draw.choice([0, 0, 0, 1, 3])}
        self.weights["del"] *= draw.choice([0.3, 1, 1, 2])
        self.weights["clear"] *= draw.choice([0, 1, 4])
        if draw.random() < 0.4:
            self.weights |= {"settle": 0, "members": 0, "epoch": 0}
        # Where elements are put in for a while, whoever does it, and how often; and where else.
        self.place, self.is_shared, self.style = {}, draw.choice([0.1, 0.3, 0.7]), draw.choice(STYLES)
        self.store = Store(n, w, 10000 if limit is None else limit)
        self.lines = [draw.choice(SKIPPED) for _ in range(draw.randint(0, 2))]
        header, numbers = (HEADERS, ()) if limit is None else (LIMITED, (limit,))
        self.lines.append(draw.choice(header) % (n, w, *numbers))

    def member(self):
        return self.draw.randrange(self.store.n)

    def sender(self):
        """A member that sends an operation: mostly one that may."""
        free = [r for r in range(self.store.n) if self.state(r).local_refusal() is None]
        return self.draw.choice(free) if free and self.draw.random() < 0.9 else self.member()

    def state(self, r):
        return self.store.replicas[r].state

    def add(self, *words):
        """Adds a line, and runs it."""
        draw = self.draw
        line = draw.choice([b" ", b" ", b" ", b"\t", b"  "]).join(words) + draw.choice([b"", b"", b"", b"", b" ", b"\r"])
        self.lines.append(line)
        self.store.reply(line)

    # --- places and ids
    def insertions(self, r, object_):
        """The ids of the insertions into a list that a replica delivered."""
        done = (m for m in self.state(r).history if m.operation.object == object_ and m.operation.act == b"ins")
        return [(m.epoch, *m.id) for m in done]

    def shown(self, r, object_):
        """The ids that a replica shows of a list."""
        return self.store.elements(m for m in self.state(r).history if m.operation.object == object_).ids()

    def strange(self, r):
        """An id that may be of no element: of an insertion that others sent and this hasn't delivered, or will send; of any message; of
        the same message in another epoch; or of none that can be."""
        draw, state = self.draw, self.state(r)
        sent = [m for sent in self.store.sent for m in sent]
        unseen = [m for m in sent if m not in state.history and m.operation.act == b"ins"]
        kind = draw.random()
        if kind < 0.6 and unseen:
            message = draw.choice(unseen)
            return message.epoch, *message.id
        if kind < 0.8 and state.history:
            message = draw.choice(state.history)
            return draw.choice([message.epoch, message.epoch, draw.randint(0, state.epoch + 1)]), *message.id
        return draw.choice([draw.choice(NOWHERE), (state.epoch, draw.randrange(4), draw.randint(1, 12))])

    def element(self, r, object_):
        """The id of an element that a replica may delete, or put another behind."""
        draw = self.draw
        inserted = self.insertions(r, object_)
        kind = draw.choices(list(self.style), self.style.values())[0]
        if kind == "strange" or not inserted:
            return self.strange(r)
        shown = self.shown(r, object_)
        return inserted[-1] if kind == "last" else draw.choice(shown if kind == "shown" and shown else inserted)

    def place_of(self, r, object_):
        """A place for an element at a replica: mostly the one that is shared, now and then another, and then perhaps for all."""
        draw = self.draw
        if object_ in self.place and draw.random() < self.is_shared:
            return self.place[object_]
        place = None if draw.random() < 0.15 else self.element(r, object_)
        if object_ not in self.place or draw.random() < 0.3:
            self.place[object_] = place
        return place

    def operation(self, r, act):
        """An operation of a list."""
        draw = self.draw
        object_ = draw.choice(self.lists)
        if act == b"ins":
            return Operation(CODES[act], object_, draw.choice(VALUES), self.place_of(r, object_))
        return Operation(CODES[act], object_, element=self.element(r, object_) if act == b"del" else None)

    # --- messages
    def giver(self, r):
        """Whose message is given to a replica: mostly one's of which it lacks some."""
        lacking = [k for k in range(self.store.n) if len(self.store.sent[k]) > len(self.state(r).of[k])]
        return self.draw.choice(lacking) if lacking and self.draw.random() < 0.95 else self.member()

    def number(self, r, k):
        """The number of a message of a member to be given to a replica: the next, or another."""
        draw, sent, have = self.draw, len(self.store.sent[k]), len(self.state(r).of[k])
        if draw.random() < self.in_turn:
            return have + 1
        return draw.choice([draw.randint(1, max(1, sent)), draw.randint(min(have, sent), sent + 1), sent, sent + 1, 0, 4294967295])

    def give_round(self):
        """A replica is given what it lacks of each member, and tells so."""
        r = self.member()
        for k in range(self.store.n):
            for s in range(len(self.state(r).of[k]) + 1, len(self.store.sent[k]) + 1):
                self.add(b"give", b"%d" % r, b"%d" % k, b"%d" % s)
        self.add(b"beat", b"%d" % r)

    def forged_tag(self, r, k):
        """A timestamp for the next message of a member at a replica, which may have seen less than that member's next own one."""
        draw, state = self.draw, self.state(r)
        tag = [draw.randint(least, most) for least, most in zip(state.last(k), state.counts())]
        tag[k] = len(state.of[k]) + 1
        if draw.random() < 0.1:
            tag[draw.randrange(len(tag))] += draw.choice([-1, 1, 5])
        # What is seen is seen with all that it has seen.
        is_more = True
        while is_more:
            seen = [state.of[x][entry - 1].tag for x, entry in enumerate(tag) if x != k and 0 < entry <= len(state.of[x])]
            more = [max(entries) if x != k else tag[k] for x, entries in enumerate(zip(tag, *seen))]
            is_more, tag = more != tag, more
        return tuple(max(0, entry) for entry in tag)

    def add_forged(self):
        """Adds lines that offer a forged frame to some replicas."""
        draw, r = self.draw, self.member()
        k = draw.choice([x for x in range(self.store.n) if x != r] or [r])
        act = draw.choice([b"ins", b"ins", b"ins", b"del", b"clear", None])
        operation = NO_OP if act is None else self.operation(r, act)
        frame = bytearray(frame_of(Message(k, self.forged_tag(r, k), operation, self.state(r).epoch), self.store.n))
        if draw.random() < 0.3:
            self.spoil(frame)
        others = [x for x in range(self.store.n) if x != r and draw.random() < 0.4]
        for to in [r, *others]:
            self.add(b"raw", b"%d" % to, bytes(frame).hex().encode())

    def spoil(self, frame):
        """Changes a frame so that it may be none: it is cut, has another byte, or one more, another code, or is said to be of version 1."""
        draw, kind = self.draw, self.draw.randrange(5)
        if kind == 0:
            del frame[draw.randint(max(0, len(frame) - 12), len(frame)):]
        elif kind == 1:
            # Where the frame is of an insertion, how its place begins, its member, or another byte of it.
            frame[-draw.choice([10, 5, draw.randint(1, 12)])] = draw.choice([0, 1, 2, 15, 16, 255])
        elif kind == 2:
            frame.append(draw.choice([0, 1]))
        elif kind == 3:
            frame[3] = draw.choice([19, 20, 21, 22, 23, 255])
        else:
            frame[0] = 1
            del frame[4:8]

    # --- lines
    def add_drawn(self, kind):
        """Adds a line of a kind, or those of a round."""
        draw, r = self.draw, self.sender() if kind in ("ins", "del", "clear") else self.member()
        if kind in ("ins", "del", "clear"):
            _, object_, value, place = self.operation(r, kind.encode())
            taken = [value, text_of(place)] if kind == "ins" else [text_of(place)] if kind == "del" else []
            self.add(b"do", b"%d" % r, object_, kind.encode(), *taken)
            if kind != "ins":
                self.add(b"tombs", b"%d" % self.member(), object_)
        elif kind == "other":
            words = drawn_operation(draw, [b"a"])
            self.add(*draw.choice([[b"do", b"%d" % r, *words], [b"ask", b"%d" % r, words[0]]]))
        elif kind == "give":
            k = self.giver(r)
            self.add(b"give", b"%d" % r, b"%d" % k, b"%d" % self.number(r, k))
        elif kind == "round":
            self.give_round()
        elif kind == "forged":
            self.add_forged()
        elif kind == "resend":
            self.add(b"resend", b"%d" % r, b"%d" % self.giver(r))
        elif kind == "settle":
            self.add(b"settle")
        elif kind == "epoch":
            self.add(b"settle")
            self.add(b"members", b"%d" % draw.choice([2, 3, self.store.n, self.store.n]))
        elif kind == "members":
            self.add(b"members", b"%d" % draw.choice([2, 3, 3, 4, self.store.n, self.store.n]))
        elif kind in ("ask", "ids", "tombs"):
            self.add(kind.encode(), b"%d" % r, draw.choice(self.lists))
        elif kind in ("bad", "skip"):
            self.lines.append(draw.choice(BAD_LINES if kind == "bad" else SKIPPED))
            self.store.reply(self.lines[-1])
        else:
            self.add(b"beat" if kind == "beat" else draw.choice([b"log", b"size", b"stable", b"seen", b"noops", b"lags"]), b"%d" % r)

    def ask_all(self):
        """Adds all questions of lists, and what is in the logs."""
        for r in range(self.store.n):
            for object_ in self.lists:
                for verb in (b"ask", b"ids", b"tombs"):
                    self.add(verb, b"%d" % r, object_)
            self.add(b"log", b"%d" % r)
            self.add(b"size", b"%d" % r)


def drawn_script(seed, size):
    """A script of a store with lists: of 1 to 4 members, and of all kinds now and then, with forged frames in some scripts and bad
    lines. It has some `size` lines at most but for the questions at its end, and now and then no header of such a script."""
    drawn = Drawn(seed)
    draw = drawn.draw
    if draw.random() < 0.02:
        drawn.lines[-1] = draw.choice(BAD_HEADERS)
    most = draw.randint(0, size)
    while len(drawn.lines) < most:
        drawn.add_drawn(draw.choices(list(drawn.weights), drawn.weights.values())[0])
    drawn.ask_all()
    drawn.add(b"settle")
    drawn.add(b"members", b"%d" % draw.choice([2, 3, drawn.store.n]))
    drawn.ask_all()
    return b"\n".join(drawn.lines) + draw.choice([b"\n", b"\n", b""])
