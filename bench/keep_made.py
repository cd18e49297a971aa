"""Drawn scripts of durable replicas, with stops, for `.ci/keep`.

Each line is drawn with an eye to what the plain reading (`bench/keep_rules.py`) makes of those before it: a message that a
replica lacks, the lengths of the records that a stop can lose. So few lines are idle.
"""

import random

from keep_rules import Store, record_of
from live_made import SKIPPED, drawn_operation
from live_rules import KINDS

BAD_LINES = [
    # no command of these scripts
    b"settle", b"resend 0 1", b"raw 0 01", b"members 2", b"noops 0", b"lags 0", b"raw", b"members 0", b"Stop 0 0", b"open 0",
    b"keep 2 2", b"store 2 2", b"0: ask counter:a", b"x" * 16384, b"x" * 16385, b"ask 0 counter:a" + b" " * 16384,
    # words that lack, or are too many
    b"stop", b"stop 0", b"stop 0 0 0", b"stop 16", b"do 0", b"do 0 counter:a", b"do 0 awset:a add x y", b"do 0 list:a ins x head y", b"ask 0",
    b"ids 0", b"tombs 0 list:a x", b"give 0 0",
    b"give 0 0 1 1", b"beat", b"beat 0 0", b"log", b"size 0 0", b"stable", b"seen 0 1",
    # no such member
    b"stop 16 0", b"stop x x", b"do 16 counter: inc 1", b"ask 4294967296 counter:a", b"give 0 16 x", b"give -1 0 1", b"beat 99",
    b"log 00000000016", b"size +0", b"stable 0x0", b"seen \r\r",
    # no object, no act, no value, no amount
    b"ask 0 counter:", b"ask 0 set:a", b"ids 0 awset:a", b"tombs 0 list", b"tombs 0 counter:a", b"do 0 awset add x", b"do 0 counter:a add x", b"do 0 ewflag:a on", b"do 0 mvreg:a rmv x",
    b"do 0 awset:a add \x7f", b"do 0 rwset:a rmv \xff", b"do 0 mvreg:a write " + b"v" * 4097, b"do 0 counter:a inc 4294967296",
    b"do 0 list:a ins x 0.16.1",
    b"do 0 list:a del head", b"ids 16 list:a", b"give 0 0 x", b"give 0 0 4294967296", b"stop 0 x", b"stop 0 -1", b"stop 0 4294967296", b"stop 0 00000000000", b"stop 0 0x1",
]
BAD_HEADERS = [
    b"keep 0 1", b"keep 17 1", b"keep 1 0", b"keep 1 65", b"keep 1 1 0", b"keep 1 1 1000001", b"keep", b"keep 1", b"keep 1 1 1 1",
    b"keep 1 x", b"keep 1 1 -1", b"Keep 1 1", b"keeps 1 1", b"stop 0 0", b"keep 1 1" + b" " * 16384, b"keep 1 00000000001",
]
HEADERS = [b"keep %d %d", b"keep\t%d  %d ", b"  keep %d 0%d\r"]
LIMITED = [b"keep %d %d %d", b"keep %d\t%d 00%d", b"keep %d %d %d\r"]
# A value of as many bytes as there may be.
LONG = b"v" * 4096
# How often each kind of line is drawn.
LINES = {"do": 28, "give": 30, "round": 4, "beat": 9, "stop": 12, "ask": 8, "list": 3, "show": 10, "bad": 3, "skip": 2}


class Drawn:
    """A script that is drawn line by line, and the store that its lines leave."""

    def __init__(self, seed):
        self.draw = random.Random(seed)
        draw = self.draw
        self.n, self.w = draw.choice([1, 2, 2, 3, 3, 4, 5, 6, 8, 11, 16]), draw.choice([1, 1, 2, 2, 3, 4, 8, 16, 64])
        limit = draw.choice([None, None, None, 1, 2, 3, 5, 9, 65536, 1000000])
        self.keys = draw.choice([[b"a"], [b"a", b"b"], [b"a", b"b", b"c", b"k.0_-"]])
        self.kinds = draw.choice([None, None, None, [draw.choice(KINDS)]])
        # How often a message comes in its turn.
        self.in_turn = draw.choice([0.95, 0.7, 0.3])
        self.store = Store(self.n, self.w, 10000 if limit is None else limit)
        self.lines = [draw.choice(SKIPPED) for _ in range(draw.randint(0, 2))]
        header, numbers = (HEADERS, ()) if limit is None else (LIMITED, (limit,))
        self.lines.append(draw.choice(header) % (self.n, self.w, *numbers))

    def member(self):
        return self.draw.randrange(self.n)

    def add(self, *words):
        """Adds a line, and runs it."""
        draw = self.draw
        line = draw.choice([b" ", b" ", b" ", b"\t", b"  "]).join(words) + draw.choice([b"", b"", b"", b"", b" ", b"\r"])
        self.lines.append(line)
        self.store.reply(line)

    def operation(self):
        """The words of an operation."""
        words = drawn_operation(self.draw, self.keys)
        while self.kinds and words[0].split(b":")[0] not in self.kinds:
            words = drawn_operation(self.draw, self.keys)
        if words[1] in (b"add", b"rmv", b"write", b"ins") and self.draw.random() < 0.01:
            words[2] = LONG
        return words

    def giver(self, r):
        """Whose message is given to a replica: mostly one's of which it lacks some."""
        lacking = [k for k in range(self.n) if len(self.store.sent[k]) > len(self.store.replicas[r].state.of[k])]
        return self.draw.choice(lacking) if lacking and self.draw.random() < 0.9 else self.member()

    def number(self, r, k):
        """The number of a message of a member to be given to a replica: the next, or another."""
        draw, sent, have = self.draw, len(self.store.sent[k]), len(self.store.replicas[r].state.of[k])
        if draw.random() < self.in_turn:
            return have + 1
        return draw.choice([draw.randint(1, max(1, sent)), draw.randint(have, sent + 1), sent, sent + 1, 0, 4294967295])

    def room(self, r):
        """How many bytes outlive a stop: none, few, just some records, a byte less or more, or all."""
        draw, replica = self.draw, self.store.replicas[r]
        lengths = [len(record_of(group, self.n)) for group in replica.groups[replica.synced:]]
        some = sum(lengths[:draw.randint(0, len(lengths))])
        return draw.choice([0, 0, draw.randint(0, 40), some, some, max(0, some - 1), some + 1, some + 4, sum(lengths), 4294967295])

    def give_round(self):
        """A replica is given what it lacks of each member, and tells so."""
        r, sent = self.member(), self.store.sent
        for k in range(self.n):
            for s in range(len(self.store.replicas[r].state.of[k]) + 1, len(sent[k]) + 1):
                self.add(b"give", b"%d" % r, b"%d" % k, b"%d" % s)
        self.add(b"beat", b"%d" % r)

    def add_drawn(self, kind):
        """Adds a line of a kind, or those of a round."""
        r = self.member()
        if kind == "do":
            self.add(b"do", b"%d" % r, *self.operation())
        elif kind == "give":
            k = self.giver(r)
            self.add(b"give", b"%d" % r, b"%d" % k, b"%d" % self.number(r, k))
        elif kind == "round":
            self.give_round()
        elif kind == "stop":
            self.add(b"stop", b"%d" % r, b"%d" % self.room(r))
        elif kind == "ask":
            self.add(b"ask", b"%d" % r, self.operation()[0])
        elif kind == "list":
            self.add(self.draw.choice([b"ids", b"tombs"]), b"%d" % r, b"list:" + self.draw.choice(self.keys))
        elif kind in ("bad", "skip"):
            self.lines.append(self.draw.choice(BAD_LINES if kind == "bad" else SKIPPED))
            self.store.reply(self.lines[-1])
        else:
            self.add(b"beat" if kind == "beat" else self.draw.choice([b"log", b"size", b"stable", b"seen"]), b"%d" % r)


def drawn_script(seed, size):
    """A script of durable replicas: of few members or many, small windows and large ones, with stops and bad lines. It has
    some `size` lines at most, and now and then no header of such a script."""
    drawn = Drawn(seed)
    draw = drawn.draw
    if draw.random() < 0.02:
        drawn.lines[-1] = draw.choice(BAD_HEADERS)
    most = draw.randint(0, size)
    while len(drawn.lines) < most:
        drawn.add_drawn(draw.choices(list(LINES), LINES.values())[0])
    for r in range(drawn.n):
        drawn.add(b"stop", b"%d" % r, b"%d" % drawn.room(r))
        for verb in (b"seen", b"stable", b"size"):
            drawn.add(verb, b"%d" % r)
    return b"\n".join(drawn.lines) + draw.choice([b"\n", b"\n", b""])
