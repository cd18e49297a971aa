"""Wrong live texts: right ones that are changed at one place. `bench/live_check.py --self-test` has to find each wrong."""

import random
import re
from collections import Counter

import live_rules
from live_made import drawn_input, made_text, whole
from live_rules import NO_OP, Message, frame_of, read_input

# How many right texts are made, of which size at most, and how often each change has to come to pass. In each third a member
# sends a few messages at most, so that `end` comes.
TEXTS, SIZE, OFTEN, FEW = 50, 160, 5, 4
# The changes by their names, each a function of draws and the parts of a right text that gives the lines of a wrong one, or
# `None` where the text has no such place; and those whose first fault is the line that was changed, whatever else is there.
CHANGES = {}
AT_ONCE = set()


def change(name, at_once=False):
    """Notes a change."""
    def note(make):
        CHANGES[name] = make
        if at_once:
            AT_ONCE.add(name)
        return make
    return note


class Parts:
    """The lines of a right text, and where its parts stand."""

    def __init__(self, run, lines):
        self.run, self.lines = run, lines
        self.replies = [(at, *line.split(b" ", 4)[1:]) for at, line in enumerate(lines) if line.startswith(b"reply ")]
        self.settled = lines.index(b"settled")
        self.heads = [at for at, line in enumerate(lines) if line.startswith(b"journal ")]
        self.ends = [head + 1 + self.length(r) for r, head in enumerate(self.heads)]
        self.finals = range(self.ends[-1], len(lines))

    def told(self, said):
        """The replies that say this: their place in the text, client, number, place in the journal, and text."""
        return [reply for reply in self.replies if reply[4].startswith(said)]

    def length(self, r):
        """How many notes a journal has."""
        return int(self.lines[self.heads[r]].split()[2])

    def notes(self, *words):
        """The places of all notes of these words."""
        journals = [range(head + 1, end) for head, end in zip(self.heads, self.ends)]
        return [at for journal in journals for at in journal if self.lines[at].split(b" ")[0] in words]

    def groups(self):
        """The places of kept messages with steps, and how many notes their groups have."""
        found = []
        for at in self.notes(b"kept"):
            size = 1
            while self.lines[at + size].startswith((b"took ", b"crook ")):
                size += 1
            if size > 1:
                found.append((at, size))
        return found

    def journal_at(self, at):
        """The replica in whose journal a line stands."""
        return sum(head < at for head in self.heads) - 1

    def replica(self, reply):
        """The replica of a reply."""
        return self.run.at[int(reply[1])]

    def asked(self, reply):
        """The operation that a reply is to, or the object that was asked for."""
        command = self.run.commands[int(reply[1])][int(reply[2]) - 1]
        return command.operation or command.object

    def equal_pairs(self, is_pair):
        """Pairs of replies `ok` to equal operations, the first before the second in the text."""
        oks = self.told(b"ok ")
        pairs = [(one, two) for one in oks for two in oks if one[0] < two[0] and is_pair(one, two)]
        return [(one, two) for one, two in pairs if self.asked(one) == self.asked(two)]

    # --- the lines with a change
    def with_line(self, at, *lines):
        """Other lines in the place of one."""
        return self.lines[:at] + list(lines) + self.lines[at + 1:]

    def with_word(self, at, which, new):
        """Another word in a line."""
        words = self.lines[at].split(b" ")
        words[which] = new(words[which])
        return self.with_line(at, b" ".join(words))

    def with_place(self, reply, place):
        """A reply at another place."""
        return self.with_word(reply[0], 3, lambda _: b"%d" % place)

    def with_said(self, reply, said):
        """A reply with another text."""
        return self.with_line(reply[0], b" ".join([b"reply", *reply[1:4], said]))

    def with_swapped(self, at):
        """A line behind the one that follows it."""
        return self.lines[:at] + [self.lines[at + 1], self.lines[at]] + self.lines[at + 2:]

    def with_bytes(self, at, place, new):
        """Another byte in the frame of a note."""
        word, digits = self.lines[at].split(b" ")
        data = bytearray.fromhex(digits.decode())
        data[place] = new(data[place])
        return self.with_line(at, word + b" " + data.hex().encode())

    def without_notes(self, at, count):
        """So many notes fewer, from one on."""
        r = self.journal_at(at)
        lines = self.with_line(self.heads[r], b"journal %d %d" % (r, self.length(r) - count))
        return lines[:at] + lines[at + count:]

    def with_note(self, r, note):
        """A note more at the end of a journal."""
        lines = self.with_line(self.heads[r], b"journal %d %d" % (r, self.length(r) + 1))
        return lines[:self.ends[r]] + [note] + lines[self.ends[r]:]


def of_one(draw, found, make):
    """A change of one of what was found, if any was."""
    return make(draw.choice(found)) if found else None


def up(word):
    return b"%d" % (int(word) + 1)


def other_answer(said):
    """An answer that isn't this one."""
    if said in (b"= on", b"= off"):
        return b"= off" if said == b"= on" else b"= on"
    return b"= " + up(said[2:]) if re.fullmatch(rb"= -?[0-9]+", said) else said + b" ~~~"


# ---------------------------------------------------------------- bad lines and replies
@change("a bad line isn't told")
def _(draw, parts):
    return of_one(draw, range(len(parts.run.bad_lines)), parts.with_line)


@change("a bad line has another code", at_once=True)
def _(draw, parts):
    return of_one(draw, range(len(parts.run.bad_lines)), lambda at: parts.with_word(at, 3, up))


@change("a bad line has another number", at_once=True)
def _(draw, parts):
    return of_one(draw, range(len(parts.run.bad_lines)), lambda at: parts.with_word(at, 2, up))


@change("a reply is lost")
def _(draw, parts):
    return of_one(draw, parts.replies, lambda reply: parts.with_line(reply[0]))


@change("a reply comes twice")
def _(draw, parts):
    return of_one(draw, parts.replies, lambda reply: parts.with_line(reply[0], *[parts.lines[reply[0]]] * 2))


@change("a reply is of another client", at_once=True)
def _(draw, parts):
    return of_one(draw, parts.replies, lambda reply: parts.with_word(reply[0], 1, up))


@change("a place has a zero before it", at_once=True)
def _(draw, parts):
    return of_one(draw, parts.replies, lambda reply: parts.with_word(reply[0], 3, lambda word: b"0" + word))


@change("ok has another number", at_once=True)
def _(draw, parts):
    return of_one(draw, parts.told(b"ok "), lambda reply: parts.with_said(reply, b"ok " + up(reply[4][3:])))


@change("ok is a place late", at_once=True)
def _(draw, parts):
    return of_one(draw, parts.told(b"ok "), lambda reply: parts.with_place(reply, int(reply[3]) + 1))


@change("ok is a place early", at_once=True)
def _(draw, parts):
    return of_one(draw, parts.told(b"ok "), lambda reply: parts.with_place(reply, int(reply[3]) - 1))


@change("ok is told as busy")
def _(draw, parts):
    return of_one(draw, parts.told(b"ok "), lambda reply: parts.with_said(reply, b"busy"))


@change("busy is told as end", at_once=True)
def _(draw, parts):
    return of_one(draw, parts.told(b"busy"), lambda reply: parts.with_said(reply, b"end"))


@change("end is told as busy", at_once=True)
def _(draw, parts):
    return of_one(draw, parts.told(b"end"), lambda reply: parts.with_said(reply, b"busy"))


@change("busy is told as ok")
def _(draw, parts):
    return of_one(draw, parts.told(b"busy"), lambda reply: parts.with_said(reply, b"ok 1"))


@change("an answer is another", at_once=True)
def _(draw, parts):
    return of_one(draw, parts.told(b"="), lambda reply: parts.with_said(reply, other_answer(reply[4])))


@change("an answer lacks a value", at_once=True)
def _(draw, parts):
    full = [reply for reply in parts.told(b"= ") if re.match(rb"(awset|rwset|mvreg):", parts.asked(reply))]
    return of_one(draw, full, lambda reply: parts.with_said(reply, reply[4].rsplit(b" ", 1)[0]))


@change("a place is behind the end", at_once=True)
def _(draw, parts):
    return of_one(draw, parts.told(b"="), lambda reply: parts.with_place(reply, parts.length(parts.replica(reply)) + 1))


@change("a place is in a group", at_once=True)
def _(draw, parts):
    inside = [(parts.journal_at(at), at) for at, _ in parts.groups()]
    found = [(reply, at - parts.heads[r]) for r, at in inside for reply in parts.told(b"=") if parts.replica(reply) == r]
    return of_one(draw, found, lambda pair: parts.with_place(*pair))


@change("a place goes back", at_once=True)
def _(draw, parts):
    """A question is told what it would be told at place 0, behind a reply at a later place."""
    late = {reply[1] for reply in parts.replies if int(reply[3]) > 0}
    first = {c: min(reply[0] for reply in parts.replies if reply[1] == c and int(reply[3]) > 0) for c in late}
    empty = [reply for reply in parts.told(b"=") if reply[4] in (b"=", b"= 0", b"= off")]
    behind = [reply for reply in empty if first.get(reply[1], reply[0]) < reply[0]]
    return of_one(draw, behind, lambda reply: parts.with_place(reply, 0))


@change("equal operations of a client change their replies")
def _(draw, parts):
    def swapped(pair):
        (one, *old), (two, *new) = pair
        lines = parts.with_line(one, b" ".join([b"reply", *old[:2], *new[2:]]))
        lines[two] = b" ".join([b"reply", *new[:2], *old[2:]])
        return lines
    return of_one(draw, parts.equal_pairs(lambda one, two: one[1] == two[1]), swapped)


@change("operations are told of one message")
def _(draw, parts):
    pairs = parts.equal_pairs(lambda one, two: parts.replica(one) == parts.replica(two))
    return of_one(draw, pairs, lambda pair: parts.with_line(pair[0][0], b" ".join([b"reply", *pair[0][1:3], *pair[1][3:]])))


# ---------------------------------------------------------------- journals
@change("settled is left out", at_once=True)
def _(_, parts):
    return parts.with_line(parts.settled)


@change("settled is told as unsettled", at_once=True)
def _(_, parts):
    return parts.with_line(parts.settled, b"unsettled")


@change("a journal is longer than it says")
def _(draw, parts):
    found = [head for r, head in enumerate(parts.heads) if parts.length(r)]
    return of_one(draw, found, lambda at: parts.with_word(at, 2, lambda word: b"%d" % (int(word) - 1)))


@change("replicas change their journals")
def _(draw, parts):
    bodies = [parts.lines[head + 1:end] for head, end in zip(parts.heads, parts.ends)]
    senders = [r for r, body in enumerate(bodies) if any(note.startswith(b"sent ") for note in body)]
    pairs = [(one, two) for one in senders for two in range(parts.run.n) if one != two]

    def swapped(pair):
        one, two = pair
        bodies[one], bodies[two] = bodies[two], bodies[one]
        journals = [line for r, body in enumerate(bodies) for line in (b"journal %d %d" % (r, len(body)), *body)]
        return parts.lines[:parts.heads[0]] + journals + parts.lines[parts.ends[-1]:]
    return of_one(draw, pairs, swapped)


@change("what was sent isn't noted")
def _(draw, parts):
    return of_one(draw, parts.notes(b"sent"), lambda at: parts.without_notes(at, 1))


@change("what was sent is noted twice")
def _(draw, parts):
    return of_one(draw, parts.notes(b"sent"), lambda at: parts.with_note(parts.journal_at(at), parts.lines[at]))


@change("a message isn't received")
def _(draw, parts):
    return of_one(draw, parts.groups(), lambda group: parts.without_notes(*group))


@change("a message that is taken wasn't kept")
def _(draw, parts):
    return of_one(draw, parts.notes(b"kept"), lambda at: parts.without_notes(at, 1))


@change("a step isn't noted")
def _(draw, parts):
    return of_one(draw, parts.notes(b"took"), lambda at: parts.without_notes(at, 1))


@change("a step is before its message", at_once=True)
def _(draw, parts):
    return of_one(draw, parts.groups(), lambda group: parts.with_swapped(group[0]))


@change("two steps change their places")
def _(draw, parts):
    return of_one(draw, [at for at, size in parts.groups() if size > 2], lambda at: parts.with_swapped(at + 1))


@change("a step is of another number")
def _(draw, parts):
    def next_id(word):
        return b":".join([word.split(b":")[0], up(word.split(b":")[1])])
    return of_one(draw, parts.notes(b"took"), lambda at: parts.with_word(at, 1, next_id))


@change("a step is told as a crook")
def _(draw, parts):
    return of_one(draw, parts.notes(b"took"), lambda at: parts.with_word(at, 0, lambda _: b"crook"))


@change("a no-op is sent where none is due")
def _(draw, parts):
    counts = [sum(note.startswith(b"sent ") for note in parts.lines[head + 1:end]) for head, end in zip(parts.heads, parts.ends)]
    r = draw.randrange(parts.run.n)
    counts[r] += 1
    return parts.with_note(r, b"sent " + frame_of(Message(r, tuple(counts), NO_OP), parts.run.n).hex().encode())


def with_amounts(parts, word):
    """The notes of operations with an amount, which their frames end with."""
    return [at for at in parts.notes(word) if parts.lines[at].split(b" ")[1][6:8] in (b"0f", b"10", b"11", b"12")]


@change("what is kept was sent with another amount")
def _(draw, parts):
    return of_one(draw, with_amounts(parts, b"kept"), lambda at: parts.with_bytes(at, -1, lambda byte: byte ^ 1))


@change("what is kept is of another member")
def _(draw, parts):
    return of_one(draw, parts.notes(b"kept"), lambda at: parts.with_bytes(at, 1, lambda byte: (byte + 1) % parts.run.n))


@change("what was sent has another amount than the command")
def _(draw, parts):
    return of_one(draw, with_amounts(parts, b"sent"), lambda at: parts.with_bytes(at, -1, lambda byte: byte ^ 1))


@change("what was sent has another timestamp")
def _(draw, parts):
    return of_one(draw, parts.notes(b"sent"), lambda at: parts.with_bytes(at, 11, lambda byte: byte ^ 1))


@change("a frame is of version 1", at_once=True)
def _(draw, parts):
    return of_one(draw, parts.notes(b"sent", b"kept"), lambda at: parts.with_bytes(at, 0, lambda _: 1))


@change("a frame is of epoch 1", at_once=True)
def _(draw, parts):
    return of_one(draw, parts.notes(b"sent", b"kept"), lambda at: parts.with_bytes(at, 7, lambda _: 1))


@change("a frame is in capitals", at_once=True)
def _(draw, parts):
    lettered = [at for at in parts.notes(b"sent", b"kept") if re.search(rb" .*[a-f]", parts.lines[at])]
    return of_one(draw, lettered, lambda at: parts.with_word(at, 1, bytes.upper))


# ---------------------------------------------------------------- the end, and all lines
@change("a last answer is another", at_once=True)
def _(draw, parts):
    def changed(at):
        head, said = parts.lines[at].split(b"=", 1)
        return parts.with_line(at, head + other_answer(b"=" + said))
    return of_one(draw, parts.finals, changed)


@change("a last answer is lost")
def _(draw, parts):
    return of_one(draw, parts.finals, parts.with_line)


@change("a last answer comes twice")
def _(draw, parts):
    return of_one(draw, parts.finals, lambda at: parts.with_line(at, *[parts.lines[at]] * 2))


@change("two last answers change their places", at_once=True)
def _(draw, parts):
    return of_one(draw, parts.finals[:-1], parts.with_swapped)


@change("a line has two spaces", at_once=True)
def _(draw, parts):
    spaced = [at for at, line in enumerate(parts.lines) if b" " in line]
    return of_one(draw, spaced, lambda at: parts.with_line(at, parts.lines[at].replace(b" ", b"  ", 1)))


@change("a line is behind the end", at_once=True)
def _(_, parts):
    return [*parts.lines, b""]


# ---------------------------------------------------------------- the test
def misjudged(first_fault, data, parts, draw, tried):
    """The changes of a right text that the checker finds right, or whose first fault it finds elsewhere."""
    for name, make in CHANGES.items():
        lines = make(draw, parts)
        if lines is None:
            continue
        tried[name] += 1
        wrong = first_fault(data, whole(lines))
        pairs = enumerate(zip(parts.lines, lines), 1)
        changed = next((at for at, (old, new) in pairs if old != new), min(len(parts.lines), len(lines)) + 1)
        if wrong is None:
            yield f"{name}, in line {changed}: it is found right"
        elif name in AT_ONCE and wrong.line != changed:
            yield f"{name}, in line {changed}: its first fault is found in line {wrong.line}, {wrong.why}"


def try_text(first_fault, seed, tried):
    """What is misjudged of a right text and of the wrong ones that are made of it."""
    data = drawn_input(seed, SIZE)
    lines, rounds = made_text(data, seed)
    wrong = first_fault(data, whole(lines))
    if wrong is not None:
        return [f"it is right: line {wrong.line}, {wrong.why}"]
    found = list(misjudged(first_fault, data, Parts(read_input(data), lines), random.Random(seed), tried))
    others = {"its last newline is lost": whole(lines)[:-1], "it is empty": b""}
    if rounds:
        others["settling ends a round early"] = whole(made_text(data, seed, rounds - 1)[0])
    for name, text in others.items():
        tried[name] += 1
        if first_fault(data, text) is None:
            found.append(f"{name}: it is found right")
    return found


def self_test(first_fault):
    """Tries the checker on right texts and on wrong ones. The status."""
    missed, tried, usual = [], Counter(), live_rules.LIMIT
    for seed in range(TEXTS):
        live_rules.LIMIT = FEW if seed % 3 == 2 else usual
        missed += [f"text {seed}: {fault}" for fault in try_text(first_fault, seed, tried)]
    missed += [f"{name}: tried {tried[name]} times only" for name in CHANGES if tried[name] < OFTEN]
    for line in missed:
        print(line)
    print(f"live texts: {TEXTS} right ones, {sum(tried.values())} wrong ones by {len(tried)} changes, {len(missed)} misjudged")
    return 1 if missed else 0
