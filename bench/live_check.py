#!/usr/bin/env python3
"""Decides by the rules whether a text is right for a live input, and names its first fault by its line.

usage: bench/live_check.py INPUT [TEXT]    the text is read from standard input where no file is named
       bench/live_check.py --self-test

A right text has, line by line: what is bad of the input; one reply for each command of each client, in order; `settled`; a
journal for each replica; and what each object is at each replica in the end. Then:

- Each journal is made of whole groups: one `sent`, or one `kept` with all its steps, each as the rules of a replica have it
  after the notes before it. Frames are of version 2. What is kept stands as `sent` in its member's journal, byte by byte, and
  nothing is crooked.
- A reply at a place is what the replica answers after so many notes, which are whole groups. One that says `ok N` has there the
  note that sent message N with the command's operation. A client's places never go back, and rise with each `ok`; and each
  operation that a journal sent has one `ok`.
- In the end all replicas have delivered as many messages of each member, no beat would send, and the last answers are those
  of the whole journals.

It works on the texts alone, and shares nothing with the program: `bench/live_rules.py` has the rules, over whole histories. So a
question takes with the square of what was done to its object, and a run with thousands of both takes minutes. The status is 0
where a text is right, else 1.
"""

import re
import sys

sys.dont_write_bytecode = True
from live_rules import NO_OP, BadFrame, State, answer_of, message_of, read_input

DECIMAL = rb"(0|[1-9][0-9]{0,19})"
REPLY = re.compile(rb"reply %s %s %s (.*)" % (DECIMAL, DECIMAL, DECIMAL))
NOTE = re.compile(rb"(sent|kept) ((?:[0-9a-f]{2})+)|(took|crook) %s:%s" % (DECIMAL, DECIMAL))


class Wrong(Exception):
    """A fault of a text: its line, from 1, and what is wrong."""

    def __init__(self, line, why):
        super().__init__(line, why)
        self.line, self.why = line, why


class Reply:
    """A reply to a command: its line, its place, and what it says."""

    def __init__(self, line, place, said, command):
        self.line, self.place, self.said, self.command = line, place, said, command


class Note:
    """A note of a journal: its line, its word, its bytes and message, or the id of a step."""

    def __init__(self, line, word, frame=None, message=None, id_=None):
        self.line, self.word, self.frame, self.message, self.id = line, word, frame, message, id_


def shown(data):
    """Some of the bytes of a line, to be shown."""
    text = data.decode(errors="backslashreplace")
    return text if len(text) <= 100 else text[:97] + "..."


# ---------------------------------------------------------------- the lines of a text
class Lines:
    """The lines of a text, taken one after the other."""

    def __init__(self, text):
        self.lines = text.split(b"\n")
        self.cut = self.lines.pop()
        self.at = 0

    def take(self, what):
        """The next line, and its number."""
        self.at += 1
        if self.at > len(self.lines):
            raise Wrong(self.at, f"the text ends, in place of {what}")
        return self.lines[self.at - 1], self.at

    def expect(self, wanted, what):
        """Takes a line that has to be just this. Its number."""
        line, at = self.take(what)
        if line != wanted:
            raise Wrong(at, f"'{shown(line)}' stands in place of '{shown(wanted)}': {what}")
        return at

    def end(self):
        """Nothing stands behind the lines."""
        if self.at < len(self.lines):
            raise Wrong(self.at + 1, f"'{shown(self.lines[self.at])}' stands behind the end")
        if self.cut:
            raise Wrong(self.at + 1, "the last line has no newline")


def read_reply(lines, c, i, command):
    """The reply to command i of client c."""
    what = f"the reply to command {i} of client {c}"
    line, at = lines.take(what)
    found = REPLY.fullmatch(line)
    if not found or (int(found[1]), int(found[2])) != (c, i):
        raise Wrong(at, f"'{shown(line)}' stands in place of {what}")
    said = found[4]
    if command.operation is None and not said.startswith(b"="):
        raise Wrong(at, "a question has no answer")
    if command.operation is not None and said not in (b"busy", b"end") and not re.fullmatch(rb"ok " + DECIMAL, said):
        raise Wrong(at, "an operation has no reply")
    return Reply(at, int(found[3]), said, command)


def read_note(lines, n, seen):
    """A note of a journal. `seen` has the messages of frames that were read before."""
    line, at = lines.take("a note")
    found = NOTE.fullmatch(line)
    if not found:
        raise Wrong(at, f"'{shown(line)}' is no note")
    if found[3]:
        return Note(at, found[3], id_=(int(found[4]), int(found[5])))
    frame = found[2]
    if frame not in seen:
        try:
            seen[frame] = message_of(bytes.fromhex(frame.decode()), n)
        except BadFrame as bad:
            raise Wrong(at, f"no frame of version 2 in epoch 0: fault {bad.args[0]}") from None
    return Note(at, found[1], frame, seen[frame])


class Text:
    """A text by its parts, as far as it could be read, and the fault that ended the reading, if any."""

    def __init__(self, run, data):
        self.replies = [[] for _ in range(run.clients)]
        self.settled, self.journals, self.finals, self.fault = None, [], [], None
        try:
            self.read(run, Lines(data))
        except Wrong as wrong:
            self.fault = wrong

    def read(self, run, lines):
        for number, code in run.bad_lines:
            lines.expect(b"bad line %d %d" % (number, code), "a bad line of the input")
        for c, commands in enumerate(run.commands):
            for i, command in enumerate(commands, 1):
                self.replies[c].append(read_reply(lines, c, i, command))
        self.settled = lines.expect(b"settled", "that all has settled")
        seen = {}
        for r in range(run.n):
            line, at = lines.take(f"the journal of replica {r}")
            found = re.fullmatch(rb"journal %d %s" % (r, DECIMAL), line)
            if not found:
                raise Wrong(at, f"'{shown(line)}' stands in place of the journal of replica {r}")
            self.journals.append([read_note(lines, run.n, seen) for _ in range(int(found[1]))])
        for object_ in run.objects():
            for r in range(run.n):
                head = b"final %d %s " % (r, object_)
                line, at = lines.take(head.decode())
                if not line.startswith(head):
                    raise Wrong(at, f"'{shown(line)}' stands in place of '{head.decode()}'")
                self.finals.append((at, r, object_, line[len(head):]))
        lines.end()


# ---------------------------------------------------------------- the rules
class Replay:
    """The journal of a replica, replayed note by note, with the replies that have a place in it."""

    def __init__(self, run, r, journal, replies):
        self.state, self.journal, self.faults = State(r, run.n, run.w), journal, []
        self.waiting = {}
        for reply in replies:
            self.waiting.setdefault(reply.place, []).append(reply)
        self.is_whole = False
        try:
            self.answer_at(0)
            at = 0
            while at < len(journal):
                at = self.take_group(at)
                self.answer_at(at)
            self.is_whole = True
        except Wrong as wrong:
            self.faults.append(wrong)
            # Replies at later places aren't asked, since nothing is known of them.
            self.waiting = {place: later for place, later in self.waiting.items() if place <= at}
        for place, later in self.waiting.items():
            why = "is in the midst of a group" if place <= len(journal) else f"is behind the {len(journal)} notes of its journal"
            self.faults += [Wrong(reply.line, f"place {place} {why}") for reply in later]

    def take_group(self, at):
        """Replays the group that begins at a place. The place behind it."""
        note = self.journal[at]
        if note.word == b"sent":
            self.take_sent(note)
            return at + 1
        if note.word == b"kept":
            return self.take_kept(note, at + 1)
        raise Wrong(note.line, "no step is made here")

    def take_sent(self, note):
        is_noop = note.message.operation == NO_OP
        why = self.state.beat_refusal() if is_noop else self.state.local_refusal()
        if why:
            raise Wrong(note.line, f"{'a beat' if is_noop else 'an operation'} is refused here: {why.decode()}")
        wanted = self.state.own(note.message.operation)
        if note.message != wanted:
            found = f"{note.message.tag} by member {note.message.origin}"
            raise Wrong(note.line, f"the timestamp is {found}, in place of {wanted.tag} by member {wanted.origin}")
        self.state.deliver(note.message)

    def take_kept(self, note, at):
        why = self.state.refusal(note.message)
        if why:
            raise Wrong(note.line, f"the message is {why.decode()} here")
        self.state.early[note.message.id] = note.message
        for id_, dropped in self.state.steps():
            word, wanted = (b"crook" if dropped else b"took"), "%d:%d" % id_
            found = self.journal[at] if at < len(self.journal) else None
            if found is None or (found.word, found.id) != (word, id_):
                line = found.line if found else self.journal[-1].line + 1
                raise Wrong(line, f"'{word.decode()} {wanted}' has to stand here")
            if dropped:
                self.faults.append(Wrong(found.line, f"it is crooked: {dropped}"))
            at += 1
        return at

    def answer_at(self, place):
        """Compares the replies at a place with what the replica answers there."""
        for reply in self.waiting.pop(place, ()):
            try:
                self.check_reply(reply)
            except Wrong as wrong:
                self.faults.append(wrong)

    def check_reply(self, reply):
        command, said = reply.command, reply.said
        if command.operation is None:
            wanted = answer_of(command.object, self.state.history)
            if said != wanted:
                raise Wrong(reply.line, f"at place {reply.place} {shown(command.object)} is '{shown(wanted)}'")
        elif said.startswith(b"ok "):
            note = self.journal[reply.place - 1] if reply.place else None
            if note is None or note.word != b"sent":
                raise Wrong(reply.line, f"the note at place {reply.place} sent nothing")
            if note.message.number != int(said[3:]) or note.message.operation != command.operation:
                raise Wrong(reply.line, f"the note at place {reply.place} sent another message")
        elif said != (wanted := self.state.local_refusal()):
            raise Wrong(reply.line, f"at place {reply.place} an operation is answered '{(wanted or b'ok').decode()}'")


def faults_of_places(replies):
    """Places of a client that go back, or that don't rise with an `ok`."""
    most = -1
    for at, reply in enumerate(replies):
        if reply.place < most:
            yield Wrong(reply.line, f"its client was at place {most} before")
        elif at and reply.place == most and reply.said.startswith(b"ok "):
            yield Wrong(reply.line, f"its client was at place {most} before, and 'ok' doesn't rise")
        most = max(most, reply.place)


def faults_of_oks(replies, journal):
    """Replies that say the same `ok`, and operations that were sent with none."""
    told = set()
    for reply in replies:
        if reply.said.startswith(b"ok "):
            if reply.said in told:
                yield Wrong(reply.line, f"'{reply.said.decode()}' was told before at its replica")
            told.add(reply.said)
    for note in journal:
        if note.word == b"sent" and note.message.operation != NO_OP and b"ok %d" % note.message.number not in told:
            yield Wrong(note.line, "no reply tells that this was sent")


def faults_of_letters(journals):
    """Messages that were kept, and that don't stand as sent in the journal of their member."""
    sent = [{note.frame for note in journal if note.word == b"sent"} for journal in journals]
    for journal in journals:
        for note in journal:
            if note.word == b"kept" and note.frame not in sent[note.message.origin]:
                yield Wrong(note.line, f"member {note.message.origin} didn't send this")


def faults_of_end(text, states):
    """Where counts differ, a beat would send, or a last answer isn't that of the whole journal."""
    for r, state in states.items():
        if 0 in states and state.counts() != states[0].counts():
            yield Wrong(text.settled, f"replica {r} has delivered {state.counts()}, and replica 0 {states[0].counts()}")
        if state.beat_refusal() is None:
            yield Wrong(text.settled, f"replica {r} would send a no-op")
    for line, r, object_, said in text.finals:
        wanted = answer_of(object_, states[r].history) if r in states else said
        if said != wanted:
            yield Wrong(line, f"it is '{shown(wanted)}' in the end")


def faults_of(run, data):
    """The faults that are found of a text, in no order."""
    text = Text(run, data)
    faults = [text.fault] if text.fault else []
    for replies in text.replies:
        faults += faults_of_places(replies)
    if len(text.journals) < run.n:
        return faults
    states = {}
    for r, journal in enumerate(text.journals):
        replies = [reply for c in range(run.clients) if run.at[c] == r for reply in text.replies[c]]
        replay = Replay(run, r, journal, replies)
        faults += [*replay.faults, *faults_of_oks(replies, journal)]
        if replay.is_whole:
            states[r] = replay.state
    return [*faults, *faults_of_letters(text.journals), *faults_of_end(text, states)]


def first_fault(data, text):
    """The first fault of a text for a live input, by its line; `None` where it is right."""
    run = read_input(data)
    if run is None:
        return Wrong(1, "the input has no header of a live run, or is too long, and so no text") if text else None
    return min(faults_of(run, text), key=lambda wrong: wrong.line, default=None)


def main():
    words = sys.argv[1:]
    if words == ["--self-test"]:
        import live_wrong
        sys.exit(live_wrong.self_test(first_fault))
    if len(words) not in (1, 2):
        sys.exit("usage: bench/live_check.py INPUT [TEXT] | --self-test")
    with open(words[0], "rb") as file:
        data = file.read()
    if len(words) == 2:
        with open(words[1], "rb") as file:
            text = file.read()
    else:
        text = sys.stdin.buffer.read()
    wrong = first_fault(data, text)
    print(f"line {wrong.line}: {wrong.why}" if wrong else f"right: {text.count(10)} lines")
    sys.exit(1 if wrong else 0)


if __name__ == "__main__":
    main()
