#!/usr/bin/env python3
"""Turns a live run into a script in which the same happens: each note's group is a line, in one order of all replicas in which
what is received was sent before. So `store draw INPUT TEXT` draws a live run, and what the mode script replies, of which more
is proved, can be compared with what the live run told.

usage: bench/live_script.py INPUT TEXT             writes the script, for `store run`
       bench/live_script.py --replies INPUT TEXT   writes what it has to reply
       bench/live_script.py --drawn INPUT TEXT     writes the script without the lines that ask whether all has settled

It is for right texts: what it makes of a wrong one means nothing.
"""

import sys

sys.dont_write_bytecode = True
from live_check import Text
from live_rules import LIMIT, NO_OP, OPERATIONS, read_input


def do_line(r, operation):
    """The line of an operation at a replica."""
    takes, argument, element = OPERATIONS[operation.code - 1][2], operation.argument, operation.element
    taken = [] if argument is None else [argument if isinstance(argument, bytes) else b"%d" % argument]
    if takes in ("place", "id"):
        taken.append(b"head" if element is None else b"%d.%d.%d" % element)
    return b" ".join([b"do %d" % r, operation.object, operation.act, *taken])


def steps_behind(journal, at):
    """The steps of the group that a message which was kept begins, as a script's reply has them."""
    steps = []
    while (at := at + 1) < len(journal) and journal[at].id is not None:
        steps.append(b"%s%d:%d" % (b"!" if journal[at].word == b"crook" else b"", *journal[at].id))
    return steps


class Story:
    """The lines of a script and their replies, and how far each journal is told."""

    def __init__(self, run, text):
        self.text, self.lines, self.at, self.sent = text, [], [0] * run.n, [0] * run.n
        self.waiting = [{} for _ in range(run.n)]
        for c, replies in enumerate(text.replies):
            for reply in replies:
                self.waiting[run.at[c]].setdefault(reply.place, []).append(reply)

    def answer(self, r):
        """Tells the questions and refusals at the place where a journal is."""
        for reply in self.waiting[r].pop(self.at[r], ()):
            if reply.command.operation is None:
                self.lines.append((b"ask %d %s" % (r, reply.command.object), reply.said))
            elif not reply.said.startswith(b"ok "):
                self.lines.append((do_line(r, reply.command.operation), reply.said))

    def tell_group(self, r):
        """Tells the next group of a journal, where there is one and what it received was sent. Whether it did."""
        journal, at = self.text.journals[r], self.at[r]
        if at == len(journal):
            return False
        word, message = journal[at].word, journal[at].message
        if word == b"kept" and self.sent[message.origin] < message.number:
            return False
        if word == b"sent":
            self.sent[r] = message.number
            line = b"beat %d" % r if message.operation == NO_OP else do_line(r, message.operation)
            self.lines.append((line, b"ok %d" % message.number))
            self.at[r] += 1
        else:
            steps = steps_behind(journal, at)
            self.lines.append((b"give %d %d %d" % (r, *message.id), b" ".join([b"took", *steps]) if steps else b"kept"))
            self.at[r] += 1 + len(steps)
        self.answer(r)
        return True


def script_of(data, text, is_drawn=False):
    """The script of a right text, and its transcript. `None` where in no order all that is received was sent before. What is
    drawn has no lines that ask whether all has settled.
    """
    run = read_input(data)
    parts = Text(run, text)
    story = Story(run, parts)
    for r in range(run.n):
        story.answer(r)
    while any([story.tell_group(r) for r in range(run.n)]):
        pass
    if any(at < len(journal) for at, journal in zip(story.at, parts.journals)):
        return None
    counts = b" ".join(b"%d" % sent for sent in story.sent)
    seen = [(b"seen %d" % r, b"seen " + counts) for r in range(run.n)]
    lines = [*story.lines, *([] if is_drawn else [*seen, (b"settle", b"settled"), *seen])]
    lines += [(b"ask %d %s" % (r, object_), said) for _, r, object_, said in parts.finals]
    script = b"store %d %d %d\n" % (run.n, run.w, LIMIT) + b"".join(line + b"\n" for line, _ in lines)
    return script, b"".join(reply + b"\n" for _, reply in lines)


def main():
    words = sys.argv[1:]
    word = words.pop(0) if words[:1] in (["--replies"], ["--drawn"]) else ""
    if len(words) != 2:
        sys.exit("usage: bench/live_script.py [--replies | --drawn] INPUT TEXT")
    with open(words[0], "rb") as file:
        data = file.read()
    with open(words[1], "rb") as file:
        text = file.read()
    if read_input(data) is None:
        sys.exit("the input has no header of a live run, or is too long")
    made = script_of(data, text, word == "--drawn")
    if made is None:
        sys.exit("in no order of the journals everything that is received was sent before")
    sys.stdout.buffer.write(made[word == "--replies"])


if __name__ == "__main__":
    main()
