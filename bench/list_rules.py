#!/usr/bin/env python3
"""The rules of scripts of a store, plainly over all that was delivered, lists and epochs among it: a script in, its transcript out.

usage: bench/list_rules.py SCRIPT    writes what the script has to reply; the status is 2 where it has no header `store`

What the elements of a list are, their order and which are kept is `bench/elements.py`. What a replica may send and accept, and
what other objects are, are the rules of live runs (`bench/live_rules.py`); logs and settled items are those of durable replicas
(`bench/keep_rules.py`). Nothing here is quick, and nothing is shared with the program: `.ci/lists` compares the two.
"""

import re
import sys

sys.dont_write_bytecode = True
import keep_rules
from keep_rules import Replica, transcript_of
from live_rules import NO_OP, Bad, BadFrame, State, amount_of, member_of, message_of

# The commands, with how many words stand behind each.
COMMANDS = {
    **{verb: counts for verb, counts in keep_rules.COMMANDS.items() if verb != b"stop"},
    b"resend": (2,), b"raw": (2,), b"settle": (0,), b"members": (1,), b"noops": (1,), b"lags": (1,),
}
MOST_MEMBERS, LAST_EPOCH = 16, 65535
# Elements may stand below one another as deep as there are many.
sys.setrecursionlimit(100000)


def is_delivery(said):
    """Whether a reply tells that a message was delivered."""
    first, *steps = said.split(b" ")
    return first == b"took" and any(not step.startswith(b"!") for step in steps)


class Store(keep_rules.Store):
    """The replicas of a script, and what each member sent in its epoch."""

    word, commands = b"store", COMMANDS

    def states(self):
        return [replica.state for replica in self.replicas]

    # --- commands of the store
    def of_store(self, verb, *words):
        if verb == b"settle":
            return self.settle()
        return self.members(amount_of(words[0])) if verb == b"members" else None

    def settle(self):
        """Rounds of offers and beats, until one moves nothing. What is replied."""
        while self.make_round():
            pass
        return b"settled" if self.is_settled() else b"unsettled"

    def make_round(self):
        """Each replica is offered what each other would resend, and then each makes a beat. Whether something moved."""
        every = range(self.n)
        moved = [any([is_delivery(said) for said in self.offers(r, k)]) for r in every for k in every if k != r]
        beats = [self.of_member(b"beat", r) for r in every]
        return any(moved) or any(said.startswith(b"ok") for said in beats)

    def is_settled(self):
        """Whether all have delivered as many messages of each member."""
        return len({state.counts() for state in self.states()}) == 1

    def is_at_rest(self):
        """Whether each operation is stable at each replica."""
        return all(m.operation == NO_OP or m in state.stable_messages() for state in self.states() for m in state.history)

    def members(self, n):
        """Changes the members, where all have heard of all. What is replied."""
        if not 1 <= n <= MOST_MEMBERS:
            raise Bad(8)
        epoch = self.states()[0].epoch
        if epoch == LAST_EPOCH:
            return b"last"
        if not self.is_settled() or not self.is_at_rest():
            return b"unsettled"
        pasts = [state.history for state in self.states()]
        self.replicas = [self.heir(me, n, epoch + 1, pasts[me if me < self.n else 0]) for me in range(n)]
        self.sent = [[] for _ in range(n)]
        self.n = n
        return b"epoch %d" % (epoch + 1)

    def heir(self, me, n, epoch, past):
        """A replica that begins an epoch with what was delivered in those before."""
        replica = self.make((me, n, self.w, self.limit))
        replica.state = State(me, n, self.w, self.limit, epoch, past)
        return replica

    # --- commands of a member
    def of_member(self, verb, r, *rest):
        state = self.replicas[r].state
        if verb == b"resend":
            return self.resend(r, member_of(rest[0], self.n))
        if verb == b"raw":
            return self.raw(r, rest[0])
        if verb == b"noops":
            return b"noops %d" % state.unstable(is_noop=True)
        if verb == b"lags":
            return self.lags(state)
        return super().of_member(verb, r, *rest)

    def offers(self, r, k):
        """Offers what is in a member's outbox to a replica. What is replied to each message."""
        return [self.replicas[r].receive(message) for message in self.replicas[k].state.outbox()]

    def resend(self, r, k):
        said = self.offers(r, k)
        steps = [step for one in said if one.startswith(b"took") for step in one.split(b" ")[1:]]
        return b" ".join([b"took", *steps]) if steps else b"kept" if b"kept" in said else b"none"

    def raw(self, r, digits):
        """Offers bytes to a replica."""
        if not re.fullmatch(rb"([0-9a-fA-F]{2})+", digits):
            raise Bad(7)
        state = self.replicas[r].state
        try:
            message = message_of(bytes.fromhex(digits.decode()), self.n, state.epoch, self.limit, oldest=1)
        except BadFrame as bad:
            return b"bad frame %d" % bad.args[0]
        return self.replicas[r].receive(message)

    def lags(self, state):
        """The least member that isn't known to have the oldest own message that isn't stable."""
        oldest = state.stable()[state.me] + 1
        behind = [q for q in range(self.n) if q != state.me and state.known(q)[state.me] < oldest]
        return b"lags %d" % behind[0] if state.outbox() else b"lags none"


def main():
    if len(sys.argv) != 2:
        sys.exit("usage: bench/list_rules.py SCRIPT")
    with open(sys.argv[1], "rb") as file:
        transcript = transcript_of(file.read(), Store)
    if transcript is None:
        print("the script has no header of a store", file=sys.stderr)
        sys.exit(2)
    sys.stdout.buffer.write(transcript)


if __name__ == "__main__":
    main()
