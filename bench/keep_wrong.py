#!/usr/bin/env python3
"""Whether drawn scripts of durable replicas (`bench/keep_made.py`) can tell wrong rules from right ones: of each wrong reading here
some script has another transcript than by `bench/keep_rules.py`.

usage: bench/keep_wrong.py [--scripts N] [--size LINES]

It runs no program. The status is 0 where each wrong reading is told by some of the scripts.
"""

import sys

sys.dont_write_bytecode = True
from keep_made import drawn_script
from keep_rules import Replica, Store, record_of
from live_rules import NO_OP, State
from wrong import Readings

# How many scripts are drawn, and how many lines each has at most.
SCRIPTS, SIZE = 60, 250
READINGS = Readings(Store, "make")
reading = READINGS.reading


class WrongStop(Replica):
    """A replica of which a stop leaves other groups than it should."""

    def is_left(self, room, length):
        """Whether a record is left where so much room is left for it."""
        return length <= room

    def length(self, group):
        """How long a record is taken to be."""
        return len(record_of(group, self.state.n))

    def left(self, room):
        left = self.groups[:self.synced]
        for group in self.groups[self.synced:]:
            if not self.is_left(room, self.length(group)):
                break
            room -= self.length(group)
            left.append(group)
        return left


@reading("nothing is synced")
class NothingSynced(Replica):
    def send(self, operation, why):
        synced = self.synced
        told = super().send(operation, why)
        self.synced = synced
        return told


@reading("a no-op syncs nothing")
class NoOpSyncsNothing(Replica):
    def send(self, operation, why):
        synced = self.synced
        told = super().send(operation, why)
        if operation == NO_OP:
            self.synced = synced
        return told


@reading("a refused send syncs")
class RefusedSyncs(Replica):
    def send(self, operation, why):
        self.synced = len(self.groups)
        return super().send(operation, why)


@reading("what is received is synced")
class ReceivingSyncs(Replica):
    def receive(self, message):
        said = super().receive(message)
        self.synced = len(self.groups)
        return said


@reading("a torn record is kept")
class TornIsKept(WrongStop):
    def is_left(self, room, length):
        return 0 < room


@reading("a record that just fits is lost")
class JustFitsIsLost(WrongStop):
    def is_left(self, room, length):
        return length < room


@reading("a record's length isn't counted")
class LengthUncounted(WrongStop):
    def length(self, group):
        return super().length(group) - 4


@reading("a record's way isn't counted")
class WayUncounted(WrongStop):
    def length(self, group):
        return super().length(group) - 1


@reading("each note has a record")
class NoteRecords(WrongStop):
    def length(self, group):
        return super().length(group) + 8 * (len(group) - 1)


@reading("a record that fits behind one that doesn't is kept")
class FitsBehindIsKept(Replica):
    def left(self, room):
        left = self.groups[:self.synced]
        for group in self.groups[self.synced:]:
            length = len(record_of(group, self.state.n))
            if length <= room:
                room -= length
                left.append(group)
        return left


@reading("room counts from the first record")
class RoomFromFirst(Replica):
    def left(self, room):
        synced = sum(len(record_of(group, self.state.n)) for group in self.groups[:self.synced])
        return super().left(max(0, room - synced))


@reading("all that was heard is lost")
class HeardIsLost(Replica):
    def left(self, room):
        return self.groups[:self.synced]


@reading("nothing is lost")
class NothingLost(Replica):
    def left(self, room):
        return self.groups


@reading("what is left isn't synced")
class LeftUnsynced(Replica):
    def stop(self, room):
        synced = self.synced
        said = super().stop(room)
        self.synced = synced
        return said


@reading("early messages outlive a stop")
class EarlyOutlives(Replica):
    def stop(self, room):
        early = self.state.early
        said = super().stop(room)
        self.state.early = {id_: m for id_, m in early.items() if self.state.refusal(m) is None} | self.state.early
        return said


@reading("early messages are lost")
class EarlyIsLost(Replica):
    def stop(self, room):
        said = super().stop(room)
        self.state.early = {}
        return said


@reading("groups are told in place of notes")
class GroupsTold(Replica):
    def stop(self, room):
        super().stop(room)
        return b"open %d" % len(self.groups)


@reading("what is lost is still there")
class LostIsThere(Replica):
    def stop(self, room):
        state = self.state
        said = super().stop(room)
        self.state = state
        return said


@reading("what is lost is still known to be stable")
class StableStays(Replica):
    def stop(self, room):
        stable = self.state.stable()
        said = super().stop(room)
        state = self.state
        state.stable = lambda: tuple(map(max, State.stable(state), map(min, stable, state.counts())))
        return said


@reading("all replicas are stopped")
class AllStopped(Store):
    def run(self, line, verb, *words):
        said = super().run(line, verb, *words)
        if verb == b"stop":
            for replica in self.replicas:
                replica.stop(0)
        return said


@reading("a stop takes back what was sent")
class SentIsTakenBack(Store):
    def run(self, line, verb, *words):
        said = super().run(line, verb, *words)
        if verb == b"stop":
            self.sent = [sent[:len(sent) // 2] for sent in self.sent]
        return said


if __name__ == "__main__":
    READINGS.run(drawn_script, SCRIPTS, SIZE)
