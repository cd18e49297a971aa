#!/usr/bin/env python3
"""Whether drawn scripts of lists (`bench/list_made.py`) can tell wrong rules from right ones: of each wrong reading here some script
has another transcript than by `bench/list_rules.py`.

usage: bench/list_wrong.py [--scripts N] [--size LINES]

It runs no program. The status is 0 where each wrong reading is told by some of the scripts.
"""

import sys

sys.dont_write_bytecode = True
from elements import Elements
from keep_rules import log_of
from list_made import drawn_script
from list_rules import Store
from wrong import Readings

# How many scripts are drawn, and how many lines each has at most.
SCRIPTS, SIZE = 100, 200
READINGS = Readings(Store, "elements")
reading = READINGS.reading


# ---------------------------------------------------------------- ranks and order
@reading("the lower rank comes first")
class LowFirst(Elements):
    def rank_of(self, message):
        return tuple(-part for part in super().rank_of(message))


@reading("of two elements at one place the one that came later is first")
class LateFirst(Elements):
    def rank_of(self, message):
        return self.done.index(message)


@reading("a rank is the number of a message")
class ByNumber(Elements):
    def rank_of(self, message):
        return message.epoch, message.number, message.origin


@reading("a rank goes by the member before the timestamp")
class ByMember(Elements):
    def rank_of(self, message):
        return message.epoch, message.origin, sum(message.tag)


@reading("a rank goes by the timestamp, number by number")
class ByEntries(Elements):
    def rank_of(self, message):
        return message.epoch, message.tag


@reading("of equal timestamps the lower member has the higher rank")
class LowMember(Elements):
    def rank_of(self, message):
        return message.epoch, sum(message.tag), -message.origin


@reading("a rank has no epoch")
class NoEpoch(Elements):
    def rank_of(self, message):
        return sum(message.tag), message.origin, message.epoch


@reading("what stands below an element stands behind all that were put at its place")
class Breadth(Elements):
    def below(self, place):
        at_place = sorted((m for m in self.rooted if m.operation.element == place), key=self.rank_of, reverse=True)
        return at_place + [m for child in at_place for m in self.below(self.id_of(child))]


@reading("what stands below an element comes ahead of it")
class BelowFirst(Elements):
    def below(self, place):
        at_place = sorted((m for m in self.rooted if m.operation.element == place), key=self.rank_of, reverse=True)
        return [m for child in at_place for m in [*self.below(self.id_of(child)), child]]


@reading("all elements stand in the order of their ranks")
class OneSequence(Elements):
    def below(self, place):
        found = super().below(place)
        return sorted(found, key=self.rank_of, reverse=True) if place is None else found


# ---------------------------------------------------------------- which elements there are
class WrongRoots(Elements):
    """Elements of which more or fewer are there than should be."""

    def past(self, message):
        """What an insertion has seen."""
        return [earlier for earlier in self.done if message.is_after(earlier)]

    def named(self, message, elements):
        """The elements that it may be put behind, but for what is taken out."""
        past = self.past(message)
        return [m for m in elements if m in past and self.id_of(m) == message.operation.element]

    def takers(self, message):
        """What may have taken them out."""
        return self.past(message)

    def is_rooted(self, message, elements):
        named, takers = self.named(message, elements), self.takers(message)
        return message.operation.element is None or any(not self.is_taken(m, takers) for m in named)


@reading("an insertion that names no element is put at the head")
class LostAtHead(Elements):
    @property
    def all(self):
        there = [m for m in self.done if m.operation.act == b"ins"]
        lost = sorted((m for m in there if m not in self.rooted), key=self.rank_of, reverse=True)
        return lost + self.below(None)


@reading("an insertion may name an element that it hasn't seen")
class Unseen(WrongRoots):
    def named(self, message, elements):
        return [m for m in elements if self.id_of(m) == message.operation.element]


@reading("nothing is put behind an element that is taken out without having been seen to be")
class LaterTakers(WrongRoots):
    def takers(self, message):
        return self.done


@reading("elements are put behind what was seen taken out")
class NoTakers(WrongRoots):
    def takers(self, message):
        return []


@reading("elements are put behind what was seen cleared")
class NoClears(WrongRoots):
    def takers(self, message):
        return [m for m in self.past(message) if m.operation.act != b"clear"]


@reading("elements are put behind what was seen deleted")
class NoDeletes(WrongRoots):
    def takers(self, message):
        return [m for m in self.past(message) if m.operation.act != b"del"]


@reading("a delete that a clear takes back doesn't keep elements from being put there")
class VoidedDeletes(WrongRoots):
    def takers(self, message):
        clears = [m for m in self.done if m.operation.act == b"clear"]
        return [m for m in self.past(message) if m.operation.act == b"clear" or not any(clear.is_after(m) for clear in clears)]


@reading("elements are put behind what was taken out in an epoch that is over")
class ForgottenTakers(WrongRoots):
    def takers(self, message):
        return [m for m in self.past(message) if m.epoch == message.epoch]


@reading("nothing is put behind an element of an epoch that is over")
class SameEpoch(WrongRoots):
    def named(self, message, elements):
        return [m for m in super().named(message, elements) if m.epoch == message.epoch]


@reading("nothing is put behind an element that another member put in")
class OwnOnly(WrongRoots):
    def named(self, message, elements):
        return [m for m in super().named(message, elements) if m.origin == message.origin]


@reading("an id of another list is one of this")
class AnyList(Store):
    def answer(self, verb, word, state):
        if not word.startswith(b"list:") or verb != b"ask":
            return super().answer(verb, word, state)
        elements = Elements(m for m in state.history if (m.operation.object or b"").startswith(b"list:"))
        own = [m for m in elements.shown if m.operation.object == word]
        return b" ".join([b"=", *(m.operation.argument for m in own)])


# ---------------------------------------------------------------- what is taken out
class WrongTakers(Elements):
    """Elements of which others are taken out than should be, where what is put in stays."""

    def is_rooted(self, message, elements):
        return Elements.is_rooted(Elements(self.done), message, elements)


@reading("a delete takes out what it hasn't seen")
class BlindDelete(WrongTakers):
    def is_taker(self, taker, message):
        return super().is_taker(taker, message) or taker.operation.act == b"del" and taker.operation.element == self.id_of(message)


@reading("a delete takes out elements of any epoch")
class AnyEpoch(WrongTakers):
    def is_taker(self, taker, message):
        is_named = taker.operation.act == b"del" and taker.operation.element[1:] == message.id
        return super().is_taker(taker, message) or is_named and taker.is_after(message)


@reading("a clear takes out what it hasn't seen")
class BlindClear(WrongTakers):
    def is_taker(self, taker, message):
        return super().is_taker(taker, message) or taker.operation.act == b"clear"


@reading("a clear takes out nothing that was put in by another member")
class OwnClear(WrongTakers):
    def is_taker(self, taker, message):
        is_other = taker.operation.act == b"clear" and taker.origin != message.origin
        return super().is_taker(taker, message) and not is_other


@reading("a clear takes out nothing of an epoch that is over")
class EpochsClear(WrongTakers):
    def is_taker(self, taker, message):
        is_old = taker.operation.act == b"clear" and taker.epoch != message.epoch
        return super().is_taker(taker, message) and not is_old


@reading("a delete takes out nothing of an epoch that is over")
class EpochsDelete(WrongTakers):
    def is_taker(self, taker, message):
        is_old = taker.operation.act == b"del" and taker.epoch != message.epoch
        return super().is_taker(taker, message) and not is_old


@reading("a delete takes out what stands below its element too")
class DeletesBelow(WrongTakers):
    @property
    def shown(self):
        shown = super().shown
        below = [m for gone in self.all if gone not in shown for m in self.below(self.id_of(gone))]
        return [m for m in shown if m not in below]


@reading("an insertion of a value takes out what it is put behind")
class Replaces(WrongTakers):
    @property
    def shown(self):
        places = [m.operation.element for m in self.rooted]
        return [m for m in super().shown if self.id_of(m) not in places]


# ---------------------------------------------------------------- what is told
@reading("a value is told once")
class Once(Elements):
    def values(self):
        return list(dict.fromkeys(super().values()))


@reading("values are told in byte order")
class Sorted(Elements):
    def values(self):
        return sorted(super().values())


@reading("ids of elements that aren't shown are told")
class AllIds(Elements):
    def ids(self):
        return [self.id_of(message) for message in self.all]


@reading("ids are told in the order in which elements were put in")
class IdsInOrder(Elements):
    def ids(self):
        return [self.id_of(message) for message in self.rooted if message in self.shown]


# ---------------------------------------------------------------- what is kept
@reading("what is taken out isn't kept")
class NoTombs(Elements):
    def kept(self, stable):
        return self.shown


@reading("all is kept for ever")
class AllTombs(Elements):
    def kept(self, stable):
        return self.all


@reading("what is gone is kept for nothing that stands below it")
class NothingBelow(Elements):
    def kept(self, stable):
        takers = [message for message in self.done if message in stable]
        return [message for message in self.all if not self.is_taken(message, takers)]


@reading("what is gone is kept for whatever was put below it")
class AllBelow(Elements):
    def kept(self, stable):
        remain = super().kept(stable)
        return [m for m in self.all if m in remain or self.below(self.id_of(m))]


@reading("what is gone is kept only for what is shown below it")
class ShownBelow(Elements):
    def kept(self, stable):
        takers = [message for message in self.done if message in stable]
        remain = [message for message in self.all if not self.is_taken(message, takers)]
        return [m for m in self.all if m in remain or any(other in self.shown for other in self.below(self.id_of(m)))]


@reading("what is gone is kept only for what stands right below it")
class RightBelow(Elements):
    def kept(self, stable):
        takers = [message for message in self.done if message in stable]
        remain = [message for message in self.all if not self.is_taken(message, takers)]
        return [m for m in self.all if m in remain or self.id_of(m) in [other.operation.element for other in remain]]


@reading("a clear leaves its elements kept")
class ClearKeeps(Elements):
    def kept(self, stable):
        return super().kept([message for message in stable if message.operation.act != b"clear"])


@reading("what an epoch that is over took out stays kept")
class EpochsKeep(Elements):
    def kept(self, stable):
        return super().kept([message for message in stable if message.epoch == self.done[-1].epoch])


@reading("what is gone leaves with its epoch")
class EpochsForget(Elements):
    def kept(self, stable):
        return [m for m in super().kept(stable) if m in self.shown or m.epoch == self.done[-1].epoch]


@reading("tombs are those that are gone")
class GoneTombs(Elements):
    def tombs(self, stable):
        takers = [message for message in self.done if message in stable]
        return sum(self.is_taken(message, takers) for message in self.kept(stable))


@reading("tombs are all that is kept")
class KeptTombs(Elements):
    def tombs(self, stable):
        return len(self.kept(stable))


# ---------------------------------------------------------------- logs and epochs
class WrongLog(Store):
    """A store of which other operations are logged than should be."""

    def is_logged(self, state, message):
        """Whether an operation that isn't stable is logged."""
        return message.id in log_of(state)

    def shown(self, verb, state):
        if verb not in (b"log", b"size"):
            return super().shown(verb, state)
        stable = state.stable_messages()
        ids = [m.id for m in state.history if m not in stable and m.operation.object and self.is_logged(state, m)]
        if verb == b"log":
            return b" ".join([b"log", *(b"%d:%d" % id_ for id_ in ids)])
        return b"size %d %s" % (len(ids), super().shown(verb, state).split(b" ")[2])


@reading("insertions are logged")
class InsertionsLogged(WrongLog):
    def is_logged(self, state, message):
        return message.operation.act == b"ins" or super().is_logged(state, message)


@reading("clears of lists aren't logged")
class ClearsUnlogged(WrongLog):
    def is_logged(self, state, message):
        is_clear = message.operation.object.startswith(b"list:") and message.operation.act == b"clear"
        return super().is_logged(state, message) and not is_clear


@reading("a clear of a list covers what is logged of it")
class ClearCovers(WrongLog):
    def is_logged(self, state, message):
        of_list = [m for m in state.history if m.operation.object == message.operation.object and m.operation.object.startswith(b"list:")]
        is_covered = any(m.operation.act == b"clear" and m.is_after(message) for m in of_list)
        return super().is_logged(state, message) and not is_covered


@reading("a delete covers another of its element")
class DeleteCovers(WrongLog):
    def is_logged(self, state, message):
        is_covered = any(m.operation == message.operation and m.operation.act == b"del" and m.is_after(message) for m in state.history)
        return super().is_logged(state, message) and not is_covered


@reading("a delete that takes out nothing isn't logged")
class IdleUnlogged(WrongLog):
    def is_logged(self, state, message):
        if message.operation.act != b"del":
            return super().is_logged(state, message)
        elements = Elements(m for m in state.history if m.operation.object == message.operation.object)
        return any(elements.is_taker(message, m) for m in elements.all)


@reading("elements are settled items")
class ElementItems(Store):
    def shown(self, verb, state):
        said = super().shown(verb, state)
        if verb != b"size":
            return said
        words = said.split(b" ")
        lists = {m.operation.object for m in state.history if (m.operation.object or b"").startswith(b"list:")}
        items = sum(len(Elements(m for m in state.history if m.operation.object == object_).shown) for object_ in lists)
        return b" ".join([*words[:2], b"%d" % (int(words[2]) + items)])


@reading("an epoch begins with no elements")
class NoPast(Store):
    def heir(self, me, n, epoch, past):
        return super().heir(me, n, epoch, [m for m in past if not (m.operation.object or b"").startswith(b"list:")])


@reading("a new member begins with no elements")
class NoPastForNew(Store):
    def heir(self, me, n, epoch, past):
        is_new = me >= self.n
        return super().heir(me, n, epoch, [m for m in past if not (is_new and (m.operation.object or b"").startswith(b"list:"))])


if __name__ == "__main__":
    READINGS.run(drawn_script, SCRIPTS, SIZE)
