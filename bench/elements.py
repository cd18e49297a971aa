"""The elements of a list, plainly over all that was done to it: which there are, in which order, which are shown, and which are
kept once deletions are stable.

`bench/live_rules.py` answers by them, and `bench/keep_rules.py` and `bench/list_rules.py` tell ids and tombs. Nothing here is
quick: each question asks all that was done, and no element is moved when something more is.
"""

from functools import cached_property


class Elements:
    """The elements of a list, by the messages that did something to it, in the order of their delivery."""

    def __init__(self, done):
        self.done = list(done)

    # --- which there are
    def id_of(self, message):
        """The id of the element that an insertion puts in."""
        return message.epoch, message.origin, message.number

    def is_taker(self, taker, message):
        """Whether a message takes out the element that another puts in."""
        act, element = taker.operation.act, taker.operation.element
        return taker.is_after(message) and (act == b"clear" or act == b"del" and element == self.id_of(message))

    def is_taken(self, message, takers):
        """Whether one of these does."""
        return any(self.is_taker(taker, message) for taker in takers)

    def is_rooted(self, message, elements):
        """Whether an insertion puts an element in, by those that did before it: its place is the head, or behind one of these that
        it has seen, and that nothing which it has seen takes out."""
        if message.operation.element is None:
            return True
        past = [earlier for earlier in self.done if message.is_after(earlier)]
        named = [m for m in elements if m in past and self.id_of(m) == message.operation.element]
        return any(not self.is_taken(m, past) for m in named)

    @cached_property
    def rooted(self):
        """The insertions that put an element in."""
        found = []
        for message in self.done:
            if message.operation.act == b"ins" and self.is_rooted(message, found):
                found.append(message)
        return found

    # --- their order
    def rank_of(self, message):
        """The rank of an element."""
        return message.epoch, sum(message.tag), message.origin

    def below(self, place):
        """The elements below a place: each ahead of those below it, and of those at one place the highest rank first."""
        at_place = [message for message in self.rooted if message.operation.element == place]
        found = []
        for message in sorted(at_place, key=self.rank_of, reverse=True):
            found += [message, *self.below(self.id_of(message))]
        return found

    @cached_property
    def all(self):
        """All elements that were ever put in, in their order."""
        return self.below(None)

    # --- what is asked
    @cached_property
    def shown(self):
        """Those that nothing takes out."""
        return [message for message in self.all if not self.is_taken(message, self.done)]

    def values(self):
        """The values that are shown, in their order."""
        return [message.operation.argument for message in self.shown]

    def ids(self):
        """Their ids."""
        return [self.id_of(message) for message in self.shown]

    def kept(self, stable):
        """The elements that are kept where these messages are stable: those that none of them takes out, and those with one below
        them that none takes out."""
        takers = [message for message in self.done if message in stable]
        remain = [message for message in self.all if not self.is_taken(message, takers)]
        return [m for m in self.all if m in remain or any(other in remain for other in self.below(self.id_of(m)))]

    def tombs(self, stable):
        """How many of these aren't shown."""
        return sum(message not in self.shown for message in self.kept(stable))
