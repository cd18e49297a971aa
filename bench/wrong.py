"""Whether drawn scripts tell wrong readings of the rules from the right one: what `bench/keep_wrong.py` and `bench/list_wrong.py` share."""

import argparse
import sys

from keep_rules import transcript_of

# How many scripts have to tell a wrong reading.
OFTEN = 3


class Readings:
    """Wrong readings by what they get wrong, each what makes a store."""

    def __init__(self, right, part):
        """The right store is a class; a reading that is none of a store is of its attribute of this name."""
        self.right, self.part, self.stores = right, part, {}

    def reading(self, why):
        """Notes a wrong reading: a wrong part, or a wrong store."""
        def note(of):
            self.stores[why] = of if issubclass(of, self.right) else type(of.__name__, (self.right,), {self.part: of})
            return of
        return note

    def run(self, drawn_script, scripts, size):
        """Says how many scripts it takes to tell each, of so many that are drawn with at most so many lines, and ends the program: with
        status 0 where each is told often enough."""
        parser = argparse.ArgumentParser()
        parser.add_argument("--scripts", type=int, default=scripts)
        parser.add_argument("--size", type=int, default=size)
        words = parser.parse_args()
        drawn = [drawn_script(seed, words.size) for seed in range(words.scripts)]
        right = [transcript_of(script, self.right) for script in drawn]
        missed = 0
        for why, store in self.stores.items():
            told = tried = 0
            while told < OFTEN and tried < len(drawn):
                told += is_told(drawn[tried], store, right[tried])
                tried += 1
            missed += told < OFTEN
            print(f"{told:>5} of {tried:>3} scripts tell that {why}{'' if told >= OFTEN else ': TOO FEW'}", flush=True)
        print(f"{len(self.stores)} wrong readings, {missed} of them told by too few scripts")
        sys.exit(1 if missed else 0)


def is_told(script, store, transcript):
    """Whether a wrong reading has another transcript of a script, or breaks down at it."""
    try:
        return transcript_of(script, store) != transcript
    except (KeyError, IndexError):
        return True
