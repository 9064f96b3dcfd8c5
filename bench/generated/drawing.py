"""Choices of a module that is drawn, and the one place at which it is made wrong."""
import random


class Drawing:
    """The same seed gives the same choices up to the place of the fault, which is counted in places at which one may be put."""

    def __init__(self, seed, fault=None):
        self.rng = random.Random(seed)
        self.fault, self.places, self.made = fault, 0, None

    def is_wrong(self, what):
        """Whether the fault is put here: what kind it is."""
        self.places += 1
        if self.places - 1 == self.fault:
            self.made = what
        return self.places - 1 == self.fault

    def one(self, things):
        return self.rng.choice(things)

    def below(self, n):
        return self.rng.randrange(n)

    def is_so(self, share):
        return self.rng.random() < share

    def index(self, n, what):
        """An index below n; if it is made wrong, one that is not there."""
        return n + self.below(3) if self.is_wrong(f"no such {what}") else self.below(n)

    def at(self, index, n, what):
        """This index; if it is made wrong, another."""
        return self.below(n + 2) if self.is_wrong(f"another {what}") else index
