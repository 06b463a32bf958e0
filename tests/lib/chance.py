"""Choices by a seed."""

import random


class Chance:
    def __init__(self, seed):
        self.random = random.Random(seed)

    def one(self, choices):
        return self.random.choice(choices)

    def often(self, value, others, part=0.9):
        """This value, and sometimes one of the others."""
        return value if self.random.random() < part else self.one(others)
