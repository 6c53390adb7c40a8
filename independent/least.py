"""Least values: runs of hash values."""

from readings import hash_of
from runs import RunKind


class LeastValues(RunKind):
    number = 2
    greatest = 516
    most = 64
    width = 8

    def single(self, reading):
        return [hash_of(reading.item)]

    def written(self, value):
        return value.to_bytes(8, "big")

    def read(self, data):
        return int.from_bytes(data, "big")

    def estimate(self, run):
        """The estimated number of different items."""
        if len(run) < self.most:
            return len(run)
        upper = run[-1] // 2**32
        return 63 * 2**32 // (upper + 1)

    def figure(self, run):
        return self.estimate(run)


LEAST = LeastValues()
