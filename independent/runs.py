"""Kinds whose forms are runs: sorted lists of different elements, with at most `most` of them.

An element is written in `width` bytes. Python's own order of the elements is the run's order.
"""

from kinds import Kind, Refused


class RunKind(Kind):
    """A kind of runs adds `most`, `width`, `written` (an element's bytes), `read` (their element) and `figure` (the
    run's estimate, or its number of records)."""

    empty = []

    def join(self, one, other):
        """The run of the `most` least elements of either, or of all if there are fewer."""
        return sorted({*one, *other})[:self.most]

    def count_of(self, run):
        return len(run)

    def body_of(self, run):
        return b"".join(map(self.written, run))

    def allows(self, count):
        return count <= self.most

    def fits(self, count, length):
        return length == 4 + self.width * count

    def elements(self, data):
        return [self.read(data[at:at + self.width]) for at in range(0, len(data), self.width)]

    def held(self, frame):
        run = self.elements(frame[4:])
        for i, (before, element) in enumerate(zip(run, run[1:]), start=1):
            if not before < element:
                raise Refused(13, 4 + self.width * i, self.number)
        return run

    def stands_for(self, count, places):
        """The run that a plain row stands for, or the empty run if the row is not valid. The row has these bytes in
        its first places and zeros in the others."""
        if count > self.most:
            return []
        places = places.ljust(self.width * self.most, bytes(1))
        used, unused = places[:self.width * count], places[self.width * count:]
        run = self.elements(used)
        rises = run == sorted(set(run))
        return run if rises and not any(unused) else []
