"""The pair of any two kinds, and piles of pairs."""

from bitmaps import BITMAPS
from kinds import OVERLONG, Kind, Refused
from least import LEAST
from sample import SAMPLE


class Pair(Kind):
    number = 5

    def __init__(self, first, second):
        self.first = first
        self.second = second
        self.sum = 6 + first.greatest + second.greatest
        self.greatest = min(self.sum, OVERLONG)
        self.empty = (first.empty, second.empty)

    def single(self, reading):
        return self.first.single(reading), self.second.single(reading)

    def join(self, one, other):
        return self.first.join(one[0], other[0]), self.second.join(one[1], other[1])

    def count_of(self, form):
        return 2

    def body_of(self, form):
        first, second = self.first.frame(form[0]), self.second.frame(form[1])
        return (6 + len(first)).to_bytes(2, "big") + first + second

    def allows(self, count):
        return count == 2

    def fits(self, count, length):
        return True

    def held(self, frame):
        offset = int.from_bytes(frame[4:6], "big")
        if len(frame) < 6 or offset < 10 or offset > len(frame) - 4:
            raise Refused(14, 4, self.number)
        return part(self.first, frame[:offset], 6), part(self.second, frame, offset)


def part(kind, data, start):
    """The form that the data hold from `start` on."""
    try:
        return kind.decode(data[start:])
    except Refused as fault:
        raise fault.within(start) from None


PILE = Pair(BITMAPS, Pair(LEAST, SAMPLE))

# the kinds by the letters that lines use
KINDS = {
    "b": BITMAPS,
    "v": LEAST,
    "s": SAMPLE,
    "p": PILE,
    "t": Pair(LEAST, LEAST),
    "n": Pair(Pair(BITMAPS, SAMPLE), LEAST),
    "o": Pair(Pair(SAMPLE, SAMPLE), Pair(SAMPLE, SAMPLE)),
}
