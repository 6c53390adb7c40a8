"""Bitmaps: 64 maps of 32 bits, in which a reading sets the bit of its mark."""

from kinds import Kind
from readings import hash_of, mark_of


def lowest_zero(bits):
    """The position of a map's lowest zero bit, or 32 if it has none."""
    return next((position for position in range(32) if not bits >> position & 1), 32)


def root(power):
    """The greatest whole number whose eighth power is at most 2 ** power."""
    low, high = 0, 2**(power // 8 + 1)
    while high - low > 1:
        middle = (low + high) // 2
        low, high = (middle, high) if middle**8 <= 2**power else (low, middle)
    return low


class Bitmaps(Kind):
    number = 1
    greatest = 260
    empty = [0] * 64

    def single(self, reading):
        bucket, rank = mark_of(hash_of(reading.item))
        return [2**rank if at == bucket else 0 for at in range(64)]

    def join(self, one, other):
        return [a | b for a, b in zip(one, other)]

    def count_of(self, maps):
        return 64

    def body_of(self, maps):
        return b"".join(bits.to_bytes(4, "big") for bits in maps)

    def allows(self, count):
        return count == 64

    def fits(self, count, length):
        return length == 260

    def held(self, frame):
        return [int.from_bytes(frame[at:at + 4], "big") for at in range(4, 260, 4)]

    def total(self, maps):
        """S: the sum of the positions of the lowest zero bits."""
        return sum(lowest_zero(bits) for bits in maps)

    def estimate(self, maps):
        """The estimated number of different items."""
        if not any(maps):
            return 0
        q = self.total(maps) // 8
        w, j = divmod(q, 8)
        return root(j + 48) * 2**w * 100000 // 77351


BITMAPS = Bitmaps()
