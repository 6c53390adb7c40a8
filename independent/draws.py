"""Numbers, maps, runs and readings that look random and are the same on every machine."""

import hashlib

from readings import STEP, WORD, Reading, hash_of

TOP = WORD - 1

# a map with all bits
FULL = 2**32 - 1


class Draws:
    """Draws numbers from SHA-256 of a name and a count."""

    def __init__(self, name):
        self.name = name
        self.drawn = 0

    def word(self):
        digest = hashlib.sha256(f"{self.name} {self.drawn}".encode()).digest()
        self.drawn += 1
        return int.from_bytes(digest[:8], "big")

    def words(self, count):
        return [self.word() for _ in range(count)]

    def below(self, limit):
        return self.word() % limit

    def pick(self, choices):
        return choices[self.below(len(choices))]

    def some(self, values, count):
        """`count` of the values, at different places."""
        left = list(values)
        return [left.pop(self.below(len(left))) for _ in range(count)]


def run_like(name, count, bits=64):
    """A run of `count` values below 2 ** bits."""
    draws, found = Draws(name), set()
    while len(found) < count:
        found.add(draws.word() >> (64 - bits))
    return sorted(found)


def readings_like(name, count):
    """Readings of different items; small tenants and amounts are as likely as great ones."""
    draws = Draws(name)

    def sized(bits):
        return draws.word() % 2**draws.pick([2, 8, bits])

    return [Reading(sized(32), draws.word(), sized(64)) for _ in range(count)]


def sample_order(readings):
    """Readings in the order of a sample's records."""
    return sorted(readings, key=lambda r: (hash_of(r.item), r.item, r.tenant, r.amount))


def item_with(hash_value):
    """The item that has this hash: the inverse of SplitMix64's output step."""

    def unshifted(value, bits):
        found = value
        for _ in range(64 // bits + 1):
            found = value ^ found >> bits
        return found

    z = unshifted(hash_value, 31)
    z = unshifted(z * pow(0x94D049BB133111EB, -1, WORD) % WORD, 27)
    z = unshifted(z * pow(0xBF58476D1CE4E5B9, -1, WORD) % WORD, 30)
    return (z - STEP) % WORD


def item_marked(bucket, rank, odd=1):
    """An item with this mark; different values of `odd` give different items."""
    return item_with((bucket + 64 * (odd << rank)) % WORD)


def together(total):
    """How many low bits to set in each map, so that these numbers sum to `total`: full maps first."""
    return [min(32, max(0, total - 32 * at)) for at in range(64)]


def spread(total):
    """The same, spread evenly."""
    return [total // 64 + (at < total % 64) for at in range(64)]


def plain(lengths):
    """Maps with these numbers of low bits set, and no others."""
    return [2**length - 1 for length in lengths]


def littered(name, lengths):
    """The same maps, with drawn bits above their lowest zero bit."""
    draws = Draws(name)
    return [2**length - 1 | draws.below(2**32) & FULL << (length + 1) for length in lengths]


def telling_words():
    near = [0, 1, 2, 3, 7, 8, 31, 32, 63, 64, 65, 127, 128, 255, 256]
    powers = [2**k + d for k in (16, 31, 32, 33, 48, 62, 63) for d in (-1, 0, 1)]
    return near + powers + [TOP - 64, TOP - 1, TOP]


def rare_hashes():
    """Hashes of high rank, 28 zeros and more, with telling buckets."""
    found = []
    for zeros in range(28, 58):
        for bucket in (0, 1, 47, 63):
            found.append((1 << zeros + 6) + bucket)
        if zeros < 56:
            found.append((5 << zeros + 6) % WORD + 21)
    return found + list(range(64))[::7] + [63]
