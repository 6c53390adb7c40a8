"""Readings, their hashes, and the marks of hashes."""

from typing import NamedTuple

WORD = 2**64

# what SplitMix64 adds to its state from output to output
STEP = 0x9E3779B97F4A7C15


class Reading(NamedTuple):
    tenant: int
    item: int
    amount: int


# the reading that is counted into a row where no other is named
NOUGHT = Reading(0, 0, 0)


def hash_of(item):
    """SplitMix64's output step."""
    z = (item + STEP) % WORD
    z = ((z ^ z // 2**30) * 0xBF58476D1CE4E5B9) % WORD
    z = ((z ^ z // 2**27) * 0x94D049BB133111EB) % WORD
    return z ^ z // 2**31


def mark_of(hash_value):
    """The bucket and the rank of a hash."""
    quotient, bucket = divmod(hash_value, 64)
    if quotient == 0:
        return bucket, 31
    digits = f"{quotient:b}"
    zeros = len(digits) - len(digits.rstrip("0"))
    return bucket, 31 if zeros > 31 else zeros
