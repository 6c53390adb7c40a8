"""The fields of lines: numbers, and bytes as pairs of hexadecimal digits."""

import re


class BadLine(Exception):
    """A malformed line."""


def is_number(text):
    """Whether a text is a decimal number without needless leading zeros."""
    return re.fullmatch("0|[1-9][0-9]*", text) is not None


def is_below(limit, text):
    """Whether a number is below a limit of at most 2^64; a number of more than 20 digits is not."""
    return len(text) <= 20 and int(text) < limit


def is_pairs(text):
    """Whether a text is one or more pairs of capital hexadecimal digits."""
    return re.fullmatch("(?:[0-9A-F]{2})+", text) is not None


def number(text, below=2**64):
    if not is_number(text) or not is_below(below, text):
        raise BadLine
    return int(text)


def octets(text):
    """Bytes as pairs, or `-` for none."""
    if text == "-":
        return b""
    if not is_pairs(text):
        raise BadLine
    return bytes.fromhex(text)
