"""Bytes in the shape of frames, right or wrong."""

from pair import Pair
from runs import RunKind


def shown(data):
    return data.hex().upper() or "-"


def hexed(value):
    return f"{value:016X}"


def packed(kind, count, end, body):
    return bytes([kind, count]) + end.to_bytes(2, "big") + body


def values_of(values):
    return b"".join(value.to_bytes(8, "big") for value in values)


def framed(values, kind=2, count_off=0, end_off=0):
    """Least values in any order; the count, the end and the kind may be wrong."""
    body = values_of(values)
    return packed(kind, len(values) + count_off, 4 + len(body) + end_off, body)


def records_of(readings):
    """The records of readings, in the order given."""
    return b"".join(
        r.item.to_bytes(8, "big") + r.tenant.to_bytes(4, "big") + r.amount.to_bytes(8, "big") for r in readings)


def sampled(readings, kind=3, count_off=0, end_off=0):
    """A sample of readings in the order given, right or not."""
    body = records_of(readings)
    return packed(kind, len(readings) + count_off, 4 + len(body) + end_off, body)


def mapped(maps, kind=1, count=64, end_off=0):
    """Bitmaps."""
    body = b"".join(bits.to_bytes(4, "big") for bits in maps)
    return packed(kind, count, 4 + len(body) + end_off, body)


def paired(first, second, kind=5, count=2, end_off=0, offset=None):
    """A pair of two sides, right or wrong."""
    offset = 6 + len(first) if offset is None else offset
    body = offset.to_bytes(2, "big") + first + second
    return packed(kind, count, 4 + len(body) + end_off, body)


def sides(frame):
    """The two sides of a pair's frame."""
    offset = int.from_bytes(frame[4:6], "big")
    return frame[6:offset], frame[offset:]


# Damages.

def head_damages(kind, frame):
    """Damage to the first four bytes and to the length."""
    for length in range(4):
        yield frame[:length]
    for number in (0, 1, 2, 3, 4, 5, 6, 255):
        if number != kind.number:
            yield bytes([number]) + frame[1:]
    for count in sorted({0, 1, 2, 3, 32, 33, 63, 64, 65, 255, max(frame[1] - 1, 0), frame[1] + 1}):
        if count != frame[1]:
            yield frame[:1] + bytes([count]) + frame[2:]
    for end in (0, 4, len(frame) - 1, len(frame) + 1, len(frame) + 256, 65535):
        if end != len(frame):
            yield frame[:2] + end.to_bytes(2, "big") + frame[4:]
    yield frame[:-1]
    yield frame + bytes(1)
    yield frame[:2] + (len(frame) + 1).to_bytes(2, "big") + frame[4:] + bytes(1)
    yield frame[:2] + (len(frame) - 1).to_bytes(2, "big") + frame[4:-1]
    yield frame[:2] + (4).to_bytes(2, "big")


def order_damages(kind, frame, places):
    """Equal or falling neighbours at these places of a run."""
    body, width = frame[4:], kind.width
    parts = [body[at:at + width] for at in range(0, len(body), width)]
    for i in places:
        if 0 < i < len(parts):
            yield frame[:4] + b"".join([*parts[:i], parts[i - 1], *parts[i + 1:]])
            yield frame[:4] + b"".join([*parts[:i - 1], parts[i], parts[i - 1], *parts[i + 1:]])


def offset_damages(frame):
    """Offsets that are just outside what is allowed, or missing."""
    end = len(frame)
    right = int.from_bytes(frame[4:6], "big")
    for offset in (0, 4, 6, 9, 10, right - 1, right + 1, right + 4, end - 5, end - 4, end - 3, end, end + 1, 65535):
        if offset != right:
            yield frame[:4] + offset.to_bytes(2, "big") + frame[6:]
    for length in range(4, 15):
        for offset in (9, 10, 11):
            yield packed(5, 2, length, (offset.to_bytes(2, "big") + frame[6:])[:length - 4])


def damages(kind, frame):
    """Damage to a frame, and to the sides of a pair's frame with all else right."""
    yield from head_damages(kind, frame)
    if isinstance(kind, RunKind):
        yield from order_damages(kind, frame, (1, 2, frame[1] - 1))
    if isinstance(kind, Pair):
        yield from offset_damages(frame)
        first, second = sides(frame)
        yield paired(second, first)
        for wrong in damages(kind.first, first):
            yield paired(wrong, second)
        for wrong in damages(kind.second, second):
            yield paired(first, wrong)
