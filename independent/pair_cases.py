"""Cases of pairs: the standard pile and others, and one that is overlong."""

from adding_cases import other_sorts
from common_cases import (change_cases, damage_cases, drawn_damage_cases, encode_cases, frame_like, header_cases,
                          lines, other_kind_cases, short_cases)
from frames import framed, packed, paired, shown, sides
from pair import KINDS


def no_bodies():
    """Frames with zeros after their header."""
    return [packed(5, 2, length, bytes(length - 4)) for length in (4, 5, 6, 9, 10, 13, 14, 15, 18)]


def heads():
    bare = no_bodies()
    return [*header_cases((0, 1, 3, 5, 6), (0, 1, 2, 3, 64), (0, 1)), *lines("decode", bare),
            *lines("all", (frame[:-1] for frame in bare))]


def with_offsets(frame):
    """Telling low bytes of the offset, with the right high byte and with others."""
    for high in sorted({0, 1, frame[4], 255}):
        for low in (0, 1, 6, 9, 10, 11, 14, 128, 255, frame[5], max(frame[5] - 1, 0), min(frame[5] + 1, 255)):
            yield frame[:4] + bytes([high, low]) + frame[6:]


def wrong_sides(frame):
    """Both sides wrong, where the first side's fault is reported; and sides too long or too short for their place."""
    first, second = sides(frame)

    def wrong(side):
        return bytes([0]) + side[1:], side[:1] + bytes([99]) + side[2:], side + bytes(1), side[:-1]

    yield from (paired(one, other) for one in wrong(first) for other in wrong(second))
    yield from (paired(first, second, offset=6 + len(first) + moved) for moved in (-8, -4, -1, 1, 4, 8))
    yield from (paired(frame, second), paired(first, frame), paired(b"", second), paired(first, b""), paired(b"", b""))
    for one in (bytes(3), bytes(4), bytes([5, 2, 0, 4]), bytes([5, 2, 0, 5, 0]), bytes([5, 2, 0, 6, 0, 10]),
                framed([]), framed([1]), framed([1, 1])):
        for other in (bytes(3), bytes([5, 2, 0, 4]), bytes([5, 2, 0, 5, 0]), framed([]), framed([2, 1]), second):
            yield paired(one, other)
        yield paired(first, one)


def sorts(letter, counts, greatest):
    """A pair's cases by sort, with damage to frames of these numbers of readings, and frames up to the greatest."""
    kind = KINDS[letter]

    def made(name, counts):
        return [frame_like(kind, f"{letter} {name} {count}", count) for count in counts]

    some = frame_like(kind, f"{letter} some", 3)
    both = frame_like(kind, f"{letter} both sides", 2)
    whole = (0, 1, 2, 10, 31, 32, 33, 63, 64, 65, greatest)
    return {
        "short byte strings": short_cases,
        "headers": heads,
        "whole frames": lambda: lines("decode", made("whole", whole)),
        "frames of other kinds": other_kind_cases,
        "cut frames": lambda: lines("cuts", made("cut", (0, 1, 3, 40))),
        "damages at every level": lambda: damage_cases(kind, made("damage", counts)),
        "offsets": lambda: lines("decode", with_offsets(some)),
        "both sides": lambda: lines("decode", wrong_sides(both)),
        "drawn damages": lambda: drawn_damage_cases(kind, letter, 80),
        "changed bytes": lambda: change_cases([some], ("01", "04", "80", "FF")),
        "encodes into rooms": lambda: encode_cases(kind, letter, (0, 1, 80)),
        **other_sorts(kind, (0, 1, 2, 65)),
    }


def overlong_cases():
    """Bytes that would be frames, or parts of them, were they not too long."""
    empty = bytes.fromhex("03000004")
    pair = paired(empty, empty)
    whole = paired(pair, pair)
    many = (b"", empty, pair, whole, whole[:-1], bytes(3), bytes(4), bytes(2049), bytes([5, 2, 0, 4]))
    for verb in ("decode", "cuts", "all"):
        yield from lines(verb, many)
    yield from lines("changes", many, "01")
    yield from (f"encode {shown(data)} 2100" for data in many)
    yield from short_cases()
    yield from other_kind_cases()


OVERLONG_SORTS = {"bytes brought to an overlong pile": overlong_cases}
