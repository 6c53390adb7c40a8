"""Cases of bitmaps."""

from adding_cases import other_sorts
from bitmaps import BITMAPS
from common_cases import (change_cases, damage_cases, drawn_damage_cases, encode_cases, frame_like,
                          header_cases, lines, other_kind_cases, short_cases)
from draws import FULL, Draws, littered, spread
from frames import mapped, packed

TELLING = (0, 1, 2, 7, 0xFFFFFFFE, 0x80000000, 0x7FFFFFFF, FULL, 0x55555555, 0xAAAAAAAA)


def length_cases():
    """Bodies of wrong lengths, with the end that fits them and with the end that the kind wants."""
    body = bytes(at % 251 for at in range(600))
    return lines("decode", (packed(1, count, end, body[:length - 4])
                            for length in (4, 5, 8, 132, 256, 259, 260, 261, 264, 516)
                            for count in (0, 32, 63, 64, 65) for end in (length, 260)))


def drawn_maps():
    draws = Draws("b frames")
    for _ in range(24):
        mask = draws.word() & draws.word() | FULL >> draws.below(33)
        yield mapped([draws.word() & mask & FULL for _ in range(64)])


def frame_cases():
    empty = mapped([0] * 64)
    return [*lines("decode", [mapped([bits] * 64) for bits in TELLING]), *lines("decode", drawn_maps()),
            *lines("all", [empty[:4 * at + 3] for at in (0, 1, 17, 63)] + [mapped([5] * 64)[:-1]]),
            *lines("cuts", [mapped([FULL] * 64), mapped(littered("b cut", spread(500)))])]


SOME = [frame_like(BITMAPS, "b some", 5), mapped(littered("b littered", spread(700)))]

SORTS = {
    "short byte strings": short_cases,
    "headers": lambda: header_cases((0, 1, 2, 5), (0, 1, 63, 64, 65, 255), (0, 1, 2)),
    "bodies of other lengths": length_cases,
    "whole frames": frame_cases,
    "frames of other kinds": other_kind_cases,
    "damages": lambda: damage_cases(BITMAPS, SOME),
    "drawn damages": lambda: drawn_damage_cases(BITMAPS, "b", 60),
    "changed bytes": lambda: change_cases(SOME),
    "encodes into rooms": lambda: encode_cases(BITMAPS, "b", (0, 1, 50)),
    **other_sorts(BITMAPS, (0, 1, 2, 60)),
}
