"""Cases of least values."""

from adding_cases import row_sorts
from common_cases import (body_cases, change_cases, encode_cases, header_cases, lines, other_kind_cases, row_cases,
                          row_line, short_cases)
from draws import TOP, run_like
from frames import framed, packed, values_of
from least import LEAST

FRONTS = [b"", *(bytes([first]) for first in range(256)),
          *(bytes.fromhex(front) for front in ("0000", "0200", "0240", "02FF", "FFFF"))]


def last_bytes():
    """Frames without their last byte."""
    rows = [[0], [0, 0], [127, 0], [128, 0], [255, 0], [255, 256], [2**63, 2**63 + 256], [1, 2, 0],
            run_like("last byte", 5), *([*range(63), last] for last in (0, 2**40, TOP - 255))]
    return [framed(values)[:-1] for values in rows]


def whole_frames():
    for count in (0, 1, 2, 3, 4, 7, 16, 32, 62, 63, 64):
        yield framed(run_like(f"whole {count}", count))
    for value in (0, 1, 255, 256, 2**32 - 1, 2**32, 2**63, TOP):
        yield framed([value])


def cut_cases():
    """Every front part of frames of each count, and fronts with an end that fits them."""
    wholes = [framed(run_like(f"cut {count}", count)) for count in range(65)]
    values = values_of(run_like("cut and mended", 4))
    return [*lines("cuts", [*wholes, framed(run_like("cut wrong", 6)[::-1])]),
            *lines("decode", (packed(2, count, length, values)[:length] for length in range(4, 36)
                              for count in (4, (length - 4) // 8)))]


def changed_cases():
    wholes = [framed(run_like(f"change {count}", count)) for count in (0, 1, 2, 3, 8, 33, 63, 64)]
    close = framed([2**63 + 3 * i for i in range(20)])
    return change_cases(wholes) + change_cases([close], ("00", "01", "02", "04", "10"))


def neighbours():
    """Rows with two neighbours that are equal or fall."""
    for count in (2, 3, 5, 8, 17, 64):
        run = run_like(f"order {count}", count)
        for i in range(1, count) if count < 64 else (1, 2, 31, 32, 62, 63):
            yield [*run[:i], run[i - 1], *run[i + 1:]]
            yield [*run[:i - 1], run[i], run[i - 1], *run[i + 1:]]
    yield from ([0, 0], [TOP, TOP], [TOP, 0], [0, TOP], [1, 0], [0, 1], [0, 0, 0], [0, 1, 1], [1, 1, 0], [1, 3, 2, 2],
                [2**32, 2**32 - 1], [2**32 - 1, 2**32], [255, 256], [256, 255], [2**56, 255], [255, 2**56],
                [1, 2, 3, 4, 4, 3, 2, 1], [7] * 64, [*range(64)], [TOP - 63 + i for i in range(64)], [*range(63), 62])


def wrong_counts():
    """Counts and ends that are off, and 65 values."""
    for count in (0, 1, 2, 3, 8, 63, 64):
        run = run_like(f"off {count}", count)
        for count_off, end_off in ((1, 0), (-1, 0), (0, 1), (0, -1), (1, 8), (-1, -8), (0, 256), (1, 1), (0, 8)):
            if count + count_off >= 0:
                yield framed(run, count_off=count_off, end_off=end_off)
    more = run_like("sixty-five", 66)
    yield framed(more)
    yield framed(more[:65])
    yield framed(more[:65][::-1])
    yield framed(more[:65], kind=1)
    yield framed(more[:65], count_off=-1)
    yield framed(more[:65], count_off=-1, end_off=-8)


def with_tails():
    """Frames with bytes added at the end."""
    for count in (0, 1, 2, 8, 64):
        run = run_like(f"tail {count}", count)
        for added in (1, 2, 4, 7, 8, 16):
            tail = bytes((255 - at) % 256 for at in range(added))
            yield framed(run) + tail
            yield framed(run, end_off=added) + tail
            if added % 8 == 0 and count < 64:
                yield framed(run, count_off=added // 8, end_off=added) + tail


# rows with a zero, equal neighbours or a fall
SHORT = [[0], [0, 0], [0, 1], [1, 0], [1, 1], [0, 5, 9], [5, 9, 0], [9, 5, 0], [TOP]]


def plain_row_cases():
    """Also a stray value far beyond the count, small runs, and full rows whose last value is right or wrong."""
    run = run_like("row", 64)
    yield from row_cases(LEAST, run, SHORT, values_of)
    for count, values in ((1, [run[0]] + [0] * 62 + [1]), (3, [0, 1, 2]), (3, [0, 1, 2] + [0] * 61)):
        yield row_line(count, values_of(values))
    for last in (0, 1, 61, 62, 63, 64, 2**31, 2**32 - 1, 2**32, 126 * 2**32, 2**63 - 2**32, 2**63, TOP):
        yield row_line(64, values_of([*range(63), last]))


SORTS = {
    "every short byte string": lambda: short_cases(FRONTS),
    "headers": lambda: header_cases((0, 1, 2, 3, 5, 255), (0, 1, 2, 3, 63, 64, 65, 66, 127, 128, 255), (0, 1, 2, 255)),
    "bodies behind headers": lambda: body_cases(
        [values_of(values) for values in ([5], [5, 9], [9, 5])], (1, 2, 3), (0, 1, 2, 3, 64, 65),
        (0, 4, 11, 12, 13, 20, 28, 268, 516)),
    "every last byte": lambda: lines("all", last_bytes()),
    "whole frames": lambda: lines("decode", whole_frames()),
    "frames of other kinds": other_kind_cases,
    "cut frames": cut_cases,
    "changed bytes": changed_cases,
    "equal and falling neighbours": lambda: lines("decode", map(framed, neighbours())),
    "counts and ends off": lambda: lines("decode", wrong_counts()),
    "bytes added": lambda: lines("decode", with_tails()),
    "encodes into rooms": lambda: encode_cases(LEAST, "v", (0, 1, 2, 5, 62, 63, 64)),
    "plain rows": plain_row_cases,
    **row_sorts(LEAST),
}
