"""Cases of the sample."""

from adding_cases import row_sorts, ties
from common_cases import (body_cases, change_cases, damage_cases, drawn_damage_cases, encode_cases, frame_like,
                          header_cases, lines, other_kind_cases, row_cases, row_line, short_cases)
from draws import TOP, item_with, readings_like, sample_order
from frames import order_damages, packed, records_of, sampled
from readings import NOUGHT, Reading
from sample import SAMPLE

MOST = 32


def run_of(name, count):
    return sample_order(readings_like(name, count))


def swapped(many, at):
    """The elements with two neighbours swapped."""
    return [*many[:at], many[at + 1], many[at], *many[at + 2:]]


def wrong_orders():
    """Equal and falling neighbours at each place."""
    for count in (2, 3, 5, 9):
        yield from order_damages(SAMPLE, sampled(run_of(f"s order {count}", count)), range(1, count))
    yield from order_damages(SAMPLE, sampled(run_of("s order full", MOST)), (1, 2, 3, 15, 16, 30, 31))
    yield sampled([Reading(1, 2, 3)] * MOST)
    yield sampled(run_of("s backward", MOST)[::-1])


def close_records():
    """Records that differ in one part only, in both orders; then in several parts, where the first decides."""
    for item in (0, 9, item_with(0), item_with(TOP)):
        for one, other in ((0, 1), (1, 2), (255, 256), (2**31, 2**32 - 1), (0, 2**32 - 1)):
            yield [Reading(one, item, 5), Reading(other, item, 5)]
            yield [Reading(other, item, 5), Reading(one, item, 5)]
        for one, other in ((0, 1), (255, 256), (2**32 - 1, 2**32), (2**63, TOP), (0, TOP)):
            yield [Reading(5, item, one), Reading(5, item, other)]
            yield [Reading(5, item, other), Reading(5, item, one)]
    # the tenant decides before the amount, and the item before the tenant
    yield from ([Reading(1, 9, 7), Reading(2, 9, 3)], [Reading(2, 9, 3), Reading(1, 9, 7)],
                [Reading(5, 1, 9), Reading(1, 0, 1)], [Reading(1, 0, 1), Reading(5, 1, 9)])
    three = [Reading(t, 4, a) for t in (0, 1, 2) for a in (0, 1, 2)]
    yield three
    yield from (swapped(three, at) for at in range(8))


def orders_by_hash():
    """Records in the order of their hashes; in other orders they are refused unless these happen to agree."""
    for count in (2, 3, 4, 8, 20, MOST):
        readings = [Reading(i, i, count - i) for i in range(count)]
        yield from (sample_order(readings), readings, readings[::-1])
        yield [Reading(0, r.item, at) for at, r in enumerate(sample_order(readings))]
        yield [Reading(0, r.item, count - at) for at, r in enumerate(sample_order(readings))]
    for one in range(8):
        for other in range(one + 1, 8):
            yield [Reading(0, one, 0), Reading(0, other, 0)]
    near = [Reading(0, item_with(value), 0) for value in (0, 1, 2, 63, 64, 2**32, 2**63 - 1, 2**63, TOP - 1, TOP)]
    yield near
    yield from (swapped(near, at) for at in range(len(near) - 1))


def whole_frames():
    for count in range(MOST + 1):
        yield sampled(run_of(f"s whole {count}", count))
    more = run_of("s more", MOST + 2)
    yield from map(sampled, (more[:33], more[:33][::-1], more))
    yield sampled(more[:33], count_off=-1)
    yield sampled(more[:33], count_off=-1, end_off=-20)
    yield sampled(more[:33], kind=2)
    yield from (sampled([reading]) for reading in (NOUGHT, Reading(2**32 - 1, TOP, TOP), Reading(1, 2, 3)))


def cut_cases():
    wholes = [sampled(run_of(f"s cut {count}", count)) for count in (0, 1, 2, 3, 5, 9, 16, 31, 32)]
    records = records_of(run_of("s mended", 3))
    return [*lines("cuts", [*wholes, sampled(run_of("s cut wrong", 6)[::-1])]),
            *lines("decode", (packed(3, count, length, records[:length - 4])
                              for length in range(4, 64, 3) for count in (3, (length - 4) // 20)))]


def last_byte_cases():
    """Every last byte of the last record's amount, and some of its tenant and of its item."""
    rows = ([NOUGHT], [Reading(0, 7, 0)] * 2, [Reading(0, 7, 128)] * 2, [Reading(1, 7, 255)] * 2,
            [Reading(1, 7, 2**63)] * 2, run_of("s last byte", 4), run_of("s last byte of all", MOST))
    pair = sampled([Reading(128, 7, 5)] * 2)
    return [*lines("all", (sampled(readings)[:-1] for readings in rows)),
            *lines("decode", (pair[:at] + bytes([last]) + pair[at + 1:]
                              for last in (0, 1, 127, 128, 129, 255) for at in (35, 31)))]


# rows with a zero record, equal neighbours or a fall
SHORT = [[NOUGHT], [NOUGHT] * 2, [NOUGHT, Reading(0, 0, 1)], [Reading(0, 0, 1), NOUGHT], [Reading(1, 0, 0), NOUGHT],
         [NOUGHT, Reading(1, 0, 0)], [Reading(0, 1, 0), NOUGHT], [NOUGHT, Reading(0, 1, 0)],
         [Reading(0, 1, 0), Reading(0, 2, 0)], [Reading(0, 2, 0), Reading(0, 1, 0)], [Reading(0, item_with(TOP), 0)]]


def plain_row_cases():
    """Also unused places with one part that is not zero, and full rows in other orders."""
    full = run_of("s row", MOST)
    yield from row_cases(SAMPLE, full, SHORT, records_of)
    for place in (1, 2, 16, 31):
        for stray in (Reading(1, 0, 0), Reading(0, 1, 0), Reading(0, 0, 1), Reading(2**31, 0, 0), Reading(0, 2**63, 0),
                      Reading(0, 0, 2**63)):
            yield row_line(1, records_of([full[0]] + [NOUGHT] * (place - 1) + [stray]))
    for order in ("item", "tenant", "amount"):
        yield row_line(32, records_of(sorted(full, key=lambda r: getattr(r, order))))
    yield row_line(3, records_of(full[:3] + [NOUGHT] * 29))


SOME = [frame_like(SAMPLE, "s some", 4), sampled(sample_order([Reading(t, i, 7) for t in (1, 2) for i in (3, 5)]))]
CHANGED = [*SOME, sampled(run_of("s changed", 32))]
DAMAGED = [*SOME, sampled([]), sampled(run_of("s damage", 1))]

SORTS = {
    "short byte strings": short_cases,
    "headers": lambda: header_cases((0, 2, 3, 5, 255), (0, 1, 2, 31, 32, 33, 64, 255), (0, 1, 2)),
    "bodies behind headers": lambda: body_cases(
        [records_of(run) for run in (run_of("s one", 1), run_of("s two", 2), run_of("s two", 2)[::-1])], (2, 3, 5),
        (0, 1, 2, 3, 32, 33), (0, 4, 23, 24, 25, 44, 64, 300, 644)),
    "every last byte": last_byte_cases,
    "whole frames": lambda: lines("decode", whole_frames()),
    "frames of other kinds": other_kind_cases,
    "cut frames": cut_cases,
    "damages": lambda: damage_cases(SAMPLE, DAMAGED),
    "drawn damages": lambda: drawn_damage_cases(SAMPLE, "s", 150),
    "changed bytes": lambda: change_cases(CHANGED, ("00", "01", "80", "FF")),
    "equal and falling neighbours": lambda: lines("decode", wrong_orders()),
    "records that differ in one part": lambda: lines("decode", map(sampled, close_records())),
    "order by hash": lambda: lines("decode", map(sampled, orders_by_hash())),
    "encodes into rooms": lambda: encode_cases(SAMPLE, "s", (0, 1, 2, 31, 32)),
    "plain rows": plain_row_cases,
    **row_sorts(SAMPLE),
    "records of equal hashes": lambda: ties(SAMPLE, MOST),
}
