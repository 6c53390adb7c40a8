"""Scripts about piles only: estimates, which pages show, and pages of tenants."""

from itertools import cycle

from draws import (FULL, TOP, Draws, item_with, littered, plain, readings_like, run_like, sample_order, spread,
                   together)
from frames import framed, mapped, paired, sampled
from network import MOST_NODES
from readings import Reading
from script import MOST_PAIRS
from scriptlines import ENDS_32, ENDS_64, handed, in_parts, script, told


def pile(maps, values, readings):
    return paired(mapped(maps), paired(framed(values), sampled(sample_order(readings))))


def long_side_scripts():
    """Piles of the greatest size that a line takes; only the last side is wrong: it is too long for its count."""
    for count in (0, 1, 31, 32):
        sample = sampled(readings_like(f"long side {count}", count))
        right = paired(mapped([1] * 64), paired(framed([7]), sample))
        length = len(sample) + MOST_PAIRS - len(right)
        for side in (sample, sample[:2] + length.to_bytes(2, "big") + sample[4:]):
            wrong = paired(mapped([1] * 64), paired(framed([7]), side.ljust(length, b"\0")))
            yield script(["o p 1", handed(0, wrong), "u 0", handed(0, right), "u 0"])


# Estimates.

def telling_maps():
    """Maps for every S div 8, full ones first or spread evenly, with and without bits above; and other telling maps."""
    for q in range(257):
        yield plain(together(8 * q)) if q % 2 else littered(f"S {q}", spread(8 * q))
    for q in range(3, 256, 5):
        yield plain(spread(8 * q + 7)) if q % 2 else littered(f"S+ {q}", together(8 * q + 7))
    for total in (1, 2, 3, 4, 5, 6, 9, 10, 63, 64, 65, 511, 2046, 2047):
        yield plain(together(total))
        yield littered(f"S to {total}", together(total)[::-1])
    telling = (1, 2, 7, 0xFFFFFFFE, 0x80000000, 0x7FFFFFFF, FULL, FULL - 2**30)
    yield from ([bits if i == at else 0 for i in range(64)] for at in (0, 31, 63) for bits in telling)
    yield from ([bits] * 64 for bits in (*telling, 0x55555555, 0xAAAAAAAA))
    for mixture in ((0, 7), (0, FULL), (7, FULL), (0, 7, FULL), (1, 2, 4, 8)):
        yield [mixture[i % len(mixture)] for i in range(64)]


def map_estimate_scripts():
    for part in in_parts(telling_maps(), MOST_NODES):
        lines = ["o p 16"]
        for node, maps in enumerate(part):
            lines += [handed(node, pile(maps, [], [])), f"u {node}"]
        yield script(lines)


def last_values():
    """Last values of full rows; their upper bits make the estimate."""
    yield from (63, 64, 2**31, 2**32 - 1)
    for upper in (1, 2, 3, 61, 62, 63, 64, 65, 125, 126, 127, 128, 4095, 65535, 0x01FFFFFF, 0x3FFFFFFF, 0x7FFFFFFE,
                  0x7FFFFFFF, 0x80000000, 0xFBFFFFFF, 0xFC000000, 0xFFFFFFFE, 0xFFFFFFFF):
        yield from (upper * 2**32, upper * 2**32 + 0xFFFFFFFF)
    draws = Draws("full")
    for bits in range(33, 65):
        yield from (draws.word() >> (64 - bits) | 1 << bits - 1 for _ in range(3))


def value_estimate_scripts():
    """Nodes that hold the values 0 to 62 see a reading whose hash is the last value."""
    for part in in_parts(last_values(), MOST_NODES - 1):
        lines = ["o p 16", handed(0, pile([0] * 64, [*range(63)], [])), "u 0", "s 0 0"]
        for node, last in enumerate(part, start=1):
            lines += [f"d 0 {node}", f"g {node} 7 {item_with(last)} 500", f"u {node}"]
        yield script(lines)


# Pages.

def tenants_page(name, readings):
    """Each of two hosts sees about half of the readings; they exchange frames, with pages before and after."""
    draws = Draws(name)
    lines = ["o p 2"]
    for reading in readings:
        lines += [told(draws.below(2), reading)] * (1 if draws.below(9) else 2)
    lines += ["u 0", "s 0 0", "s 1 1", "d 1 0", "d 0 1", "u 0", "d 1 0", "u 1"]
    return script(lines, draws.pick(["\n", ""]))


def page_scripts():
    """Pages of up to 32 tenants: with one record each, with more, with equal amounts, at both ends, and of more
    readings than a sample holds."""
    for tenants in (*range(9), 15, 16, 17, 24, *range(29, 33)):
        draws = Draws(f"pages {tenants}")
        readings = readings_like(f"pages {tenants}", 32)
        some = draws.some(range(2**8), tenants)
        ends = [2**32 - 1 - n if n % 2 else n for n in some]

        def dealt(readings, names, amount):
            return [Reading(name, r.item, amount(r)) for name, r in zip(cycle(names), readings)]

        yield tenants_page(f"pages each {tenants}", dealt(readings[:tenants], some, lambda r: r.amount))
        yield tenants_page(f"pages more {tenants}", dealt(readings, some, lambda r: draws.pick([r.amount, *ENDS_64])))
        yield tenants_page(f"pages equal {tenants}", dealt(readings, ends, lambda r: 500))
        yield tenants_page(f"pages ends {tenants}", dealt(readings[:tenants], ends, lambda r: draws.pick(ENDS_64)))
        many = readings_like(f"pages many {tenants}", 33 + tenants)
        yield tenants_page(f"pages many {tenants}", dealt(many, some or [0], lambda r: r.amount))


def one_item_page_scripts():
    """One item or two with many tenants and amounts: records differ where the hashes do not."""
    for count in (1, 2, 8, 31, 32, 33):
        draws = Draws(f"one item {count}")
        for items in ([0], [0, 9], [item_with(0)], [item_with(TOP), TOP]):
            yield tenants_page(f"one item {count} {items}", [
                Reading(draws.pick([7, 8, *ENDS_32]), draws.pick(items), draws.pick([5, *ENDS_64]))
                for _ in range(count)])


def frame_page_scripts():
    """Pages of piles that are handed in, with drawn maps, values and records."""
    draws = Draws("page frames")
    for i in range(30):
        maps = [2**draws.below(33) - 1 & ~(draws.below(9) << 8) for _ in range(64)]
        readings = [Reading(draws.below(3 + i), r.item, draws.pick([r.amount, *ENDS_64]))
                    for r in readings_like(f"page frames {i}", draws.below(33))]
        frame = pile(maps, run_like(f"page frames {i}", draws.below(65)), readings)
        yield script(["o p 2", handed(0, frame), "u 0", "s 0 5", "d 5 1", told(1, Reading(2**32 - 1, 0, TOP)), "u 1",
                      "u 0", "r 0"])


SORTS = {
    "sides too long for their counts": long_side_scripts,
    "estimates of bitmaps": map_estimate_scripts,
    "estimates of full rows": value_estimate_scripts,
    "pages of up to 32 tenants": page_scripts,
    "pages of one item": one_item_page_scripts,
    "pages of frames": frame_page_scripts,
}
