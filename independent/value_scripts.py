"""Scripts about what nodes hold: readings, joins, and frames that are handed in."""

from itertools import cycle

from bitmaps import BITMAPS
from common_cases import frame_like
from draws import (FULL, TOP, Draws, item_marked, item_with, readings_like, run_like, sample_order,
                   telling_words)
from frames import damages, framed, mapped, paired
from least import LEAST
from network import MOST_NODES
from pair import KINDS, PILE
from readings import STEP, WORD, Reading
from sample import SAMPLE
from script import MOST_PAIRS
from scriptlines import handed, in_parts, script, told


def seen(letter, node):
    """The lines that show what a node holds."""
    return [f"r {node}", f"u {node}"] if letter == "p" else [f"r {node}"]


# Readings.

def telling_readings(letter):
    """Hashes with few and many zeros, and the extremes of tenant and amount; for bitmaps every bucket, and every rank
    twice."""
    draws = Draws(f"{letter} script readings")
    items = [item_marked(bucket, rank) for bucket in (0, 1, 47, 63) for rank in (29, 30, 31)]
    items += [item_marked(21, rank, odd) for rank in (30, 31) for odd in (3, 5, 2**20 + 1)]
    items += [item_with(value) for value in (0, 1, 5, 63, 64, 5 << 39, 2**63, 2**63 + 9, TOP)]
    items += telling_words()[::2] + draws.words(10)
    if letter == "b":
        items += [item_marked(bucket, bucket % 32) for bucket in range(64)]
    for item in items:
        yield Reading(draws.below(2**32), item, draws.word())
    for tenant in (0, 1, 2**32 - 1):
        for amount in (0, 255, TOP):
            yield Reading(tenant, 9, amount)


def reading_scripts(letter):
    """Each reading at a node of its own, then all of them at the first node."""
    for part in in_parts(telling_readings(letter), MOST_NODES):
        lines = [f"o {letter} {len(part)}", *(told(node, reading) for node, reading in enumerate(part))]
        lines += [f"r {node}" for node in range(len(part))]
        for node in range(1, len(part)):
            lines += [f"s {node} {node}", f"d {node} 0"]
        yield script([*lines, *seen(letter, 0)])


# how many readings, the first item, the step to the next item, how many readings in a row have the same item, and how
# many tenants and amounts alternate
MANY = [
    *((count, 0, 1, 1, 1, 1) for count in (0, 1, 2, 3, 10, 31, 32, 33, 63, 64, 65, 66, 100, 300, 1000)),
    *((count, TOP - 20, 1, 1, 1, 1) for count in (5, 33, 66, 200)),
    *((count, 12345, STEP, 1, 1, 1) for count in (5, 64, 66, 200)),
    (100, 77, 0, 1, 1, 1), (100, 0, 2**63, 1, 1, 1), (100, 0, 2**59, 1, 1, 1), (300, 0, 2**57, 1, 1, 1),
    *((count, 0, 1, 2, tenants, 7) for count, tenants in (
        (2, 1), (2, 2), (3, 2), (7, 5), (16, 3), (31, 4), (32, 2), (33, 2), (34, 5), (40, 11), (63, 3), (64, 9),
        (65, 2), (129, 3), (200, 2**32 - 1), (500, 17))),
    (20, 77, 0, 2, 3, 7), (100, 77, 0, 2, 2**32 - 1, 7), (100, 5, 2**63, 2, 4, 7), (200, 1, 2**62, 2, 5, 7),
    (60, TOP - 4, 1, 2, 6, 7), (300, 12345, STEP, 2, 8, 7), (40, item_marked(3, 30), 0, 2, 40, 7),
    (40, item_with(0), 0, 2, 2, 7),
]


def many_scripts(letter):
    """Three nodes see readings in turn, and pass them on until the last one has them all."""
    for count, first, step, times, tenants, amounts in MANY:
        readings = [Reading(i % tenants, (first + i // times * step) % WORD, i * i % amounts) for i in range(count)]
        yield script([f"o {letter} 3", *(told(i % 3, reading) for i, reading in enumerate(readings)),
                      "s 0 0", "d 0 1", "s 1 1", "d 1 2", *seen(letter, 2)])


# Joins.

def drawn_pairs(kind, counts):
    """Frames of two overlapping parts of drawn readings, given how many readings the parts and the whole have."""
    draws = Draws(f"joins in kind {kind.number}")
    for one, other, pool in counts:
        readings = readings_like(f"joins of {pool} in kind {kind.number}", pool)
        yield tuple(kind.frame(kind.join_all(draws.some(readings, count))) for count in (one, other))


def map_pairs():
    """Maps that share bits, or none."""
    draws = Draws("joins of maps")
    yield from (([0x55555555] * 64, [0xAAAAAAAA] * 64), ([FULL] * 64, [0] * 64), ([FULL] * 64, [FULL] * 64),
                ([FULL if at % 2 else 0 for at in range(64)], [0 if at % 2 else 1 for at in range(64)]))
    for at in (0, 31, 32, 63):
        yield [2**31 if i == at else 0 for i in range(64)], [1 if i == at else 0 for i in range(64)]
    for _ in range(12):
        yield tuple([draws.below(2**32) & draws.below(2**32) for _ in range(64)] for _ in range(2))


def value_pairs():
    """Runs of values, short and full: equal, apart and interleaved."""
    full = run_like("join full", 64)
    yield from (([], []), ([0], [0]), ([0], []), ([TOP], [0]), ([1, 3], [2, 3]))
    for one, other in ((1, 1), (2, 1), (3, 5), (31, 33), (32, 32), (33, 32), (63, 1), (64, 1), (63, 2), (64, 64)):
        yield run_like(f"join left {one} {other}", one), run_like(f"join right {one} {other}", other)
    yield from (
        ([*range(64)], [*range(1000, 1064)]), ([*range(0, 128, 2)], [*range(1, 129, 2)]),
        ([*range(0, 64, 2)], [*range(1, 65, 2)]), ([*range(0, 66, 2)], [*range(1, 65, 2)]), (full, full),
        (full, full[:-1]), (full[1:], full), (full, [0]), (full, [TOP]), ([full[-1] - 1], full), ([full[-1]], full),
        ([full[-1] + 1], full), (full[:63], [full[-1] + 1, full[-1] + 2]),
        ([*range(TOP - 63, TOP + 1)], [0, TOP]))


def record_pairs():
    """Samples: full ones that are equal, apart and interleaved, and records of equal items."""
    full, rest = (sample_order(readings_like(name, count)) for name, count in (("full sample", 32), ("samples", 96)))
    last = full[-1]
    yield from ((full, full), (full, full[1:]), (full[:-1], full), (rest[:32], rest[32:64]),
                (rest[0:64:2], rest[1:64:2]), (rest[0:32:2], rest[1:32:2]), (rest[0:34:2], rest[1:32:2]))
    yield from ((full, [changed]) for changed in (
        last._replace(amount=0), last._replace(amount=TOP), last._replace(tenant=0), last._replace(tenant=2**32 - 1),
        full[0]._replace(amount=(full[0].amount + 1) % WORD)))
    yield from ((full, [Reading(tenant, item_with(hash_value), amount)])
                for hash_value in (0, TOP) for tenant, amount in ((0, 0), (2**32 - 1, TOP)))
    # great amounts do not come first
    great = [Reading(0, item_with(TOP), TOP - i) for i in range(8)]
    yield from ((full, great), (full[:28], great))
    same = [Reading(t, 9, a) for t in range(8) for a in range(8)]
    yield from ((same[:32], same[32:]), (same[0:64:2], same[1:64:2]))
    draws = Draws("samples of equal items")
    for _ in range(8):
        yield tuple([Reading(draws.below(3), draws.below(6), draws.below(3)) for _ in range(3 + draws.below(40))]
                    for _ in range(2))


def sample_of(readings):
    return SAMPLE.frame(SAMPLE.join_all(readings))


def pile_pairs():
    """Piles made of every third pair of values, with pairs of maps and of records."""
    thirds = list(value_pairs())[::3]
    for maps, values, records in zip(cycle(map_pairs()), thirds, cycle(record_pairs())):
        yield tuple(paired(mapped(m), paired(framed(v), sample_of(r))) for m, v, r in zip(maps, values, records))


SMALL = ((1, 1, 2), (3, 4, 5))

PAIRS = {
    "b": lambda: [*drawn_pairs(BITMAPS, (*SMALL, (20, 30, 40), (100, 100, 150))),
                  *((mapped(one), mapped(other)) for one, other in map_pairs())],
    "v": lambda: [*drawn_pairs(LEAST, (*SMALL, (20, 30, 40), (40, 40, 64), (40, 40, 65), (64, 64, 65), (64, 20, 70))),
                  *((framed(one), framed(other)) for one, other in value_pairs())],
    "s": lambda: [*drawn_pairs(SAMPLE, (*SMALL, (16, 16, 32), (20, 20, 33), (32, 32, 33), (32, 32, 50), (32, 5, 35))),
                  *((sample_of(one), sample_of(other)) for one, other in record_pairs())],
    "p": lambda: [*drawn_pairs(PILE, (*SMALL, (20, 20, 33), (40, 40, 65), (70, 70, 100))), *pile_pairs()],
}


def join_scripts(letter):
    """Pairs of frames, each joined into the other."""
    for part in in_parts(PAIRS[letter](), MOST_NODES // 2):
        lines = [f"o {letter} {2 * len(part)}"]
        for one, frames in zip(range(0, 2 * len(part), 2), part):
            other = one + 1
            lines += [handed(one, frames[0]), handed(other, frames[1]), f"s {one} {one}", f"s {other} {other}",
                      f"d {one} {other}", f"d {other} {one}", f"r {one}", *seen(letter, other)]
        yield script(lines)


def brink_scripts(letter):
    """Nodes with the same full run see readings just below its first element, between two, and just below, equal to and
    just above its last, by hash, tenant and amount."""
    readings = sample_order([reading._replace(tenant=7, amount=7) for reading in readings_like("brink", 64)])
    hashes = LEAST.join_all(readings)
    for most in (64, 32):
        last = readings[most - 1]
        told_last = [item_with(hashes[most - 1] + off) for off in (-2, -1, 1, 2)]
        others = [Reading(7, item, 7) for item in (*told_last, item_with(0), item_with(hashes[0] - 1),
                                                   item_with(hashes[30] + 1), item_with(TOP))]
        others += [last, last._replace(tenant=6), last._replace(tenant=8), last._replace(amount=6),
                   last._replace(amount=8)]
        lines = [f"o {letter} 14", *(told(0, reading) for reading in readings[:most]), "s 0 0"]
        for node, reading in enumerate(others, start=1):
            lines += [f"d 0 {node}", told(node, reading), f"{'u' if letter == 'p' else 'r'} {node}"]
        yield script([*lines, "r 0"])


# Frames that are handed in.

def handed_scripts(letter, frames):
    """All these frames arrive at a node that holds a reading, twelve in a script."""
    for part in in_parts(frames, 12):
        yield script([f"o {letter} 1", "g 0 7 5 500", *(handed(0, frame) for frame in part), "r 0"])


def other_kinds(letter):
    return [frame_like(kind, f"{letter} arrive {other}", count)
            for count in (0, 2) for other, kind in KINDS.items() if not kind.is_overlong()]


def damaged_frames(letter):
    """Every sort of damage at every level that leaves a byte, which a line needs."""
    kind = KINDS[letter]
    return [wrong for wrong in damages(kind, frame_like(kind, f"{letter} damaged", 3)) if wrong]


def pair_count_scripts(letter):
    """Lines with about the greatest number of pairs: bytes of no kind, and frames with bytes added."""
    frame = frame_like(KINDS[letter], f"{letter} script most", 70)
    named_end = frame[:2] + MOST_PAIRS.to_bytes(2, "big") + frame[4:]
    for front in (b"", frame, named_end):
        lines = []
        for more in (-1, 0, 1):
            line = handed(0, front.ljust(MOST_PAIRS + more, b"\0"))
            lines += [line] if more == 1 else [line, line + "0"]
        yield script([f"o {letter} 1", *lines[:3], "r 0"])
        yield script([f"o {letter} 1", *lines[3:], "r 0"], "")
    yield script([f"a 0 {'00' * MOST_PAIRS}", f"a 0 {'00' * (MOST_PAIRS + 1)}"])


def sorts_of(letter):
    return {
        "telling readings": reading_scripts(letter),
        "many readings joined": many_scripts(letter),
        "joins": join_scripts(letter),
        "at the ends of a full run": brink_scripts(letter),
        "frames of other kinds": handed_scripts(letter, other_kinds(letter)),
        "every damage": handed_scripts(letter, damaged_frames(letter)),
        "longest bytes of a line": pair_count_scripts(letter),
    }
