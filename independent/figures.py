"""Figures that were published, or worked out apart from this code, and the comparison with them.

    python3 independent/figures.py            compares all of them
"""

import sys

sys.dont_write_bytecode = True

from answers import answer
from bitmaps import BITMAPS, root
from draws import item_with
from kinds import NotWritten
from least import LEAST, LeastValues
from page import page, usage
from pair import KINDS, PILE
from readings import STEP, WORD, Reading
from script import printed

# the values of a full frame; with these upper bits the last one makes the estimate 126
HALF_WAY = "".join(f"7FFFFFFF{low:08X}" for low in range(64))

# case lines and what they give
LINES = {
    "item 0000000000000000": "E220A8397B1DCDAF 47 1",
    "mark 0000000000000000": "0 31",
    "lowest 0": "0",
    "lowest 7": "3",
    "lowest 4294967295": "32",
    "v kind": "2 516 4 02000004",
    "b kind": f"1 260 260 01400104{'00' * 256}",
    "s kind": "3 644 4 03000004",
    "t kind": "5 1038 14 0502000E000A0200000402000004",
    "o kind": "5 2049 2049 -",
    "outputs 1234567 5": "6457827717110365317 3203168211198807973 9817491932198370423 "
                         "4593380528125082431 16408922859458223821",
}


class TwoLeast(LeastValues):
    most = 2


# the item whose hash is the third output for the seed 1234567, which ends in binary 01110111: its mark is 55, 0
THIRD = (1234567 + 2 * STEP) % WORD

# readings, and the page of their pile
EMPTY_PAGE = "0000" "0003" "0020" "0020" + "00" * 24
PAGES = [
    ([], EMPTY_PAGE),
    # a bit above the lowest is set: S is 0, and the bitmaps nonetheless estimate 64 * 100000 div 77351
    ([Reading(7, 0, 500)],
     "0001" "0003" "0020" "002E" "0000000000000052" "0000000000000001" "00000000" "00000001"
     "00000007" "0001" "00000000000001F4"),
    # one item with two amounts, the greatest amount, the greatest tenant and the mark 0, 31
    ([Reading(7, 0, 900), Reading(2**32 - 1, item_with(0), 0), Reading(1, THIRD, 2**64 - 1), Reading(7, 0, 500)],
     "0003" "0003" "0020" "004A" "0000000000000052" "0000000000000003" "00000001" "00000003"
     "00000001" "0001" "FFFFFFFFFFFFFFFF" "00000007" "0002" "0000000000000384" "FFFFFFFF" "0001" "0000000000000000"),
    # the same reading twice, and the same item and amount under another tenant
    ([Reading(8, 0, 5), Reading(8, 0, 5), Reading(0, 0, 5)],
     "0002" "0003" "0020" "003C" "0000000000000052" "0000000000000001" "00000000" "00000001"
     "00000000" "0001" "0000000000000005" "00000008" "0001" "0000000000000005"),
]

# the worked script, and what it prints
WORKED = b"""o v 2
g 0 7 0 500
s 0 3
g 0 7 9 900
d 3 1
r 1
d 4 1
"""
WORKED_PRINTS = """1 ok
2 ok
3 ok
4 ok
5 ok
6 0201000CE220A8397B1DCDAF
7 no 6
"""


def into_room(size):
    """The outcome of writing the empty pile's page into a room of this size."""
    try:
        end, room = usage(PILE.empty, b"x" * size)
    except NotWritten as fault:
        return fault.number
    return end, room.hex().upper()


def told_of(maps):
    return BITMAPS.total(maps), BITMAPS.estimate(maps)


# other figures: a name, what this code gives, what is known
OTHERS = [
    ("the frame of a reading", LEAST.frame(LEAST.single(Reading(7, 0, 500))).hex().upper(), "0201000CE220A8397B1DCDAF"),
    ("the estimate of a full row", LEAST.estimate([*range(63), 0x7FFFFFFF00000000]), 126),
    ("the estimate of a full frame", LEAST.estimate(LEAST.decode(bytes.fromhex("02400204" + HALF_WAY))), 126),
    ("S and the estimate of one bit", told_of([1] + [0] * 63), (1, 82)),
    ("S and the estimate of all bits", told_of([2**32 - 1] * 64), (2048, 2**38 * 100000 // 77351)),
    ("t for j = 0, 3, 7", [root(j + 48) for j in (0, 3, 7)], [64, 82, 117]),
    ("the 2-union of 1, 3 and 2, 3", TwoLeast().join([1, 3], [2, 3]), [1, 2]),
    ("the standard pile's greatest length", KINDS["p"].greatest, 1432),
    ("four samples in three pairs", KINDS["o"].sum, 2594),
    ("the worked script", printed(WORKED), WORKED_PRINTS.splitlines()),
    ("the worked script with no last byte 10", printed(WORKED[:-1]), WORKED_PRINTS.splitlines()),
    ("a script with no bytes", printed(b""), []),
    ("a page into too little room", into_room(479), 26),
    ("a page into a room", into_room(480), (32, EMPTY_PAGE + "78" * 448)),
    *((f"the page of {readings}", page(PILE.join_all(readings)).hex().upper(), known) for readings, known in PAGES),
]


def check_figures():
    found = [(repr(line), answer(line), figure) for line, figure in LINES.items()]
    for name, given, figure in found + OTHERS:
        if given != figure:
            sys.exit(f"{name} gives {given!r}, and not the figure {figure!r}")


if __name__ == "__main__":
    check_figures()
    print(f"{len(LINES) + len(OTHERS)} figures agree")
