"""Draws scripts line by line."""

from collections.abc import Sequence
from typing import NamedTuple

from draws import Draws, item_marked
from frames import offset_damages, packed, paired, sides
from network import SLOTS, ByState
from pair import KINDS, Pair
from readings import Reading
from runs import RunKind
from script import Reader
from scriptlines import ENDS_32, ENDS_64, handed, script, told


def backward(kind, frame):
    """A run from its last element to its first, which then comes once more."""
    parts = [kind.written(element) for element in kind.held(frame)]
    body = b"".join(parts[::-1] + parts[:1])
    return packed(kind.number, len(body) // kind.width, 4 + len(body), body)


def damaged(kind, frame, draws):
    """A frame that is cut, has bytes added, or has a wrong part; in a pair it is mostly one of the sides."""
    if isinstance(kind, Pair) and draws.below(3):
        first, second = sides(frame)
        if draws.below(2):
            return paired(damaged(kind.first, first, draws), second)
        return paired(first, damaged(kind.second, second, draws))
    data, sort = bytearray(frame), draws.below(7)
    if sort == 0:
        return frame[:draws.below(len(frame))]
    if sort == 1:
        return frame + bytes(1 + draws.below(9))
    if sort == 2 and isinstance(kind, RunKind):
        return backward(kind, frame)
    if sort == 2 and isinstance(kind, Pair):
        return draws.pick(list(offset_damages(frame)))
    if sort == 3:
        data[0] = draws.pick([number for number in (0, 1, 2, 3, 255) if number != kind.number])
    elif sort == 4:
        data[1] = draws.pick([0, 1, 2, 64, 65, 255])
    elif sort == 5:
        data[3] ^= draws.pick([1, 8, 16])
    else:
        data[draws.below(len(data))] ^= 1 << draws.below(8)
    return bytes(data)


class Shape(NamedTuple):
    """What a script is drawn from: how many nodes, slots, items and turns it may have; the letters of its lines, where
    a repeated letter is more likely; and how many of 1,000 nodes or slots are wrong."""

    nodes: Sequence
    slots: Sequence
    items: Sequence
    turns: Sequence
    letters: str
    odd: int = 12


class Maker:
    """Draws a script line by line, with an eye on what the network holds."""

    def __init__(self, letter, name, shape):
        self.letter = letter
        self.kind = KINDS[letter]
        self.draws = Draws(f"{letter} script, {name}")
        self.shape = shape
        self.nodes = self.pick(shape.nodes)
        slots = self.pick(shape.slots)
        first = self.draws.below(SLOTS - slots + 1)
        scattered, adjacent = self.draws.some(range(SLOTS), slots), list(range(first, first + slots))
        self.slots = self.pick([scattered, adjacent])
        self.items = [self.item() for _ in range(self.pick(shape.items))]
        self.items.append(item_marked(self.draws.below(64), 29 + self.draws.below(3)))
        self.reader = Reader(ByState)
        self.lines = []

    def pick(self, choices):
        return self.draws.pick(choices)

    def item(self):
        return self.pick([self.draws.below(10), self.draws.below(1000), self.draws.below(2**64)]
                         if self.draws.below(6) == 0 else [self.draws.below(30)])

    def is_odd(self):
        return self.draws.below(1000) < self.shape.odd

    def node(self):
        if self.is_odd():
            return self.pick([self.nodes, self.nodes, self.nodes + 1, 15, 16, 31, 2**32 - 1, 2**32])
        return self.draws.below(self.nodes)

    def filled(self):
        return self.reader.network.slots if self.reader.network else {}

    def slot(self, is_filled):
        if self.is_odd():
            return self.pick([32, 32, 33, 63, 64, 2**31, 2**32 - 1, 2**32])
        fit = [slot for slot in self.slots if (slot in self.filled()) == is_filled]
        return self.pick(fit if fit and self.draws.below(10) else self.slots)

    def reading(self):
        """A reading, now and then with telling numbers."""
        reading = Reading(self.draws.below(3), self.pick(self.items), self.draws.below(3))
        if self.draws.below(3):
            return reading
        return Reading(self.pick([reading.tenant, *ENDS_32]), self.pick([reading.item] * 3 + ENDS_64),
                       self.pick([reading.amount, *ENDS_64]))

    def frame(self):
        """A frame, now and then cut, damaged or of another kind."""
        items = [self.pick(self.items) for _ in range(self.draws.below(4))]
        readings = [Reading(i, item, i % 2) for i, item in enumerate(items)]
        frame = self.kind.frame(self.kind.join_all(readings))
        if self.draws.below(1000) >= 4 * self.shape.odd:
            return frame
        if self.draws.below(6) == 0:
            other = KINDS[self.pick("vbstp")]
            return other.frame(other.join_all(readings))
        return damaged(self.kind, frame, self.draws)

    def letter_of_line(self):
        letter = self.pick(self.shape.letters)
        if letter in "dx" and not self.filled() and self.draws.below(4):
            letter = "s"
        if letter == "r" and self.draws.below(2 if self.letter == "p" else 20) == 0:
            letter = "u"
        return letter if self.draws.below(100) else "o"

    def line(self):
        letter = self.letter_of_line()
        if letter == "o":
            counts = [0, 17, 2**32 - 1, 2**32] if self.draws.below(4) == 0 else [self.nodes, self.nodes + 1, 16]
            return f"o {self.letter} {self.pick(counts)}"
        if letter == "g":
            return told(self.node(), self.reading())
        if letter == "a":
            # a line has one pair of digits at least
            return handed(self.node(), self.frame() or bytes(1))
        if letter == "s":
            return f"s {self.node()} {self.slot(False)}"
        if letter == "d":
            return f"d {self.slot(True)} {self.node()}"
        if letter == "x":
            return f"x {self.slot(True)}"
        return f"{letter} {self.node()}"

    def add(self, *lines):
        for line in lines:
            self.lines.append(line)
            self.reader.answer(line.encode("latin-1"))

    def open(self):
        self.add(f"o {self.letter} {self.nodes}")

    def draw(self, count):
        for _ in range(count):
            self.add(self.line())

    def draw_turns(self):
        self.draw(self.pick(self.shape.turns))

    def read_some(self, most):
        """Reads at most this many nodes, and for a pile a page."""
        nodes = self.draws.some(range(self.nodes), min(self.nodes, most))
        self.add(*(f"r {node}" for node in nodes))
        if self.letter == "p":
            self.add(f"u {nodes[-1]}")

    def script(self):
        return script(self.lines, self.pick(["\n", "\n", "\n", ""]))
