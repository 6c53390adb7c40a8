"""Answers a script by the rules: bytes in, bytes out.

    python3 independent/script.py            prints what the script of standard input prints

Each line is answered in both of the network's ways, by state and by paths, which have to agree.
"""

import sys

sys.dont_write_bytecode = True

from fields import is_below, is_number, is_pairs
from network import (MEMORY, MOST_NODES, ROOM, Arrive, ByPaths, ByState, Deliver, Drop, Generate, No, Open, Read, Send,
                     Turn, compare)
from page import ROOM as PAGE_ROOM
from page import usage
from pair import KINDS, PILE

MOST_INPUT = 65_536
MOST_PAIRS = 2048

# the kinds that a script names
KIND_LETTERS = ("b", "v", "s", "p")

# the fields after each letter: a kind's letter, bytes, or a number with its size in bits
KIND, BYTES = "kind", "bytes"
FIELDS = {
    "o": (KIND, 32),
    "g": (32, 32, 64, 64),
    "a": (32, BYTES),
    "s": (32, 32),
    "d": (32, 32),
    "x": (32,),
    "r": (32,),
    "u": (32,),
}

# the calls that lines make on an open network
CALLS = {"g": Generate, "a": Arrive, "s": Send, "d": Deliver, "x": Drop, "r": Read}


def is_of_form(sort, text):
    if sort == KIND:
        return text in KIND_LETTERS
    if sort == BYTES:
        return is_pairs(text) and len(text) <= 2 * MOST_PAIRS
    return is_number(text)


def value_of(sort, text):
    if sort == KIND:
        return KINDS[text]
    if sort == BYTES:
        return bytes.fromhex(text)
    if not is_below(2**sort, text):
        raise No(22)
    return int(text)


def values_of(letter, rest):
    """The values of the fields after a line's letter."""
    gap, *texts = rest[:1], *rest[1:].split(" ")
    sorts = FIELDS[letter]
    if gap != " " or len(texts) != len(sorts) or not all(map(is_of_form, sorts, texts)):
        raise No(21)
    return [value_of(sort, text) for sort, text in zip(sorts, texts)]


class Reader:
    """Answers the lines of a script on a network that works out what it holds in one way."""

    def __init__(self, way):
        self.way = way
        self.network = None

    def open(self, kind, count):
        network = self.way(kind, MOST_NODES, MEMORY)
        answer = network.make(Turn(Open(count)))
        self.network = network
        return answer

    def page(self, node):
        if node >= self.network.count():
            raise No(4)
        end, room = usage(self.network.form_at(node), bytes(PAGE_ROOM))
        return room[:end].hex().upper()

    def found(self, text):
        """The answer to a line; a refusal is raised."""
        letter, rest = text[:1], text[1:]
        if letter not in FIELDS:
            raise No(20)
        if (letter == "o") == (self.network is not None):
            raise No(23)
        values = values_of(letter, rest)
        if letter == "o":
            return self.open(*values)
        if letter == "u":
            if self.network.kind is not PILE:
                raise No(24)
            return self.page(*values)
        room = [ROOM] if letter == "r" else []
        return self.network.make(Turn(CALLS[letter](*values, *room)))

    def answer(self, line):
        try:
            # a character for each byte, whichever it is
            return self.found(line.decode("latin-1"))
        except No as refusal:
            return " ".join(["no", *map(str, refusal.args)])


def lines_of(script):
    """The lines of a script; a last byte 10 starts no further one."""
    lines = script.split(b"\n")
    return lines if lines[-1] else lines[:-1]


def answers(script):
    """The answers to the lines. Both ways have to agree on each line, and at the end on all nodes and slots."""
    state, paths = Reader(ByState), Reader(ByPaths)
    found = []
    for line in lines_of(script):
        one, other = state.answer(line), paths.answer(line)
        assert one == other, (line, one, other)
        found.append(one)
    if state.network is not None:
        compare(state.network, paths.network)
    return found


def printed(script):
    """The lines that a script prints."""
    if len(script) > MOST_INPUT:
        return ["0 no 25"]
    return [f"{at} {answer}" for at, answer in enumerate(answers(script), start=1)]


if __name__ == "__main__":
    sys.stdout.writelines(line + "\n" for line in printed(sys.stdin.buffer.read()))
