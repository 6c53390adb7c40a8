"""Answers soak lines: many turns on a network, drawn from a seed and not kept.

    python3 independent/soak.py            writes crates/soak/stdin and stdout
    python3 independent/soak.py --check    compares both with what it would write

README.md says how a turn follows from the seed, and what an answer holds.
"""

import sys
from pathlib import Path

sys.dont_write_bytecode = True

from fields import BadLine, number
from network import ALL, MEMORY, ROOM, Arrive, ByState, Deliver, Drop, Generate, Open, Read, Send, Turn
from pair import KINDS
from readings import STEP, WORD, Reading, hash_of
from stored import write_or_compare

FOLDER = Path(__file__).resolve().parent.parent / "crates" / "soak"
LETTERS = ("v", "b", "s", "p")
NODES = 7
MOST_TURNS = 100_000_000

# seeds, and how many turns each has
SEEDS = [(0, 0), (1, 1), (10, 10), (100, 100), (1000, 1000), (2**64 - 1, 2000), (10_000, 10_000), (2**63, 30_000)]
GREAT = {"v": [(1234567, 1_000_000)], "b": [(1234567, 100_000)], "s": [(1234567, 100_000)],
         "p": [(1234567, 100_000), (7654321, 1_000_000)]}

BAD_LINES = ["", " ", "v", "v ", "v 1", "v 1 ", " v 1 1", "v  1 1", "v 1  1", "v 1 1 ", "v 1 1 1", "v 01 1", "v 1 01",
             "v -1 1", "v 1 -1", "v +1 1", "v 1 100000001", "v 18446744073709551616 1", "v 1 18446744073709551616",
             "v 1 99999999999999999999999", "v x 1", "v 1 x", "v 1,1", "v\t1 1", "v 1 1;", "V 1 1", "vb 1 1", "o 1 1",
             "t 1 1", "n 1 1", "x 1 1", "2 1 1", "1 1", "long 1 1", "v long 1 1"]


def turn_of(kind, word):
    node, slot, rest = word // 16 % 8, 25 + word // 128 % 8, word // 1024
    odd = word // 2**48 % 64
    sort = word % 16
    if sort < 2:
        call = Generate(node, 0, rest % 65_536, 0)
    elif sort == 2:
        frame = kind.frame(kind.single(Reading(0, word, 0)))
        call = Arrive(node, frame[:-1] if odd % 8 == 2 else frame)
    elif sort < 7:
        call = Send(node, slot)
    elif sort < 11:
        call = Deliver(slot, node)
    elif sort < 14:
        call = Drop(slot)
    else:
        call = Read(node, rest % 1024)
    return Turn(call, NODES - 1 if odd == 0 else ALL, MEMORY - 1 if odd == 1 else ALL)


def told(kind, seed, count):
    """How many turns were accepted, how many refused with each number, the sum of all bytes read, and what each node
    holds at the end."""
    network = ByState(kind, NODES, MEMORY)
    network.make(Turn(Open(NODES)))
    counts, total = [0] * 15, 0
    for i in range(count):
        found = network.answer(turn_of(kind, hash_of((seed + i * STEP) % WORD)))
        if found.startswith("no "):
            counts[int(found[3:].split("/")[0])] += 1
        else:
            counts[0] += 1
            if found != "ok":
                total += sum(bytes.fromhex(found))
    ends = [network.answer(Turn(Read(node, ROOM))) for node in range(NODES)]
    return ";".join([",".join(map(str, [*counts, total])), *ends])


def answer(line):
    letter, *fields = line.split(" ")
    try:
        if letter not in LETTERS or len(fields) != 2:
            raise BadLine
        seed, count = number(fields[0]), number(fields[1], MOST_TURNS + 1)
    except BadLine:
        return "bad line"
    return told(KINDS[letter], seed, count)


def main(arguments):
    lines = [f"{letter} {seed} {count}" for letter in LETTERS for seed, count in SEEDS + GREAT[letter]] + BAD_LINES
    return write_or_compare(FOLDER, {"stdin": lines, "stdout": [answer(line) for line in lines]}, arguments, __doc__)


if __name__ == "__main__":
    sys.exit(main(sys.argv[1:]))
