"""Prints the rows of the tables in crates/call_tests, or compares them with what stands there.

    python3 independent/call_table.py            prints the tables
    python3 independent/call_table.py --check    compares them with crates/call_tests/src/table.rt

A row is a call and what it answers where it is lent one value, one byte of memory too few, and
enough of both: three turns, one after another, on what the turns before left.
"""

import re
import sys
from pathlib import Path

sys.dont_write_bytecode = True

from network import ALL, MEMORY, Arrive, Deliver, Drop, Generate, Open, Read, Send, Turn, answers
from pair import KINDS
from readings import Reading

TABLE = Path(__file__).resolve().parent.parent / "crates" / "call_tests" / "src" / "table.rt"

# how many values there are, and what each of the three turns is lent
VALUES = 3
FRONTS = (1, MEMORY), (VALUES, MEMORY - 1), (VALUES, MEMORY)

# the types of the numbers that are no node, slot or room
SIZES = {"tenant": "u32", "item": "u64", "amount": "u64"}

# the six calls, on a network that has no nodes
SIX = [Generate(0, 7, 8, 9), Arrive(0, b""), Send(0, 0), Deliver(0, 0), Drop(0), Read(0, ALL)]

# a frame of 24 bytes
FRAME = KINDS["s"].frame(KINDS["s"].single(Reading(7, 8, 9)))

TABLES = {
    "SAMPLES": ("s", [
        *SIX, Open(0), Open(ALL), Open(2),
        # each call, accepted where enough is lent
        Generate(0, 2**32 - 1, ALL, ALL), Send(0, 31), Arrive(1, FRAME), Deliver(31, 1), Send(1, 3), Drop(3),
        # no bytes are no frame
        Arrive(0, b""),
        # a READ of 44 bytes, and one of 24
        Read(1, 43), Read(1, 44), Read(0, ALL),
        # no such node or slot
        Generate(ALL, 7, 8, 9), Arrive(ALL, b""), Send(ALL, ALL), Send(0, ALL), Deliver(ALL, ALL), Deliver(31, ALL),
        Drop(ALL), Read(ALL, ALL),
        # opened again, with slot 31 filled: all nodes are empty and the slot is free
        Open(3), Read(0, ALL), Read(1, ALL), Drop(31), Send(2, 31),
    ]),
    "OVERLONG": ("o", [Open(0), Open(2), *SIX]),
}


def octets(data):
    return f"&[{', '.join(str(byte) for byte in data)}]"


def shown_field(name, value):
    if isinstance(value, bytes):
        return octets(value)
    size = SIZES.get(name, "usize")
    greatest = 2**32 - 1 if size == "u32" else ALL
    return f"{size}::MAX" if value == greatest else str(value)


def shown_call(call):
    fields = (shown_field(name, value) for name, value in zip(call._fields, call))
    return f"{type(call).__name__}({', '.join(fields)})"


def shown_answer(text):
    if text == "ok":
        return "Done"
    if text.startswith("no "):
        # the number alone, without the place and the kind of bytes that are no frame
        return f"No({text[3:].split('/')[0]})"
    return f"Bytes({octets(bytes.fromhex(text))})"


def rows(kind, calls):
    turns = [Turn(call, values, memory) for call in calls for values, memory in FRONTS]
    found = iter(answers(kind, VALUES, MEMORY, turns))
    for call in calls:
        wants = ", ".join(shown_answer(next(found)) for _ in FRONTS)
        yield f"Row({shown_call(call)}, &[{wants}]),"


def packed(text):
    """A text without its layout."""
    return re.sub(r",(?=[\])]|$)", "", re.sub(r"\s", "", text))


def main(arguments):
    if arguments not in ([], ["--check"]):
        print(__doc__)
        return 2
    source, behind = TABLE.read_text() if arguments else "", 0
    for name, (letter, calls) in TABLES.items():
        lines = list(rows(KINDS[letter], calls))
        if not arguments:
            print(f"pub(crate) const {name}: &[Row] = &[", *lines, "];", sep="\n")
            continue
        stored = re.search(rf"const {name}: &\[Row\] = &\[(.*?)\n\];", source, re.DOTALL)
        same = stored is not None and packed(stored[1]) == packed("".join(lines))
        print(f"{name} {'agrees' if same else 'differs'}: {len(lines)} rows")
        behind += not same
    return 1 if behind else 0


if __name__ == "__main__":
    sys.exit(main(sys.argv[1:]))
