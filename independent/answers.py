"""Answers case lines by the rules: each line of standard input gives one line of standard output.

README.md says what each line asks for, and what its answer holds.
"""

import re
import sys
from functools import reduce
from itertools import groupby

sys.dont_write_bytecode = True

from bitmaps import lowest_zero
from fields import BadLine, number, octets
from frames import shown
from kinds import NotWritten, Refused
from pair import KINDS
from readings import STEP, WORD, Reading, hash_of, mark_of
from runs import RunKind

MOST_OUTPUTS = 64
MOST_ROOM = 2100

# the width of a reading: item, tenant and amount
READING = 20


# The fields of a line.

def word(text):
    if not re.fullmatch("[0-9A-F]{16}", text):
        raise BadLine
    return int(text, 16)


def readings(text):
    data, found = octets(text), []
    if len(data) % READING:
        raise BadLine
    for at in range(0, len(data), READING):
        ends = (at, at + 8, at + 12, at + 20)
        item, tenant, amount = (int.from_bytes(data[i:j], "big") for i, j in zip(ends, ends[1:]))
        found.append(Reading(tenant, item, amount))
    return found


def plain_row(kind, count, places):
    """What a plain row stands for."""
    data = octets(places)
    if not isinstance(kind, RunKind) or len(data) % kind.width or len(data) > kind.width * kind.most:
        raise BadLine
    return kind.stands_for(number(count), data)


# The parts of an answer.

def written(kind, value):
    data = b"" if kind.is_overlong() else kind.frame(value)
    return f"{kind.length(value)} {shown(data)}"


def refusal(fault):
    return f"no {fault.number} {fault.place} {fault.kind} kept"


def outcome(kind, data):
    """The outcome of decoding one of many byte strings."""
    try:
        again = kind.frame(kind.decode(data))
    except Refused as fault:
        return refusal(fault)
    return f"ok {len(again)} {'same' if again == data else 'other'}"


def outcomes(kind, many):
    each = (outcome(kind, data) for data in many)
    runs = [(len(list(group)), text) for text, group in groupby(each)]
    return ", ".join(f"{count}*{text}" for count, text in runs)


# Lines about no kind.

def item(text):
    hash_value = hash_of(word(text))
    bucket, rank = mark_of(hash_value)
    return f"{hash_value:016X} {bucket} {rank}"


def mark(text):
    bucket, rank = mark_of(word(text))
    return f"{bucket} {rank}"


def outputs(seed, count):
    state, values = number(seed), []
    for _ in range(number(count, MOST_OUTPUTS + 1)):
        values.append(str(hash_of(state)))
        state = (state + STEP) % WORD
    return " ".join(values) or "-"


def lowest(bits):
    return str(lowest_zero(number(bits, 2**32)))


# Lines about a kind.

def states(kind):
    return f"{kind.number} {kind.greatest} {written(kind, kind.empty)}"


def decode(kind, text):
    try:
        return f"ok {written(kind, kind.decode(octets(text)))}"
    except Refused as fault:
        return refusal(fault)


def all_next(kind, text):
    front = octets(text)
    return outcomes(kind, (front + bytes([last]) for last in range(256)))


def cuts(kind, text):
    data = octets(text)
    return outcomes(kind, (data[:length] for length in range(len(data) + 1)))


def changes(kind, text, mask):
    data, bits = octets(text), octets(mask)
    if not data or len(bits) != 1:
        raise BadLine
    return outcomes(kind, (
        data[:at] + bytes([data[at] ^ bits[0]]) + data[at + 1:] for at in range(len(data))))


def encode(kind, text, room_size):
    room = bytes((7 * at + 165) % 256 for at in range(number(room_size, MOST_ROOM + 1)))
    try:
        length, after = kind.encode(kind.decode(octets(text)), room)
    except Refused:
        raise BadLine from None
    except NotWritten as fault:
        return f"no {fault.number} {shown(room)}"
    return f"ok {length} {shown(after)}"


def with_readings(kind, form, text):
    """The form with the readings counted into it, written."""
    return written(kind, reduce(kind.join, map(kind.single, readings(text)), form))


def add(kind, frame, text):
    try:
        return with_readings(kind, kind.decode(octets(frame)), text)
    except Refused:
        raise BadLine from None


def row(kind, count, places, text):
    run = plain_row(kind, count, places)
    return f"{written(kind, run)} {kind.figure(run)} {with_readings(kind, run, text)}"


def fuse(kind, count, places, count_there, places_there):
    return written(kind, kind.join(plain_row(kind, count, places), plain_row(kind, count_there, places_there)))


OF_NO_KIND = {"item": (item, 1), "mark": (mark, 1), "outputs": (outputs, 2), "lowest": (lowest, 1)}

OF_A_KIND = {
    "kind": (states, 0),
    "decode": (decode, 1),
    "all": (all_next, 1),
    "cuts": (cuts, 1),
    "changes": (changes, 2),
    "encode": (encode, 2),
    "add": (add, 2),
    "row": (row, 3),
    "fuse": (fuse, 4),
}


def answer(line):
    name, *fields = line.split(" ")
    calls, of = OF_NO_KIND, []
    if name in KINDS and fields:
        calls, of = OF_A_KIND, [KINDS[name]]
        name, *fields = fields
    call, wanted = calls.get(name, (None, 0))
    if call is None or len(fields) != wanted:
        return "bad line"
    try:
        return call(*of, *fields)
    except BadLine:
        return "bad line"


if __name__ == "__main__":
    for text in sys.stdin.read().splitlines():
        print(answer(text))
