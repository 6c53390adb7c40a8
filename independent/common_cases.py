"""Cases about no kind, and cases that several kinds share. A kind's cases come without the kind's letter."""

from draws import TOP, Draws, item_with, rare_hashes, readings_like, telling_words
from frames import damages, hexed, packed, records_of, shown
from pair import KINDS
from readings import NOUGHT

MASKS = ("01", "80", "FF")


def lines(verb, many, *rest):
    """A line for each of the byte strings."""
    return [" ".join([verb, shown(data), *rest]) for data in many]


# Cases about no kind.

def hash_cases():
    for value in telling_words() + Draws("items").words(150):
        yield f"item {hexed(value)}"
    for value in [0, 1, 63, 64, TOP] + rare_hashes()[::2]:
        yield f"item {hexed(item_with(value))}"


def mark_cases():
    for value in telling_words() + rare_hashes() + Draws("marks").words(100):
        yield f"mark {hexed(value)}"
    for zeros in range(28):
        yield f"mark {hexed((2 * zeros + 1 << zeros + 6) + zeros)}"


def output_cases():
    for seed in [1234567, 0, 1, 42, TOP]:
        yield f"outputs {seed} 5"
    yield "outputs 1234567 64"
    yield "outputs 7 0"


def lowest_cases():
    """Maps with each lowest zero bit: nothing above it, every bit above it, and some."""
    draws = Draws("lowest")
    for position in range(33):
        below = 2**position - 1
        yield f"lowest {below}"
        if position < 31:
            above = 2**32 - 2**(position + 1)
            yield f"lowest {below + above}"
            yield f"lowest {below + (draws.word() & above)}"
    for bits in (2, 4, 5, 6, 8, 2**31, 2**31 + 1, 2**32 - 2):
        yield f"lowest {bits}"


GENERAL_SORTS = {
    "hashes of items": hash_cases,
    "marks of hashes": mark_cases,
    "outputs of the generator": output_cases,
    "lowest zero bits": lowest_cases,
}


# Cases of several kinds.

def frame_like(kind, name, count):
    """The frame of `count` drawn readings."""
    return kind.frame(kind.join_all(readings_like(name, count)))


# telling first bytes, three at most
FRONTS = [bytes.fromhex(front) for front in (
    "", "00", "01", "02", "03", "04", "05", "40", "FF",
    "0000", "0140", "0200", "0240", "0300", "0320", "0502", "FFFF",
    "000000", "013F01", "014000", "014001", "014101", "020000", "030000", "030100", "032002", "032102", "050100",
    "050200", "0502FF", "050300", "FFFFFF")]


def short_cases(fronts=FRONTS):
    """No bytes, and each front with every byte added."""
    return lines("decode", [b""]) + lines("all", fronts)


def header_cases(kinds, counts, highs):
    """The first three bytes of a header with every fourth one."""
    return lines("all", (bytes([kind, count, high]) for kind in kinds for count in counts for high in highs))


def body_cases(bodies, kinds, counts, ends):
    """Bodies after headers that fit them, or do not."""
    return lines("decode", (packed(kind, count, end, body)
                            for body in bodies for kind in kinds for count in counts for end in ends))


def damage_cases(kind, frames):
    """Every sort of damage to these frames, at every level."""
    return lines("decode", dict.fromkeys(wrong for frame in frames for wrong in damages(kind, frame)))


def other_kind_cases():
    """Correct frames of every kind."""
    return lines("decode", (frame_like(kind, f"other {letter}", count)
                            for letter, kind in KINDS.items() if not kind.is_overlong() for count in (0, 1, 3)))


def change_cases(frames, masks=MASKS):
    return [line for mask in masks for line in lines("changes", frames, mask)]


def mended(data):
    """The bytes with an end that fits their number."""
    return data[:2] + len(data).to_bytes(2, "big") + data[4:]


def drawn_damages(kind, letter, count):
    """Drawn frames with drawn bytes changed, removed, inserted or reversed."""
    draws = Draws(f"{letter} damages")
    for i in range(count):
        data = bytearray(frame_like(kind, f"{letter} drawn {i}", draws.below(7)))
        for _ in range(1 + draws.below(2)):
            at, sort = draws.below(len(data)), draws.below(6)
            if sort == 0:
                del data[at:at + 1 + draws.below(8)]
            elif sort == 1:
                data[at:at] = bytes(draws.below(256) for _ in range(1 + draws.below(8)))
            elif sort == 2:
                data[draws.below(min(16, len(data)))] ^= 1 << draws.below(8)
            elif sort == 3:
                data[2:4] = len(data).to_bytes(2, "big")
                data[at:] = data[at:][::-1]
            else:
                data[at] ^= 1 << draws.below(8)
            if len(data) < 4:
                break
        yield bytes(mended(data) if draws.below(2) else data)


def drawn_damage_cases(kind, letter, count):
    return lines("decode", drawn_damages(kind, letter, count))


def encode_cases(kind, letter, counts):
    """Frames of these numbers of readings into rooms around their lengths, short frames into every room up to one byte
    more; and one frame into other rooms."""
    for count in counts:
        frame = frame_like(kind, f"{letter} rooms {count}", count)
        length = len(frame)
        for room in range(length + 2) if length <= 24 else (0, 4, length - 1, length, length + 1):
            yield f"encode {shown(frame)} {room}"
    frame = frame_like(kind, f"{letter} rooms", 2)
    for room in (1, 2, 3, 5, 6, 10, 14, len(frame) // 2, 2048, 2100):
        yield f"encode {shown(frame)} {room}"


def row_line(count, body, readings=(NOUGHT,)):
    return f"row {count} {shown(body)} {shown(records_of(readings))}"


def add_line(frame, readings):
    return f"add {shown(frame)} {shown(records_of(readings))}"


def row_cases(kind, full, short, body_of):
    """Plain rows with right and wrong counts: empty, of a few elements, and full; the short ones also with a count one
    off; and full runs without the last element and in wrong orders. `body_of` gives the bytes of elements."""
    most = kind.most
    counts = (0, 1, 2, most // 2, most - 2, most - 1, most, most + 1, 2 * most, 2**32, 2**63, TOP)
    for elements in ([], full[:3], full):
        for count in (*counts, 3, 4, 5):
            yield row_line(count, body_of(elements))
    for elements in short:
        for off in (-1, 0, 1):
            yield row_line(len(elements) + off, body_of(elements))
    for count in (most - 2, most - 1, most):
        yield row_line(count, body_of(full[:-1]))
    half = most // 2
    for wrong in (full[::-1], [*full[:-1], full[-2]], [full[1], full[0], *full[2:]],
                  [*full[:half - 1], full[half], full[half - 1], *full[half + 1:]]):
        yield row_line(most, body_of(wrong))
