"""The lines of scripts, right and spoiled. Each character of a script is one byte."""

from frames import shown
from script import FIELDS

# telling numbers of 32 and of 64 bits, and numbers that are too great
ENDS_32 = [0, 1, 2**31, 2**32 - 1]
ENDS_64 = [0, 1, 2**63, 2**64 - 1]
GREAT = [2**32, 2**64, 10**20, 10**99, 10**100 - 1]

# in place of a number: no number, or one with needless zeros
NO_NUMBERS = ["", "-", "-1", "+1", "00", "01", "0" * 100, "0" * 100 + "1", "1.0", "1,0", "1_0", "0x1", "1e3", "A", "a",
              "\xb2", "\xbd", "\0", "0\0", "\t1", "1\t", "4294967296x", "1" * 100 + "x"]

# in place of pairs
NO_PAIRS = ["", "-", "0", "2", "020", "0200000", "020000040", "0200000a", "0x02000004", "02 000004", "02-000004", "0G",
            "g0", "\xc2\xb2", "02000004\0", "0200\t0004"]

# in place of a kind's letter
NO_KINDS = ["", "t", "n", "o", "r", "x", "B", "V", "S", "P", "bv", "vv", "bvs", "bvsp", "v ", "2", "-", "\0", "v\0"]


def script(lines, end="\n"):
    return "\n".join(lines) + end


def in_parts(many, size):
    """The elements in parts of `size`."""
    many = list(many)
    return [many[at:at + size] for at in range(0, len(many), size)]


def told(node, reading):
    return f"g {node} {reading.tenant} {reading.item} {reading.amount}"


def handed(node, frame):
    return f"a {node} {shown(frame)}"


def spoiled(draws, line):
    """The line with a change that now and then leaves it right."""
    at, sort = draws.below(len(line)), draws.below(12)
    if sort < 3:
        there = chr(draws.pick([draws.below(256), draws.below(256), *b" \r\t-+0aA\n"]))
        return line[:at] + there + line[at + sort // 2:]
    if sort == 3:
        return line[:at] + line[at + 1:]
    if sort == 4:
        return line[:at] + line[at:at + 1] + line[at:]
    if sort == 5:
        return line + draws.pick([" ", "\r", "\t", "\0", " 0", "0"])
    if sort == 6:
        return draws.pick([" ", "\r", "\t", "\0", "\xef\xbb\xbf", "r"]) + line
    if sort == 7:
        return draws.pick([line.lower(), line.upper(), line.swapcase(), line[:at]])
    fields = line.split(" ")
    place = draws.below(len(fields))
    if sort == 8:
        del fields[place]
    elif sort == 9:
        fields.insert(place, fields[place])
    else:
        fields[place] = str(draws.pick([*GREAT, *ENDS_32, *ENDS_64, *NO_NUMBERS]))
    return " ".join(fields)


def with_field(line, place, text):
    """The line with this text as its field at a place, counted from 1."""
    fields = line.split(" ")
    fields[place] = text
    return " ".join(fields)


def number_places(letter):
    return [at for at, sort in enumerate(FIELDS[letter], start=1) if isinstance(sort, int)]


def wrong_fields(line):
    """The line with one malformed field."""
    for place, sort in enumerate(FIELDS[line[0]], start=1):
        wrong = NO_NUMBERS if isinstance(sort, int) else NO_PAIRS if sort == "bytes" else NO_KINDS
        for text in wrong:
            yield with_field(line, place, text)


def great_fields(line):
    """The line with a number that is too great, alone or together with a malformed field."""
    places = number_places(line[0])
    for place in places:
        for great in GREAT:
            yield with_field(line, place, str(great))
        great = with_field(line, place, str(GREAT[1]))
        yield great + " "
        yield great + " 0"
        for other in range(1, len(FIELDS[line[0]]) + 1):
            if other != place:
                yield with_field(great, other, "x0")


def wrong_shapes(line):
    """The line with too few or too many fields, or with gaps and other bytes where they do not belong."""
    letter, fields = line[0], line.split(" ")
    yield from (letter, letter + " ", letter + "  ", letter * 2, letter + line, letter.upper() + line[1:], line[1:],
                line[2:], " " + line, line.replace(" ", "", 1), line.replace(" ", "  ", 1), line.replace(" ", "\t", 1),
                line.replace(" ", "\t"), line.replace(" ", "\xa0", 1), line.replace(" ", ",", 1))
    for end in (" ", "  ", "\r", "\t", "\0", ";", " 0", " 00", " x", " \r", "\r\r", "\xff"):
        yield line + end
    for place in range(1, len(fields)):
        yield " ".join(fields[:place] + fields[place + 1:])
        yield " ".join(fields[:place] + [""] + fields[place:])


def wrong_lines(line):
    """Everything that makes a line wrong in its form or its numbers."""
    yield from wrong_shapes(line)
    yield from wrong_fields(line)
    yield from great_fields(line)
