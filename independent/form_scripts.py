"""Scripts of lines with wrong forms and numbers, and with every byte. Each character is one byte."""

from common_cases import frame_like
from draws import Draws
from figures import WORKED
from network import MOST_NODES
from pair import KINDS
from script import KIND_LETTERS, MOST_INPUT, MOST_PAIRS
from scriptlines import (ENDS_32, ENDS_64, GREAT, NO_KINDS, handed, in_parts, number_places, script, with_field,
                         wrong_lines)

BYTES = [chr(byte) for byte in range(256)]


def lines_at(letter):
    """A right line of each letter but `o`, for a network of two nodes."""
    frame = frame_like(KINDS[letter], f"{letter} script lines", 1)
    return ["g 0 7 9 900", handed(1, frame), "s 0 4", "d 3 1", "x 3", "r 1", "u 0"]


def opened(letter):
    """The first lines of a script, after which slot 3 is filled."""
    return [f"o {letter} 2", "g 0 7 0 500", "s 0 3"]


# Every byte, where a `?` stands in a line.

LETTER_LINES = ["?", "? 0", "? 0 3", "?? 0"]
FIELD_LINES = ["r ?", "r ?0", "r 0?", "r? 0", "r?0", "r 1?0", "g 0 7 ? 5", "g 0 7 1?2 5", "g 0 7 5 5?", "g 0?7 5 1",
               "a 0 ?", "a 0 0200000?", "a 0 ?200000?", "a 0 02?00004", "a 0 02000004?", "a 0?02000004", "s ? 5",
               "d 0 0?", "x 0?"]
PAGE_LINES = ["u ?", "u ?0", "u 0?", "u? 0", "u?0"]
OPEN_LINES = ["o ? 2", "o v ?", "o v 1?", "o v?2", "o?v 2", "o v? 2", "o ?v 2", "o? v 2", "o v 2?"]

# each byte that can make an OPEN right has a script of its own
TELLING = "bvspBVSPo0123456789 \n\r\t"


def byte_scripts(first, lines, last=()):
    """Every byte at the `?` of these lines, between first lines and last lines."""
    for line in lines:
        for part in in_parts([line.replace("?", byte) for byte in BYTES], 32):
            yield script([*first, *part, *last])


def open_byte_scripts():
    """Every byte at the `?` of OPENs."""
    for line in OPEN_LINES:
        for byte in TELLING:
            yield script([line.replace("?", byte), "g 0 7 0 500", "r 0", "r 1"])
        others = [line.replace("?", byte) for byte in BYTES if byte not in TELLING]
        for part in in_parts(others, 40):
            yield script([*part, "o s 1", "g 0 7 0 500", "r 0"])


# Wrong forms and numbers.

def form_scripts(letter):
    """Every wrong form of every line."""
    for line in lines_at(letter):
        for part in in_parts(wrong_lines(line), 40):
            yield script([*opened(letter), *part, line, "r 0", "r 1"])


def unopened_scripts():
    """Every wrong form of lines while nothing is open, and of OPENs."""
    for line in lines_at("v"):
        yield script([*wrong_lines(line), line])
    for letter in KIND_LETTERS:
        for part in in_parts(wrong_lines(f"o {letter} 2"), 20):
            yield script([*part, f"o {letter} 2", "o v 1", "o", "r 1", "r 2"])


def number_scripts(letter):
    """Telling numbers at every place of every line."""
    numbers = [*range(3), 9, 10, *range(15, 18), *range(31, 34), 255, 256, *ENDS_32, 2**32 + 1, *ENDS_64, 2**64 + 1,
               *GREAT]
    for line in lines_at(letter):
        for place in number_places(line[0]):
            lines = [with_field(line, place, str(number)) for number in numbers]
            yield script([*opened(letter), *lines, "r 0", "r 1"])


def open_scripts(letter):
    """OPENs of every node count, after some that are refused, and repeated afterwards."""
    for count in range(1, MOST_NODES + 1):
        draws = Draws(f"{letter} script opens {count}")
        refused = [f"o {draws.pick(KIND_LETTERS)} {draws.pick([0, 17, 18, 255, 256, 2**31, 2**32 - 1, 2**32, 10**99])}"
                   for _ in range(1 + draws.below(4))]
        refused += [f"o {draws.pick(NO_KINDS)} {count}", draws.pick(["r 0", "g 0 1 2 3", "s 0 0", "u 0", "x 0"])]
        yield script([*draws.some(refused, len(refused)), f"o {letter} {count}", f"r {count - 1}", f"r {count}",
                      f"g {count - 1} 1 2 3", f"s {count - 1} 31", f"s {count} 0", "d 31 0", f"d 31 {count}", "r 0",
                      "u 0", f"u {count}", draws.pick(refused), f"o {letter} 0", "o", f"o {letter} {count}", "r 0"])


# Lines with more than one thing wrong: only the first is reported.
ORDER_LINES = [
    "q 0 0", "G 0 0 0 0", " g 4294967296 0 0 0", "", "\r", "\r\r", "o v 2 ", "o v 0", "o", "o z 99999999999",
    "o v 4294967296", "g 99999999999 x 0 0", "g x 99999999999 0 0", "g 4294967296 7 0 00", "g 4294967296 7 0 0",
    "g 2 4294967296 0 0", "g 2 7 18446744073709551616 0", "g 2 7 0 18446744073709551616", "g 2 7 0 0",
    "g 2 4294967295 18446744073709551615 18446744073709551615", "a 2 00", "a 0 00", "a 2 0", "a 4294967296 0",
    "a 4294967296 00", "a 4294967296 ", "a 2 ", "a 0 03", "a 0 FFFFFFFF", "s 2 32", "s 2 3", "s 0 32", "s 0 3",
    "s 2 4294967296", "s 4294967296 x", "d 32 2", "d 32 0", "d 4 2", "d 4 0", "d 3 2", "d 4294967296 2",
    "d 32 4294967296", "d 03 2", "x 32", "x 4", "x 4294967296", "x 04294967296", "r 2", "r 4294967296", "r 02",
    "r 4294967295", "u 2", "u 4294967296", "u 04294967296", "u", "u x", "u 0 0", "u 0", "u 4294967295",
]


def order_scripts():
    for part in in_parts(ORDER_LINES, 20):
        yield script(part)
        for letter in KIND_LETTERS:
            yield script([*opened(letter), *part, "r 0", "r 1"])


# Ends of input, the worked script cut and changed, and sizes.

def end_scripts():
    worked = WORKED.decode()
    lines = worked.splitlines()
    yield from (worked[:at] for at in range(len(worked) + 1))
    yield from ("\n", "\n\n", "\n" * 9, "\r", "\r\n", "\r\n\r\n", " ", "  ", " \n", "\0", "\0\n", "\t", "\xff",
                "\xef\xbb\xbf", "\x0b", "\x0c\n", "\x85\n", "\xa0", "o", "o\n", "o v 1", "o v 1\r", "o v 1\r\n",
                "o v 1 ", "o v 1\n\n")
    for end in ("\r\n", "\n\n", " \n", "\r", "\x0b", "\x0c", "\x1c", "\x85", "\0", "\n\r", "\n \n"):
        yield end.join([*lines, ""])
        yield end.join(lines)
        yield end + worked
        yield worked + end
    for line in [*lines_at("p"), "o p 2"]:
        yield script([*opened("p"), line])
        yield script([*opened("p"), line], "")
        yield script([*opened("p"), line], "\r\n")
        yield line


def changed_scripts():
    """The worked script with one byte changed, each in turn."""
    worked, draws = WORKED.decode(), Draws("worked changed")
    for at, there in enumerate(worked):
        for byte in (chr(ord(there) ^ 1), chr(ord(there) ^ 32), chr(draws.below(256)), draws.pick(" 0123bsp\n")):
            yield worked[:at] + byte + worked[at + 1:]


def padded(lines, size):
    """As many of the lines as fit, and a last line that fills the size."""
    found = ""
    for line in lines:
        if len(found) + len(line) > size - 20:
            break
        found += line + "\n"
    return found + "g 0 7 0 ".ljust(size - len(found), "9")


def size_scripts():
    """Inputs of the greatest size, one byte less and one more, with many lines and with long ones."""
    readings = [f"g {i % 2} {2**32 - 1 - i % 40} {2**64 - 1 - i} {2**64 - 1}" for i in range(1200)]
    frame = frame_like(KINDS["s"], "sizes", 32)
    frames = [handed(i % 3, frame) if i % 4 else f"a 0 {'0' * 2 * MOST_PAIRS}" for i in range(60)]
    for size in (MOST_INPUT - 1, MOST_INPUT, MOST_INPUT + 1):
        yield padded(["o p 2", *readings], size)
    yield padded(["o s 2", *frames], MOST_INPUT)
    yield "o v 1\nr 0\nr " + "1" * (MOST_INPUT - 13) + "\n"
    yield "o b 1\ng 0 7 0 500\na 0 ".ljust(MOST_INPUT - 4, "0") + "\nr 0"
    yield "\n" * MOST_INPUT
    yield WORKED.decode().ljust(MOST_INPUT + 4464, "\n")


def sorts_of(letter):
    return {
        "wrong forms": form_scripts(letter),
        "telling numbers": number_scripts(letter),
        "OPENs of every count": open_scripts(letter),
    }


# the sorts that not every kind has, by the kind they are listed under
SORTS = {
    ("v", "every byte as a letter"): lambda: byte_scripts(opened("v"), LETTER_LINES),
    ("v", "every byte in a field"): lambda: byte_scripts(opened("v"), FIELD_LINES + PAGE_LINES, ["r 0"]),
    ("p", "every byte as a letter"): lambda: byte_scripts(opened("p"), LETTER_LINES),
    ("p", "every byte in a field"): lambda: byte_scripts(opened("p"), PAGE_LINES, ["r 0"]),
    ("", "every byte as a letter"): lambda: byte_scripts([], LETTER_LINES),
    ("", "every byte in an OPEN"): open_byte_scripts,
    ("", "wrong forms while nothing is open"): unopened_scripts,
    ("", "more than one thing wrong"): order_scripts,
    ("", "ends of input"): end_scripts,
    ("", "the worked script, changed"): changed_scripts,
    ("", "greatest inputs"): size_scripts,
}
