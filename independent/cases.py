"""Writes the cases and their expected answers, or compares them with the stored ones.

    python3 independent/cases.py            writes crates/trials/stdin and crates/trials/stdout
    python3 independent/cases.py --check    compares both with what it would write
    python3 independent/cases.py --list     counts the cases by kind and sort
"""

import sys
from collections import Counter
from pathlib import Path

sys.dont_write_bytecode = True

import bitmap_cases
import figures
import least_cases
import pair_cases
import sample_cases
from answers import answer
from common_cases import GENERAL_SORTS
from pair import KINDS
from stored import write_or_compare

FOLDER = Path(__file__).resolve().parent.parent / "crates" / "trials"

# each kind's cases by sort, without the kind's letter
SORTS = {
    "v": least_cases.SORTS,
    "b": bitmap_cases.SORTS,
    "s": sample_cases.SORTS,
    "p": pair_cases.sorts("p", (4,), 300),
    "t": pair_cases.sorts("t", (0, 3), 64),
    "n": pair_cases.sorts("n", (4,), 300),
    "o": pair_cases.OVERLONG_SORTS,
}


def bad_fields():
    """Lines that are malformed after the letter of any kind."""
    yield from ("", " ", "nothing", "Kind", "kind 2", "kind ", "item 0000000000000000", "mark 0000000000000000",
                "outputs 1 1", "lowest 7", "v kind", "decode", "decode ", "decode 0", "decode 020000040",
                "decode 0200000a", "decode 0x02", "decode --", "decode - -", "all", "all 0", "all 00 00", "cuts",
                "cuts 0", "cuts - -", "changes - 01", "changes 02000004 0101", "changes 02000004 -",
                "changes 02000004", "changes 02000004 1", "encode", "encode 02000004", "encode 02000004 2101",
                "encode 02000004 -1", "encode 02000004 01", "encode 02000005 9", "encode - 9", "add", "add - -",
                "add 02000005 -", "add 02000004 00", "add 03000004 " + "00" * 19, "add 05020004 " + "00" * 20,
                "add 03000004 - -", "add 03000004 0", "row 1 00 -", "row -1 - -", "row 01 - -",
                "row 18446744073709551616 - -", "row 3", "row 0 -", "row 0 - 0", "row 0 - " + "00" * 21,
                "row 0 - - -", "row 32 " + "00" * 660 + " -", "row 64 " + "00" * 648 + " -", "fuse", "fuse 0 -",
                "fuse 0 - 0", "fuse 0 - 0 - 0", "fuse 1 00 0 -", "fuse 0 - 1 00", "fuse -1 - 0 -", "fuse 0 - 01 -",
                "fuse 0 - 18446744073709551616 -")


def bad_cases():
    yield from ("", " ", "nothing", "Item 0000000000000000", "item", "item ", "item 0",
                "item 00000000000000000", "item 000000000000000g", "item 00000000000000af",
                "item  0000000000000000", "item 0000000000000000 ", " item 0000000000000000",
                "item 0000000000000000 0000000000000000", "mark", "mark -", "kind", "kind 2",
                "outputs 1 65", "outputs 01 5", "outputs +1 5", "outputs -1 5", "outputs 1",
                "outputs 18446744073709551616 1", "outputs 99999999999999999999999 1", "lowest", "lowest -",
                "lowest 4294967296", "lowest 00", "lowest 7 7", "lowest 00000007 ", "v", "p", "x kind", "V kind",
                "vv kind", "5 kind", " v kind", "v  kind", "decode 02000004", "encode 02000004 4", "add 02000004 -",
                "row 0 - -", "fuse 0 - 0 -", *(f"{letter} row 0 - -" for letter in "bptno"),
                *(f"{letter} fuse 0 - 0 -" for letter in "bptno"), "s row 1 " + "00" * 8 + " -",
                "s row 1 " + "00" * 19 + " -", "v row 1 " + "00" * 20 + " -", "v row 64 " + "00" * 520 + " -",
                "s fuse 1 " + "00" * 8 + " 0 -", "v fuse 0 - 1 " + "00" * 20)
    for letter in KINDS:
        for fields in bad_fields():
            yield f"{letter} {fields}"


def all_cases():
    """The case lines by sort."""
    by_sort = {("", name): list(cases()) for name, cases in GENERAL_SORTS.items()}
    for letter, sorts in SORTS.items():
        by_sort[letter, "the kind itself"] = [f"{letter} kind"]
        for name, cases in sorts.items():
            by_sort[letter, name] = [f"{letter} {line}" for line in cases()]
    by_sort["", "figures"] = list(figures.LINES)
    by_sort["", "bad lines"] = list(bad_cases())
    return by_sort


def byte_strings(line):
    """How many byte strings a case decodes."""
    _, verb, text, *_ = (*line.split(" "), "", "")
    length = 0 if text == "-" else len(text) // 2
    return {"decode": 1, "all": 256, "cuts": length + 1, "changes": length}.get(verb, 0)


def tell(by_sort, lines, found):
    for (letter, name), cases in by_sort.items():
        print(f"{len(cases):6} {letter or ' '} {name}")
    right = [line for line, text in zip(lines, found) if text != "bad line"]
    print(f"{len(lines):6} in all, {len(right)} of a right form, {sum(map(byte_strings, right))} byte strings decoded")
    kinds = Counter(line[0] if line[1:2] == " " else "no kind" for line in right)
    verbs = Counter(line.split(" ")[1 if line[1:2] == " " else 0] for line in right)
    for counted in (kinds, verbs):
        print(", ".join(f"{name}: {count}" for name, count in counted.items()))
    refusals = Counter()
    for line, text in zip(lines, found):
        if " decode " in line and text.startswith("no "):
            _, number, _, kind, _ = text.split(" ")
            refusals[line[0], number, kind] += 1
    for letter in KINDS:
        told = [f"{n} in kind {k}: {c}" for (l, n, k), c in sorted(refusals.items(), key=str) if l == letter]
        print(f"single decodes refused, {letter}:", ", ".join(told))


def main(arguments):
    figures.check_figures()
    by_sort = all_cases()
    lines = [line for cases in by_sort.values() for line in cases]
    found = [answer(line) for line in lines]
    return write_or_compare(FOLDER, {"stdin": lines, "stdout": found}, arguments, __doc__,
                            lambda: tell(by_sort, lines, found))


if __name__ == "__main__":
    sys.exit(main(sys.argv[1:]))
