"""Writes the scripts and what they print, or compares them with the stored ones.

    python3 independent/scripts.py            writes crates/script_runs/stdin and stdout
    python3 independent/scripts.py --check    compares both with what it would write
    python3 independent/scripts.py --list     counts scripts by kind and sort, lines by letter, answers by number
"""

import sys
from collections import Counter
from pathlib import Path

sys.dont_write_bytecode = True

import figures
from script import FIELDS, lines_of, printed
from scriptsorts import all_scripts
from stored import stored, write_or_compare

TOP = Path(__file__).resolve().parent.parent
FOLDER = TOP / "crates" / "script_runs"
EXAMPLES = TOP / "examples"

# the refusals that a script can show
POSSIBLE = [1, 4, 5, 6, 7, *range(9, 15), *range(20, 26)]

# the line after what a script prints
END = "--"


def examples():
    """The example scripts, sorted by name; each prints what is stored beside it."""
    scripts = [path.read_bytes() for path in sorted(EXAMPLES.glob("*.script"))]
    outputs = [path.read_bytes() for path in sorted(EXAMPLES.glob("*.out"))]
    assert [stored(printed(script)) for script in scripts] == outputs, "an example prints something else"
    return scripts


def put_together(scripts):
    """Scripts one after another, each after a line with its count of bytes."""
    return b"".join(b"%d\n%s" % (len(script), script) for script in scripts)


def tell(by_sort, made, scripts, outputs):
    """How many there are of each sort, and how many lines and answers."""
    for (letter, name), found in by_sort.items():
        print(f"{len(found):6} {letter or ' '} {name}")
    print(f"{len(scripts):6} in all, {len(set(scripts))} different ones")
    lengths = [len(lines_of(script)) for script in scripts]
    print(f"{sum(5 <= length <= 40 for length in lengths)} have 5 to 40 lines, {sum(lengths)} lines in all")
    letters = Counter(chr(line[0]) if line[:1] else "empty" for script in scripts for line in lines_of(script))
    print("lines:", ", ".join(f"{name} {letters.pop(name)}" for name in [*FIELDS, "empty"]),
          f"opened by another byte {letters.total()}")
    answers = Counter()
    faults = Counter()
    for _, *answer in (line.split(" ") for output in outputs for line in output):
        answers[" ".join(answer[:2]) if answer[0] in ("ok", "no") else "bytes"] += 1
        if len(answer) == 4:
            faults[f"{answer[1]} in kind {answer[3]}"] += 1
    print("answers:", ", ".join(f"{name} {answers.pop(name)}" for name in ["ok", "bytes"]))
    for number in POSSIBLE:
        print(f"{answers.pop(f'no {number}', 0):6} refused with {number}")
    print("refused with what no script can show:", answers.total())
    print("faults of bytes:", ", ".join(f"{name}: {count}" for name, count in sorted(faults.items(), key=by_numbers)))


def by_numbers(counted):
    return [int(word) for word in counted[0].split() if word.isdigit()]


def main(arguments):
    figures.check_figures()
    by_sort = {**all_scripts(), ("", "examples"): examples()}
    scripts = [script for found in by_sort.values() for script in found]
    outputs = [printed(script) for script in scripts]
    made = {"stdin": put_together(scripts), "stdout": [line for output in outputs for line in [*output, END]]}
    if arguments == ["--list"]:
        tell(by_sort, made, scripts, outputs)
        return 0
    return write_or_compare(FOLDER, made, arguments, __doc__)


if __name__ == "__main__":
    sys.exit(main(sys.argv[1:]))
