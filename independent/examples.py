"""Writes what the scripts in `examples` print, or compares it with the stored outputs.

    python3 independent/examples.py            writes examples/NAME.out for each examples/NAME.script
    python3 independent/examples.py --check    compares each with what it would write
"""

import sys
from pathlib import Path

sys.dont_write_bytecode = True

import figures
from script import printed
from stored import write_or_compare

FOLDER = Path(__file__).resolve().parent.parent / "examples"
NAMES = ("worked", "unplugged", "twice_and_late", "quiet_hosts", "full_slots", "cut_frame", "page")


def main(arguments):
    figures.check_figures()
    made = {f"{name}.out": printed((FOLDER / f"{name}.script").read_bytes()) for name in NAMES}
    return write_or_compare(FOLDER, made, arguments, __doc__)


if __name__ == "__main__":
    sys.exit(main(sys.argv[1:]))
