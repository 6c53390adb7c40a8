"""Writes what the program `exchange` should print, or compares it with the stored text.

    python3 independent/exchange.py            writes crates/exchange/stdout
    python3 independent/exchange.py --check    compares it with what it would write
"""

import sys
from pathlib import Path

sys.dont_write_bytecode = True

from kinds import Refused
from least import LEAST
from readings import Reading
from stored import write_or_compare

FOLDER = Path(__file__).resolve().parent.parent / "crates" / "exchange"


def shown(frame):
    return frame.hex().upper()


def transcript():
    """What the program prints, line by line."""
    held = dict.fromkeys(["alpha", "beta", "gamma"], LEAST.empty)
    lines = []

    def take(name, frame):
        try:
            held[name] = LEAST.join(held[name], LEAST.decode(frame))
        except Refused as fault:
            lines.append(f"   {name} refuses it: number {fault.number}, at byte {fault.place}, in kind {fault.kind}")
        else:
            lines.append(f"   {name} takes it, and has a frame of {len(LEAST.frame(held[name]))} bytes now")

    def compare(one, first, other, second):
        lines.append(f"   {one}: {shown(first)}")
        lines.append(f"   {other}: {shown(second)}")
        lines.append("   They are " + ("equal byte by byte." if first == second else "different."))

    lines.append("1. The hosts count clients.")
    for name, tenant, item in [("alpha", 7, 0), ("alpha", 7, 1), ("beta", 8, 1), ("beta", 8, 2)]:
        held[name] = LEAST.join(held[name], LEAST.single(Reading(tenant, item, 0)))
        lines.append(f"   {name} sees client {item} of tenant {tenant}")
    late = LEAST.frame(held["alpha"])
    lines.append("2. By way of beta: alpha sends to beta, and beta to gamma.")
    for sender, receiver in [("alpha", "beta"), ("beta", "gamma")]:
        frame = LEAST.frame(held[sender])
        lines.append(f"   {sender} sends {shown(frame)}")
        take(receiver, frame)
    lines.append("3. Straight from alpha: its first frame, late, and then once more.")
    lines.append(f"   it is {shown(late)}")
    take("gamma", late)
    take("gamma", late)
    lines.append("4. The links are quiet.")
    compare("beta", LEAST.frame(held["beta"]), "gamma", LEAST.frame(held["gamma"]))
    lines.append("5. A frame that was cut on the way.")
    cut = LEAST.frame(held["beta"])[:19]
    before = LEAST.frame(held["gamma"])
    lines.append(f"   it is {shown(cut)}")
    take("gamma", cut)
    compare("gamma before", before, "gamma after", LEAST.frame(held["gamma"]))
    lines.append("6. How many clients does the rack have?")
    lines.append(f"   gamma counts {LEAST.estimate(held['gamma'])} different clients")
    return lines


def main(arguments):
    return write_or_compare(FOLDER, {"stdout": transcript()}, arguments, __doc__)


if __name__ == "__main__":
    sys.exit(main(sys.argv[1:]))
