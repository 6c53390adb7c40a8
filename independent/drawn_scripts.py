"""Scripts that are drawn: each sort has a plan, and a shape to draw from."""

from common_cases import frame_like
from draws import Draws, run_like
from frames import framed
from maker import Maker, Shape
from network import MOST_NODES, SLOTS
from readings import Reading
from scriptlines import ENDS_32, ENDS_64, handed, script, spoiled, told


# Plans: each opens a network and adds lines.

def only_draw(maker):
    maker.open()
    maker.draw_turns()


def open_late(maker):
    """Lines before any OPEN, and OPENs again, some of them refused."""
    maker.draw(maker.draws.below(5))
    only_draw(maker)


def pass_on(maker):
    """What a first node was told goes from node to node, with other lines between."""
    maker.open()
    path = maker.draws.some(range(maker.nodes), 3 + maker.draws.below(maker.nodes - 2))
    maker.add(told(path[0], maker.reading()))
    for sender, receiver in zip(path, path[1:]):
        slot = maker.pick(maker.slots)
        if slot in maker.filled() and maker.draws.below(8):
            maker.add(f"x {slot}")
        maker.add(f"s {sender} {slot}")
        maker.draw_turns()
        maker.add(f"d {slot} {receiver}")
    maker.add(f"r {path[-1]}")


def hold_back(maker):
    """Slots are delivered long after they were filled, when the sender holds more than it sent."""
    maker.open()
    maker.draw_turns()
    for slot in maker.slots:
        maker.add(f"s {maker.node()} {slot}")
        maker.draw_turns()
    for _ in range(2 + maker.draws.below(5)):
        maker.add(f"d {maker.pick(maker.slots)} {maker.node()}")


def send_and_change(maker):
    """A sender changes between its SENDs; what was sent comes late, out of order and twice, after DROPs too."""
    maker.open()
    draws, slots = maker.draws, maker.slots
    sender, *others = draws.some(range(maker.nodes), maker.nodes)
    for slot in slots:
        maker.add(told(sender, maker.reading()), f"s {sender} {slot}")
    maker.add(told(sender, Reading(maker.pick(ENDS_32), draws.below(9), maker.pick(ENDS_64))))
    for slot in draws.some(slots, len(slots)):
        receiver = maker.pick(others)
        maker.add(*[f"d {slot} {receiver}"] * (1 + draws.below(3)), f"r {receiver}")
    dropped, again = maker.pick(slots), maker.pick(slots)
    maker.add(f"x {dropped}", f"d {dropped} {others[0]}", f"s {others[0]} {dropped}", f"s {others[0]} {again}",
              f"d {dropped} {sender}", f"d {again} {sender}", f"r {sender}")


def fill_slots(maker):
    """All slots are filled, half of them or all dropped, and filled again, with other values."""
    maker.open()
    draws, order = maker.draws, maker.slots
    dropped = maker.pick([order[::2], order[SLOTS // 2:], order])
    maker.draw(4)
    maker.add(*(f"s {maker.node()} {slot}" for slot in order), f"s {maker.node()} {maker.pick(order)}", f"s 0 {SLOTS}",
              *(f"x {slot}" for slot in dropped), f"x {dropped[0]}", f"d {dropped[-1]} 0")
    for slot in draws.some(dropped, len(dropped)):
        maker.add(f"s {maker.node()} {slot}")
        if draws.below(4) == 0:
            maker.draw_turns()
            maker.add(f"s {maker.node()} {slot}")
    maker.add(*(f"d {slot} {maker.node()}" for slot in draws.some(order, 8)), f"s {maker.node()} {maker.pick(order)}")


def pass_round(maker):
    """All nodes pass what they were told in a ring, then each to some other."""
    maker.open()
    ring = maker.draws.some(range(maker.nodes), maker.nodes)
    maker.add(*(told(node, maker.reading()) for node in ring))
    for slot, (sender, receiver) in enumerate(zip(ring, ring[1:] + ring[:1])):
        maker.add(f"s {sender} {slot}", f"d {slot} {receiver}")
    for slot in range(len(ring), SLOTS):
        maker.add(f"s {maker.pick(ring)} {slot}", f"d {maker.draws.below(slot)} {maker.pick(ring)}")
    maker.add(f"r {maker.nodes}")


def fill_runs(maker):
    """Three frames go from node to node; two of them together have more elements than a run holds."""
    maker.open()
    more = maker.draws.below(25)
    for node, count in enumerate((40 + more, 64 - more, 5)):
        name = f"full {more} {count}"
        maker.add(handed(node, framed(run_like(name, count)) if maker.letter == "v"
                         else frame_like(maker.kind, name, count)))
    one, other = maker.slots
    for sender, slot, receiver in ((0, one, 1), (1, other, 2), (1, other, 0)):
        maker.add(f"s {sender} {slot}")
        maker.draw_turns()
        maker.add(f"d {slot} {receiver}")


# The sorts: plan, shape, how many nodes are read at the end, and how many scripts there are for v, b, s and p.

SORTS = {
    "few nodes and few slots": (
        only_draw, Shape(range(1, 5), range(1, 4), range(2, 7), range(4, 48), "gggassssdddddxxrr"), 1,
        (600, 75, 140, 100)),
    "one slot, filled over and over": (
        only_draw, Shape((2, 3), (1,), (6,), range(8, 40), "ggssddddxxr", 4), 2, (200, 25, 40, 30)),
    "up to sixteen nodes": (
        only_draw, Shape(range(5, 17), range(2, 9), (8,), range(30, 80), "gggassssssddddddxxr", 6), 2,
        (90, 15, 25, 20)),
    "many refusals": (
        only_draw, Shape(range(1, 17), (2,), (3,), range(5, 21), "gasdddxrs", 220), 1, (250, 35, 50, 35)),
    "frames that arrive": (only_draw, Shape((1, 2, 3), (1,), (6,), range(5, 13), "aaag", 150), 1, (160, 25, 40, 25)),
    "lines before OPENs, and OPENs again": (
        open_late, Shape(range(1, 5), (2,), (4,), range(4, 28), "oggasssdddxxrr", 40), 1, (200, 30, 40, 30)),
    "from node to node": (
        pass_on, Shape(range(3, 17), range(1, 5), (5,), (0, 0, 1, 1, 2, 3), "gsddx", 6), 1, (150, 25, 30, 30)),
    "delivered late": (hold_back, Shape(range(2, 5), (3,), (8,), (1, 2, 3), "ggggad", 3), 2, (100, 20, 30, 30)),
    "sent, changed, and delivered late and twice": (
        send_and_change, Shape(range(2, 5), range(2, 5), (8,), (0,), "g", 0), 2, (60, 15, 25, 25)),
    "all slots": (fill_slots, Shape((1, 2, MOST_NODES), (SLOTS,), (4,), (1, 2, 3), "gsd", 0), 2, (8, 4, 5, 6)),
    "sixteen nodes": (pass_round, Shape((MOST_NODES,), (SLOTS,), (16,), (0,), "g", 0), 4, (6, 3, 4, 4)),
    "runs that are full": (fill_runs, Shape((3,), (2,), (10,), (0, 1, 2), "gsdx", 5), 2, (20, 4, 10, 6)),
}
LETTERS = "vbsp"

# how many scripts with spoiled lines there are for v, b, s and p
SPOILED = (250, 35, 60, 35)


def drawn(letter, name, sort, count):
    plan, shape, reads, _ = sort
    for i in range(count):
        maker = Maker(letter, f"{name} {i}", shape)
        plan(maker)
        maker.read_some(reads)
        yield maker


def spoil(letter, lines):
    """A script of these lines with something wrong in some of them; a spoiled OPEN is repeated correctly."""
    draws = Draws(f"{letter} script, spoiled {lines}")
    found = []
    for line in lines:
        if draws.below(4) == 0:
            found.append(spoiled(draws, line))
            if draws.below(4) or line[0] == "o":
                found.append(line)
        else:
            found.append(line)
    return script(found, draws.pick(["\n", "\n", "", "\r\n", " \n"]))


def sorts_of(letter):
    at = LETTERS.index(letter)
    sorts = {name: [maker.script() for maker in drawn(letter, name, sort, sort[-1][at])]
             for name, sort in SORTS.items()}
    spoiled_ones = drawn(letter, "spoiled", SORTS["few nodes and few slots"], SPOILED[at])
    return {**sorts, "spoiled lines": [spoil(letter, maker.lines) for maker in spoiled_ones]}
