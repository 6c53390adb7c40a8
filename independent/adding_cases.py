"""Cases of readings counted one by one, for every kind; and of plain rows that readings are counted into or that are
joined, for the two kinds that have rows. `most` is how many elements a row has at most."""

from common_cases import add_line, row_line
from draws import TOP, Draws, item_with, readings_like, run_like, sample_order
from frames import shown
from readings import NOUGHT, Reading, hash_of


def reading_of(hash_value):
    """A reading with this hash."""
    return Reading(hash_value % 7, item_with(hash_value), hash_value % 1000)


def with_hashes(values):
    return [reading_of(value) for value in values]


def run_of(kind, name, count):
    """Drawn readings, in order by their hashes, all of which are between 2^60 and 15 * 2^60."""
    return with_hashes(2**60 + value * 14 for value in run_like(f"{kind.number} {name}", count, 60))


def hashes(readings):
    return [hash_of(reading.item) for reading in readings]


def body(kind, readings):
    """The elements of readings, in the order given."""
    return b"".join(kind.written(element) for reading in readings for element in kind.single(reading))


def added(kind, before, readings):
    """Readings counted into the run of the readings before."""
    return add_line(kind.frame(kind.join_all(before)), readings)


def filled(kind, counts, sorted_counts=()):
    """From nothing on: the same readings in drawn order, as many as each count says, and in rising and in falling
    order; and every reading several times."""
    drawn = readings_like(f"{kind.number} filling up", max(counts))
    rising = sample_order(drawn)
    for order, many in ((drawn, counts), (rising, sorted_counts), (rising[::-1], sorted_counts)):
        yield from (added(kind, [], order[:count]) for count in many)
    few = drawn[:5]
    yield from (added(kind, [], few * 3), added(kind, few, few), added(kind, few, [few[2]] * 4))
    yield added(kind, [], [reading for reading in few for _ in range(3)])
    yield added(kind, [], [r._replace(tenant=tenant, amount=amount)
                           for amount in (7, 0, TOP) for r in few for tenant in (1, 0, 2**32 - 1)])


def around(readings, places):
    """Readings whose hashes are just below, equal to and just above those at these places."""
    for place in places:
        for off in (-1, 0, 1):
            yield reading_of(hash_of(readings[place].item) + off)


def entering(kind, most):
    """One reading more, at telling places of rows of telling counts, and in rows at either end of all hashes."""
    for count in (1, 2, 3, 6):
        run = run_of(kind, "entering few", count)
        yield from (added(kind, run, [reading]) for reading in around(run, range(count)))
    for count, places in ((most - 1, (-1,)), (most, (0, most // 2, -1))):
        run = run_of(kind, "entering", count)
        yield from (added(kind, run, [reading]) for reading in (*around(run, places), reading_of(TOP)))
    low, high = range(most), range(TOP - most + 1, TOP + 1)
    for row, more in ((low, (0, most - 1, most)), (high, (TOP, TOP - most)), ([*low[:-1], TOP], (TOP - 1,)),
                      (low[1:], (0,)), ([0], (0, 1)), ([1], (0,)), ([TOP], (TOP - 1, TOP))):
        yield from (added(kind, with_hashes(row), [reading_of(value)]) for value in more)


def in_full_rows(kind, most):
    """Full rows that take in several readings one after another, some of which cannot enter any more."""
    run = run_of(kind, "taking in", most)
    below = with_hashes(value - 1 for value in hashes(run))
    draws = Draws(f"{kind.number} taking in")
    for more in (below, below[::-1], run, draws.some(run + below, most), below[-3:] * 2,
                 readings_like(f"{kind.number} taking in", most)):
        yield added(kind, run, more)


def gone_wrong(kind, most):
    """A run, and rows made from it that are no runs, as counts and readings. The run ends above an unused place, so one
    place more does not rise."""
    run = [*run_of(kind, "wrong", most - 2), *with_hashes([TOP - 8, TOP - 6])]
    half = most // 2
    return run, [
        (1, run[:2]), (2, run[1::-1]), (2, [run[0]] * 2), (2, [run[-1]]), (most - 1, run), (most + 1, run),
        (2**32 + most, run), (TOP, []), (most, []), (most, run[:-1]), (most, [*run[:-2], run[-1], run[-2]]),
        (most, [run[1], run[0], *run[2:]]), (most, [*run[:half], run[half - 1], *run[half + 1:]]),
        (most, [*run[:-1], run[-2]]), (most, [run[-1], *run[1:]]),
    ]


def counted_into_rows(kind, most):
    """Into rows that are no runs: a reading beyond all that stands there, one below, and two that stand there."""
    run, wrong = gone_wrong(kind, most)
    last, first = reading_of(hash_of(run[-1].item) + 1), reading_of(hash_of(run[0].item) - 1)
    for count, readings in wrong:
        for more in ([last], [first], [run[0], run[-1]]):
            yield row_line(count, body(kind, readings), more)


def blank_places(kind, most):
    """Rows in which an element, or a place that is counted as one, looks as an unused place does."""
    run = run_of(kind, "blank", most)
    blank = reading_of(0) if kind.width == 8 else NOUGHT
    end = hash_of(blank.item)
    below = [reading_of(value * end // TOP) for value in hashes(run)]
    for readings in ([blank], [blank] * 2, [blank, *run[1:]], [*run[:-1], blank], [*below[:-1], blank],
                     [*run[:most // 2], blank, *run[most // 2 + 1:]], [blank] * most):
        for more in (blank, reading_of(TOP), reading_of((end or 5) - 1)):
            yield row_line(len(readings), body(kind, readings), [more])


def ties(kind, most):
    """Records of equal hashes: readings of the item that is last in a full row, with tenants and amounts around those
    of the last record; and joins of rows that have records of one item."""
    front = run_of(kind, "ties", most - 1)
    item = item_with(TOP - 5)
    for tenant, amount in ((256, 2**32), (0, 0), (2**32 - 1, TOP)):
        for tenant_off, amount_off in ((0, -1), (0, 0), (0, 1), (-1, 0), (1, 0), (-1, 1), (1, -1)):
            more = Reading(tenant + tenant_off, item, amount + amount_off)
            if 0 <= more.tenant < 2**32 and 0 <= more.amount <= TOP:
                yield added(kind, [*front, Reading(tenant, item, amount)], [more])
    one_item = [Reading(tenant, item, amount) for tenant in range(2, 6) for amount in range(1, most // 4 + 1)]
    for more in ((1, TOP), (3, 0), (5, most // 4), (5, most // 4 + 1)):
        yield added(kind, one_item, [Reading(more[0], item, more[1])])
    yield added(kind, [], one_item[::-1] + [Reading(0, item, TOP), Reading(9, item, 0)])
    # joins of such rows
    between = [reading._replace(amount=2**40 + reading.amount) for reading in one_item]
    for other in ([Reading(5, item, most // 4 - off) for off in (1, 0, -1)], [Reading(1, item, TOP)], one_item[5:9],
                  between, sample_order(one_item[::2] + between[::2])):
        yield joined(kind, (most, one_item), (len(other), other))
    two = [Reading(tenant, item, amount) for tenant in (1, 2) for amount in (1, 2, 3)]
    for one, other in ((two[:3], two[3:]), (two[::2], two[1::2]), (two[:4], two[2:]), (two, two[1:5])):
        more = sample_order([*other, reading_of(7), reading_of(TOP - 4), reading_of(TOP)])
        yield joined(kind, (len(one), one), (len(other), other))
        yield joined(kind, (len(more), more), (len(one), one))


def joined(kind, one, other):
    """The join of two plain rows, each a count and readings."""
    (count, readings), (count_there, readings_there) = one, other
    return f"fuse {count} {shown(body(kind, readings))} {count_there} {shown(body(kind, readings_there))}"


def joins(kind, most):
    """Joins of two rows: one is full and all of the other lies beyond its last, but for a few; all of it is known
    already; both are cut short of what they hold together; the last that is kept, or the first that is not, is in both;
    one or both are no runs."""
    run = run_of(kind, "joins", most)
    first, middle, last = (hash_of(run[at].item) for at in (0, most // 2, -1))
    beyond = with_hashes(last + 1 + 2 * at for at in range(most))
    low, inner, known = reading_of(first - 1), reading_of(middle - 1), run[most // 2]
    near = with_hashes([last - 1, last, last + 1])
    others = [[], beyond[:1], beyond, run, run[3:9], [inner], near[:1], near[1:], [low, inner, *near],
              *([reading, *beyond[:5]] for reading in (low, inner, known, near[0])),
              [*run[2:5], inner], [*run[-4:], beyond[0]]]
    yield from (joined(kind, (most, run), (len(other), sample_order(other))) for other in others)
    few, half = run_of(kind, "joins few", 7), most // 2
    pairs = [(few[:3], few[3:]), (few[::2], few[1::2]), (few[:5], few[2:]), (few, few[2:4]), (few, few), ([], few),
             ([], []), (run[:half], run[half:]), (run[::2], run[1::2]), (run[:half], [*run[half:], beyond[0]]),
             (run[1:], [run[0]]), (run[:-1], near), (run[:-1], [low, inner])]
    yield from (joined(kind, (len(one), one), (len(other), other)) for one, other in pairs)
    # the last element that is kept and the first that is not: in one row, in the other (0 and 1) or in both (2)
    more = [*run, *beyond[:3]]
    for kept, cut in ((2, 0), (2, 1), (2, 2), (0, 2), (1, 2)):
        rows = [[reading for at, reading in enumerate(more)
                 if {most - 1: kept, most: cut}.get(at, at % 2) in (side, 2)] for side in (0, 1)]
        yield joined(kind, *((len(row), row) for row in rows))
    _, wrong = gone_wrong(kind, most)
    yield from (joined(kind, (7, few), wrong[at]) for at in (1, 3, 4, 5, 8, 9, 10, 11))
    yield from (joined(kind, (1, [reading_of(TOP)]), wrong[at]) for at in (2, 4, 5, 10, 11, 13))
    yield from (joined(kind, (most, run), wrong[at]) for at in (3, 8, 10))
    yield from (joined(kind, wrong[at], wrong[at_there]) for at, at_there in ((1, 3), (8, 1), (7, 8)))


def row_sorts(kind):
    """The sorts of cases of a kind with rows."""
    most = kind.most
    ends = (most - 1, most, most + 1)
    return {
        "rows that fill up": lambda: filled(kind, (0, 1, 2, 3, most // 2, *ends), (3, *ends)),
        "one reading more": lambda: entering(kind, most),
        "full rows that take in readings": lambda: in_full_rows(kind, most),
        "readings counted into no runs": lambda: counted_into_rows(kind, most),
        "places that look unused": lambda: blank_places(kind, most),
        "joins of two rows": lambda: joins(kind, most),
    }


def other_sorts(kind, counts):
    """The sorts of cases of a kind without rows."""
    return {"readings counted one by one": lambda: filled(kind, counts)}
