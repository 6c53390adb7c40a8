"""The usage page of a standard pile's value."""

from bitmaps import BITMAPS
from kinds import NotWritten
from least import LEAST

COLUMNS = 3
HEADER = 32
ROOM = 480


def together(*fields):
    """Numbers one after another, each given with how many bytes it has, highest byte first."""
    return b"".join(number.to_bytes(width, "big") for width, number in fields)


def rows_of(records):
    """A row for each tenant of a sample's records: the tenant, how many records, and the greatest amount."""
    amounts = {}
    for _, _, tenant, amount in records:
        amounts.setdefault(tenant, []).append(amount)
    return [together((4, tenant), (2, len(found)), (8, max(found))) for tenant, found in sorted(amounts.items())]


def page(form):
    """The page of a pile's form."""
    maps, (values, records) = form
    rows = rows_of(records)
    body = b"".join(rows)
    head = together((2, len(rows)), (2, COLUMNS), (2, HEADER), (2, HEADER + len(body)), (8, BITMAPS.estimate(maps)),
                    (8, LEAST.estimate(values)), (4, BITMAPS.total(maps)), (4, len(values)))
    return head + body


def usage(form, room):
    """The page's end, and the room's bytes after the page was written at its front."""
    if len(room) < ROOM:
        raise NotWritten(26)
    written = page(form)
    return len(written), written + room[len(written):]
