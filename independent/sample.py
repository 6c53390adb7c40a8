"""The sample: runs of records, each of an item, a tenant and an amount.

In memory a record starts with the item's hash, so that Python's order is the sample's.
"""

from readings import hash_of
from runs import RunKind


class Sample(RunKind):
    number = 3
    greatest = 644
    most = 32
    width = 20

    def single(self, reading):
        return [(hash_of(reading.item), reading.item, reading.tenant, reading.amount)]

    def written(self, record):
        _, item, tenant, amount = record
        return item.to_bytes(8, "big") + tenant.to_bytes(4, "big") + amount.to_bytes(8, "big")

    def read(self, data):
        item, tenant, amount = (int.from_bytes(part, "big") for part in (data[:8], data[8:12], data[12:]))
        return hash_of(item), item, tenant, amount

    def figure(self, run):
        return len(run)


SAMPLE = Sample()
