"""Holds the requests of a trace in arrays, some twenty bytes each, so that long recordings fit in memory."""

import array
import bisect

from trace_limits import PAGE_BYTES, PROCESSES, SERVICES

OPS = ["R", "W", "A", *SERVICES]
OP_NUMBERS = {op: number for number, op in enumerate(OPS)}
NO_VALUE = -1


class Requests:
    """The requests in their order, and the pages that they name, in order of first use."""

    def __init__(self):
        self.ops = bytearray()
        self.sizes = array.array("H")       # the bytes of a reference, or the pages of a service
        self.pages = array.array("I")       # places in `named`
        self.offsets = array.array("H")
        self.values = array.array("q")
        self.named = {}                     # (process, page) and its place
        self.first_uses = array.array("I")  # the number of requests before each page's first one
        self.used = [0] * PROCESSES         # how many pages each process uses

    def __len__(self):
        return len(self.ops)

    def add(self, process, op, address, size, value):
        page, offset = divmod(address, PAGE_BYTES)
        place = self.named.setdefault((process, page), len(self.named))
        if place == len(self.first_uses):
            self.first_uses.append(len(self.ops))
            self.used[process] += 1
        self.ops.append(OP_NUMBERS[op])
        self.sizes.append(size)
        self.pages.append(place)
        self.offsets.append(offset)
        self.values.append(NO_VALUE if value is None else value)

    def __iter__(self):
        """The requests as (process, op, the place of the page in `named`, offset, size, value)."""
        owners = [process for process, _ in self.named]
        for op, size, place, offset, value in zip(self.ops, self.sizes, self.pages, self.offsets, self.values):
            yield owners[place], OPS[op], place, offset, size, None if value == NO_VALUE else value

    def cut(self, count):
        """Leaves the first requests alone."""
        for one in (self.ops, self.sizes, self.pages, self.offsets, self.values):
            del one[count:]
        pages = bisect.bisect_left(self.first_uses, count)
        self.named = dict(list(self.named.items())[:pages])
        del self.first_uses[pages:]
