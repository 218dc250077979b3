#!/usr/bin/env python3
"""Writes small traces whose processes get into each other's way, for races of `neqysbar replay`.

    bench/race_traces.py FORM SEED > made.trace

The same words write the same trace. Memory is scarce and shared pages are few, so that faults meet, pages
are taken from one process for another, and the writer and the swapper have work. Each form has 2 to 16
processes, private zero pages, a shared section and a copy on reference one; besides:

    shared      pages alone, read one by one
    clusters    clusters of pages that are read and written together
    services    services, and limits that are adjusted
    swapping    more working sets than memory holds, and limits of the free list
    failing     blocks that fail at some calls, of sections, of the page file and of the swap file
    paged       version 2: a section in the page file
    pins        version 2: pages that are locked in memory, and what `paged` has
    long        many requests, and memory for half of the pages or more, so that turns follow each other fast

It needs Python 3.9 and no packages.
"""

import argparse
import random
import sys

FORMS = ("shared", "clusters", "services", "swapping", "failing", "paged", "pins", "long")

PAGE = 512
SLACK = 6  # the most frames beyond those that the trace must have
LOCKS = 2  # the pages that each process may lock, where there are locks

# where each process maps what: the first address of its zero pages and of each section
PLACES = {"ZERO": 0x00000000, "LIB": 0x00040000, "IMG": 0x00080000, "POOL": 0x000C0000}
NEW = 0x00100000  # where services map further pages
KINDS = {"LIB": "SHARED", "IMG": "CRF", "POOL": "PAGED"}

OPS = ("R1", "R4", "R4", "W1", "W4", "W4", "A4")
SERVICES = ("CRETVA", "DELTVA", "SETPRT", "LKWSET", "ULWSET", "PURGWS", "ADJWSL")
PINS = ("LCKPAG", "ULKPAG", "LCKPAG", "ULKPAG", "LKWSET", "PURGWS", "DELTVA")


class Draw:
    """The draws of one trace."""

    def __init__(self, form, seed):
        self.form = form
        self.random = random.Random(f"{form} {seed}")
        self.version = 2 if form in ("paged", "pins") else 1
        self.names = "ABCDEFGHIJKLMNOP"[: self.one_of((2, 2, 3, 4, 6, 16))]
        self.locks = LOCKS if form in ("services", "pins") else 0
        self.pages = {"ZERO": self.upto(2, 12), "LIB": self.upto(1, 8), "IMG": self.upto(1, 6)}
        if self.version == 2:
            self.pages["POOL"] = self.upto(1, 8)
        ample = len(self.names) * 40 + 16
        self.blocks = self.upto(2, ample // 2) if self.is_drawn(0.1) else ample

    def upto(self, least, most):
        return self.random.randint(least, most)

    def one_of(self, them):
        return self.random.choice(them)

    def is_drawn(self, share):
        return self.random.random() < share

    def processes(self):
        """The lines of the processes, and the greatest extent."""
        lines, greatest = [], 0
        for name in self.names:
            limit = self.locks + (self.upto(6, 12) if self.form == "long" else self.upto(2, 6))
            quota = limit + self.upto(0, 3)
            extent = quota + self.upto(0, 3)
            greatest = max(greatest, extent)
            lines.append(f"PROCESS {name} {limit} {quota} {extent} {self.locks}")
        return lines, greatest

    def frames(self, greatest):
        """How many frames there are, and which are bad. Where processes don't swap there is room for more."""
        locked = self.locks * len(self.names) if self.version == 2 else 0
        least = greatest + 2 + locked
        if self.form == "long":
            room = 10 * len(self.names)
        else:
            room = 0 if self.form == "swapping" or self.is_drawn(0.5) else 4 * len(self.names)
        bad = self.upto(0, 2)
        total = max(8, least + bad + room + self.upto(0, SLACK))
        return total, self.random.sample(range(total), bad)

    def parameters(self, total):
        clustered = self.form != "shared"
        low = self.upto(0, 4)
        high = low + self.upto(0, 4)
        given = {"PFC": self.upto(2, 8) if clustered else 1, "WRTCLUSTER": self.upto(1, 8) if clustered else 1}
        given.update(LOLIMIT=low, HILIMIT=high, WAITLIMIT=max(1, high + self.upto(0, 6)))
        if self.form == "services":
            given.update(AWSTIME=self.upto(2, 10), PFRATH=self.upto(0, 2), PFRATL=self.upto(0, 2), WSINC=self.upto(1, 3))
            given.update(WSDEC=self.upto(1, 3), AWSMIN=self.upto(2, 4), BORROWLIM=self.upto(0, 4))
        if self.form in ("swapping", "failing", "pins"):
            goal = self.upto(1, max(2, total // 3))
            given.update(FREELIM=self.upto(1, goal), FREEGOAL=goal)
        return [f"PARAM {name} {value}" for name, value in given.items()]

    def sections(self):
        lines = [f"SECTION {name} {KINDS[name]} {n}" for name, n in self.pages.items() if name in KINDS]
        for name in ("LIB", "IMG"):
            for page in range(self.pages[name]):
                lines.append(f"DATA {name} {page * PAGE + 4 * self.upto(0, 100)} {self.random.getrandbits(32):08X}")
        return lines

    def fails(self, greatest):
        """Blocks of each kind that fail, some at one of their first calls, some at sixteen in a row."""
        if self.form != "failing":
            return []
        blocks = [f"S:{name}/{page}" for name in ("LIB", "IMG") for page in range(self.pages[name])]
        blocks += [f"P:{n}" for n in range(min(self.blocks, 6))] + [f"X:{name}/{n}" for name in self.names[:4] for n in range(min(greatest, 2))]
        lines = []
        for block in self.random.sample(blocks, self.upto(2, len(blocks) // 2)):
            first = self.upto(1, 3)
            calls = range(first, first + 16) if self.is_drawn(0.2) else [first]
            lines.append(f"FAIL {block} " + " ".join(map(str, calls)))
        return lines

    def maps(self):
        for name in self.names:
            yield f"MAPZERO {name} {PLACES['ZERO']:08X} {self.pages['ZERO']} UW"
            for section in self.pages:
                if section in KINDS:
                    yield f"MAPSEC {name} {PLACES[section]:08X} {self.pages[section]} {section} 0 UW"

    def page(self):
        """The address of a page, more often of one that all share."""
        place = self.one_of(["ZERO", "LIB", "LIB", "IMG"] + ["POOL", "POOL"] * ("POOL" in self.pages))
        return PLACES[place] + PAGE * self.upto(0, self.pages[place] - 1)

    def service(self, name):
        """A service of a process. Pages that it makes lie apart, so that most pages stay mapped."""
        word = self.one_of(PINS if self.form == "pins" else SERVICES)
        if word == "ADJWSL":
            return f"{name} {word} {self.upto(2, 10)}"
        if word in ("CRETVA", "DELTVA") and self.is_drawn(0.8):
            address, pages = NEW + PAGE * self.upto(0, 4), self.upto(1, 4)
        else:
            address, pages = self.page(), 1
        ending = f" {self.one_of(('UW', 'UW', 'UR'))}" if word in ("CRETVA", "SETPRT") else ""
        return f"{name} {word} {address:08X} {pages}{ending}"

    def reference(self, name):
        op = self.one_of(OPS)
        address = self.page() + 4 * self.upto(0, 127)
        if op[0] == "R":
            return f"{name} {op} {address:08X}"
        return f"{name} {op} {address:08X} {self.random.getrandbits(8 * int(op[1])):0{2 * int(op[1])}X}"

    def body(self):
        requests = self.upto(1000, 2000) if self.is_drawn(0.05) else self.upto(20, 200)
        if self.form == "long":
            requests = self.upto(5000, 15000)
        served = {"services": 0.2, "pins": 0.2}.get(self.form, 0)
        for _ in range(requests):
            name = self.one_of(self.names)
            yield self.service(name) if self.is_drawn(served) else self.reference(name)

    def lines(self):
        processes, greatest = self.processes()
        total, bad = self.frames(greatest)
        yield from (f"VMTRACE {self.version}", f"FRAMES {total}", f"PAGEFILE {self.blocks}")
        yield from (f"BAD {frame}" for frame in bad)
        yield from self.parameters(total)
        yield from self.sections()
        yield from processes
        yield from self.fails(greatest)
        yield from self.maps()
        yield "BODY"
        yield from self.body()
        yield "END"


def trace(form, seed):
    """The bytes of a trace."""
    return ("\n".join(Draw(form, seed).lines()) + "\n").encode("ascii")


def main():
    words = argparse.ArgumentParser(description=__doc__, formatter_class=argparse.RawDescriptionHelpFormatter)
    words.add_argument("form", choices=FORMS)
    words.add_argument("seed", type=int)
    asked = words.parse_args()
    sys.stdout.buffer.write(trace(asked.form, asked.seed))


if __name__ == "__main__":
    try:
        main()
    except BrokenPipeError:
        sys.stderr.close()
