"""Keeps the addresses of a list: where they have to lie, and which pages are mapped for them."""

import dataclasses
import re

from trace_limits import LETTERS, PAGE_BYTES, RANGE_PAGES, SERVICES, RecordError, check_address

SECTION_NAME = re.compile(r"[A-Z][A-Z0-9_]{1,14}")


@dataclasses.dataclass(frozen=True)
class Range:
    """The pages that are mapped for a process, where its list isn't to tell them."""

    process: int
    first: int
    pages: int


@dataclasses.dataclass(frozen=True)
class Common:
    """A section in the page file, which these processes map at the same place."""

    name: str
    processes: list
    first: int
    pages: int


def pages_at(rest, word, form):
    """The first page and the number of pages of ADDRESS:PAGES, which ends the word."""
    address, _, pages = rest.partition(":")
    if not re.fullmatch(r"[0-9]{1,9}", pages) or not 1 <= int(pages) <= RANGE_PAGES \
            or not re.fullmatch(r"(0[xX])?[0-9A-Fa-f]{1,16}", address):
        raise ValueError(f"\"{word}\" isn't {form}; a range has 1 to {RANGE_PAGES} pages")
    at = int(address, 16)
    check_address(at, int(pages) * PAGE_BYTES, word)
    if at % PAGE_BYTES:
        raise ValueError(f"\"{word}\" begins at no multiple of {PAGE_BYTES}")
    return at // PAGE_BYTES, int(pages)


def range_of(word):
    """A range as A:00000200:4, a process, an address and a number of pages."""
    form = "PROCESS:ADDRESS:PAGES, such as A:00000200:4"
    letter, _, rest = word.partition(":")
    if len(letter) != 1 or letter not in LETTERS:
        raise ValueError(f"\"{word}\" isn't {form}; a range has 1 to {RANGE_PAGES} pages")
    return Range(LETTERS.index(letter), *pages_at(rest, word, form))


def common_of(word):
    """A section in the page file as COM:AB:00000200:4: its name, the processes that map it, the address and
    the number of pages."""
    form = "NAME:LETTERS:ADDRESS:PAGES, such as COM:AB:00000200:4"
    name, _, rest = word.partition(":")
    letters, _, rest = rest.partition(":")
    if not SECTION_NAME.fullmatch(name) or not letters or len(set(letters)) != len(letters) \
            or not all(letter in LETTERS for letter in letters):
        raise ValueError(f"\"{word}\" isn't {form}")
    return Common(name, [LETTERS.index(letter) for letter in letters], *pages_at(rest, word, form))


def pages_of(requests):
    """The process, the op and the pages of each request: those of a service's range, or the one of a
    reference."""
    pages = [page for _, page in requests.named]
    for process, op, place, _, size, _ in requests:
        yield process, op, range(pages[place], pages[place] + (size if op in SERVICES else 1))


class Kept:
    """Which pages each process has from the start, and which its services create.

    A page that is used before a CRETVA has it is mapped from the start. PURGWS uses no page. The pages of a
    section in the page file are its own.
    """

    def __init__(self, found, options):
        given = [[one for one in options.map if one.process == process]
                 for process in range(len(found.owners))]
        if any(one.process >= len(found.owners) for one in options.map):
            raise RecordError("--map names a process that the list hasn't")
        self.mapped = [{page for one in ranges for page in range(one.first, one.first + one.pages)}
                       for ranges in given]
        self.created = [set() for _ in found.owners]
        for process, op, pages in pages_of(found.requests):
            if op == "CRETVA":
                self.created[process].update(set(pages) - self.mapped[process])
            elif op not in ("PURGWS", "ADJWSL") and not given[process]:
                self.mapped[process].update(set(pages) - self.created[process])
        self.commons = options.common
        self.leave_commons()

    def leave_commons(self):
        """The pages of the sections are mapped by these alone."""
        held = [set() for _ in self.mapped]
        for one in self.commons:
            pages = set(range(one.first, one.first + one.pages))
            for process in one.processes:
                if process >= len(held):
                    raise RecordError("--common names a process that the list hasn't")
                if held[process] & pages:
                    raise RecordError(f"process {LETTERS[process]} has two sections at one place")
                held[process] |= pages
        for process, pages in enumerate(held):
            if self.created[process] & pages:
                raise RecordError(f"process {LETTERS[process]} creates pages where a section is")
            self.mapped[process] -= pages

    @staticmethod
    def page_addresses(named):
        """Where each of these pages stands in the trace."""
        return [page * PAGE_BYTES for _, page in named]

    def runs(self, process):
        """The mapped pages as runs of neighbours: (first page, pages)."""
        found = []
        for page in sorted(self.mapped[process]):
            if found and sum(found[-1]) == page:
                found[-1][1] += 1
            else:
                found.append([page, 1])
        return found

    def map_lines(self):
        zeros = [f"MAPZERO {LETTERS[process]} {first * PAGE_BYTES:08X} {pages} UW"
                 for process in range(len(self.mapped)) for first, pages in self.runs(process)]
        return zeros + [f"MAPSEC {LETTERS[process]} {one.first * PAGE_BYTES:08X} {one.pages} {one.name} 0 UW"
                        for one in self.commons for process in one.processes]

    def section_lines(self):
        return [f"SECTION {one.name} PAGED {one.pages}" for one in self.commons]

    def charged_pages(self):
        """The pages that may want a block of the page file."""
        return (sum(map(len, self.mapped)) + sum(map(len, self.created))
                + sum(one.pages for one in self.commons))
