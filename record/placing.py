"""Chooses the references, splits them, and gives each page of a recording its place."""

import array
import bisect
import functools
import itertools

from keeping import Kept
from request_arrays import Requests
from trace_limits import (LETTERS, MOST_REQUESTS, P0_PAGES, P1_END, P1_PAGES, PAGE_BYTES, PINS, PROCESSES,
                          SECTION_PAGES, SERVICES, RecordError)

# more pages than all the places that a process may have: a recording that uses more is cut in any case
PLACES = P0_PAGES + P1_PAGES + SECTION_PAGES


@functools.lru_cache(maxsize=None)
def split(offset, size, widths):
    """The aligned pieces of a reference, from the offset of its address in a longword: how far from its begin
    each lies, and its width. An aligned piece never lies in two pages."""
    pieces, done = [], 0
    while done < size:
        width = max(w for w in widths if w <= size - done and (offset + done) % w == 0)
        pieces.append((done, width))
        done += width
    return pieces


def interleave(recordings, quantum):
    """Takes `quantum` references of each recording in turn until all have ended: (place of the recording, number
    in it, reference)."""
    waiting = [(place, iter(one.taken)) for place, one in enumerate(recordings)]
    while waiting:
        left = []
        for place, recording in waiting:
            taken = list(itertools.islice(recording, quantum))
            for number, reference in taken:
                yield place, number, reference
            if len(taken) == quantum:
                left.append((place, recording))
        waiting = left


def cut_value(value, begin, width):
    """The bytes of a value that go to one piece, least significant byte first."""
    return None if value is None else (value >> (8 * begin)) % (1 << (8 * width))


def percent(kept, of):
    """Which part that is, in three digits; all is said of all alone, and none of none."""
    part = f"{100 * kept / of:.3g}"
    if part == "100" and kept < of:
        return "99.9"
    return part if 1000 * 100 * kept >= of else "less than 0.001"


FOUR = frozenset({4})
REQUESTS_OF = {"M": "RW", "I": "R"}     # where an op isn't the request's own


class Gathered:
    """The requests before they have places, and which references they are."""

    def __init__(self, recordings):
        self.recordings = recordings
        self.requests = Requests()
        self.owners = {}
        self.notes = []
        self.pins = False                   # whether one of them locks pages in memory
        self.ends = array.array("I")        # the number of requests behind each reference
        self.sources = array.array("H")     # the place of each reference's recording
        self.numbers = array.array("Q")     # the number of each reference in its recording
        self.fetched = set()
        self.written = set()
        self.highest = {}

    def process_of(self, owner):
        process = self.owners.setdefault(owner, len(self.owners))
        if process == PROCESSES:
            raise RecordError(f"more than {PROCESSES} processes: \"{owner}\" is one too many")
        return process

    def add(self, source, number, reference, pieces):
        """Adds one reference, as these pieces of it."""
        owner, op, address, size, value = reference
        process = self.process_of(owner)
        if op in SERVICES:
            self.requests.add(process, op, address, size, value)
        else:
            self.add_pieces(process, reference, pieces)
        self.highest[process] = max(self.highest.get(process, 0), address + pieces[-1][0])
        self.ends.append(len(self.requests))
        self.sources.append(source)
        self.numbers.append(number)
        return self.requests.used[process] <= PLACES

    def add_pieces(self, process, reference, pieces):
        """The requests that a reference becomes."""
        _, op, address, _, value = reference
        for begin, width in pieces:
            at, part = address + begin, cut_value(value, begin, width)
            for letter in REQUESTS_OF.get(op, op):
                self.requests.add(process, letter, at, width, part)
            if op == "I":
                self.fetched.add((process, at // PAGE_BYTES))
            elif op != "R":
                self.written.add((process, at // PAGE_BYTES))

    def kept(self):
        """How many references the requests are, the last one in part where it was cut there."""
        return bisect.bisect_left(self.ends, len(self.requests)) + 1

    def cut_at(self, source, number, why, word="before"):
        """Notes before or within which reference the requests end."""
        name = self.recordings[source].name
        self.notes.append(f"cut {word} reference {number} of {name}: {why}")

    def cut_requests(self, count, why):
        """Leaves the first requests alone."""
        at = bisect.bisect_right(self.ends, count)
        within = count > (self.ends[at - 1] if at else 0)
        self.cut_at(self.sources[at], self.numbers[at], why, "within" if within else "before")
        self.requests.cut(count)

    def all(self):
        return sum(one.all() for one in self.recordings)

    def is_whole(self):
        """Whether each reference was kept, and is one request."""
        return len(self.requests) == self.kept() == self.all()

    def share(self):
        """What of the recordings was kept, in words."""
        kept, until = self.kept(), " until it was ended" if any(one.was_ended() for one in self.recordings) else ""
        return (f"{kept} of the {self.all()} references of the recording{'s' * (len(self.recordings) > 1)}{until} "
                f"({percent(kept, self.all())} %), {len(self.requests)} requests")

    @functools.cached_property
    def parts(self):
        """Which part of each recording was kept, in words, where it wasn't all; once nothing more is cut."""
        return list(self.told_parts())

    def limits(self):
        """What the forms of the recordings leave open, in words."""
        return [f"{one.name}: {one.form.note}" for one in self.recordings if one.form.note]

    def told_parts(self):
        spans = {}
        for source, number in zip(self.sources[:self.kept()], self.numbers):
            span = spans.setdefault(source, [number, number, 0])
            span[1] = number
            span[2] += 1
        for source, one in enumerate(self.recordings):
            first, last, count = spans.get(source, (0, 0, 0))
            if one.begins and one.before and count:
                yield f"{one.name}: from {one.begins} on, after {one.before} references"
            if count == one.all():
                continue
            span = f"references {first} to {last}" if count == last - first + 1 else \
                f"{count} references from number {first} to {last}"
            yield f"{one.name}: {span if count else 'none'} of {one.all()}"


def pieces_of(reference, widths):
    """The aligned pieces of a reference; a service is one whole."""
    _, op, address, size, _ = reference
    if op in SERVICES:
        return [(0, size)]
    if op == "A" and address % 4:
        raise RecordError(f"an add at {address:X}, which is no multiple of 4")
    return split(address % 4, size, FOUR if op == "A" else widths)


def gather(recordings, options):
    """All requests of the recordings, up to the number that a trace may have."""
    found = Gathered(recordings)
    for source, number, reference in interleave(recordings, options.quantum):
        pieces = pieces_of(reference, options.widths)
        if reference[1] in PINS:
            found.pins = True
        if len(found.requests) + len(pieces) * (1 + (reference[1] == "M")) > MOST_REQUESTS:
            found.cut_at(source, number, f"a trace has at most {MOST_REQUESTS} requests")
            break
        if not found.add(source, number, reference, pieces):
            break
    for one in recordings:
        one.finish()
        found.notes += [f"{one.name}: {note}" for note in one.notes]
    if not found.requests:
        raise RecordError("no reference is left to write; the part that was asked for is empty")
    return found


class Place:
    """Where the pages of one process stand."""

    def __init__(self, stack_from):
        self.stack_from = stack_from
        self.zero = {}
        self.stack = {}
        self.text = {}

    def find(self, page, section_page):
        """Gives the page a place; false where there is no room."""
        if section_page is not None:
            self.text[page] = section_page
        elif self.stack_from is not None and page >= self.stack_from:
            self.stack[page] = P1_END // PAGE_BYTES - 1 - len(self.stack)
        else:
            self.zero[page] = len(self.zero)
        return len(self.stack) <= P1_PAGES


class Layout:
    """The places of all processes, and the sections for text that several share."""

    def __init__(self, found, options):
        self.sections = {name: {} for name, _ in options.text}
        self.groups = self.text_groups(found, options.text)
        self.places = [Place(self.stack_begin(found, process, options.stack))
                       for process in range(len(found.owners))]
        self.text_pages = {key for key in found.fetched if self.is_text(key, found)}

    @staticmethod
    def stack_begin(found, process, kilobytes):
        """The first page of the stack: so many kilobytes below the highest address used."""
        if kilobytes is None:
            return None
        return max(0, found.highest.get(process, 0) - kilobytes * 1024 + 1) // PAGE_BYTES

    @staticmethod
    def text_groups(found, text):
        """The section's name of each process that shares one."""
        groups = {}
        for name, letters in text:
            for letter in letters:
                process = LETTERS.index(letter)
                if process >= len(found.owners):
                    raise RecordError(f"--text names process {letter}, which has no recording")
                if process in groups:
                    raise RecordError(f"--text names process {letter} twice")
                groups[process] = name
        return groups

    def is_text(self, key, found):
        """Whether a fetched page is shared: no process of its section writes to that page."""
        process, page = key
        name = self.groups.get(process)
        return name is not None and not any(
            (other, page) in found.written for other, group in self.groups.items() if group == name)

    def section_page(self, process, page):
        """The page's number in its section, or None for a private page."""
        name = self.groups.get(process)
        shared = name is not None and any(
            (other, page) in self.text_pages for other, group in self.groups.items()
            if group == name)
        if not shared:
            return None
        pages = self.sections[name]
        return pages.setdefault(page, len(pages))

    def put(self, process, page):
        """Gives a page its place; a sentence where the limits of the format leave no room."""
        place = self.places[process]
        if not place.find(page, self.section_page(process, page)):
            return f"process {LETTERS[process]} uses more than {P1_PAGES} stack pages"
        for other, one in enumerate(self.places):
            text = len(self.sections.get(self.groups.get(other), ()))
            if len(one.zero) + (text if one.text else 0) > P0_PAGES:
                return f"process {LETTERS[other]} uses more than {P0_PAGES} pages"
        if sum(map(len, self.sections.values())) > SECTION_PAGES:
            return f"the sections have more than {SECTION_PAGES} pages"
        return ""

    def section_lines(self):
        return [f"SECTION {name} SHARED {len(pages)}" for name, pages in self.sections.items() if pages]

    def map_lines(self):
        """The maps of all processes: one for zero pages, one for the stack, one for each section."""
        lines = []
        for letter, process in zip(LETTERS, range(len(self.places))):
            place = self.places[process]
            if place.zero:
                lines.append(f"MAPZERO {letter} 00000000 {len(place.zero)} UW")
            if place.stack:
                first = min(place.stack.values()) * PAGE_BYTES
                lines.append(f"MAPZERO {letter} {first:08X} {len(place.stack)} UW")
            if place.text:
                name, at = self.groups[process], len(place.zero) * PAGE_BYTES
                lines.append(f"MAPSEC {letter} {at:08X} {len(self.sections[name])} {name} 0 UR")
        return lines

    def charged_pages(self):
        """The pages that may want a block of the page file."""
        return sum(len(place.zero) + len(place.stack) for place in self.places)

    def page_address(self, process, page):
        """Where a page of the recording stands in the trace."""
        place = self.places[process]
        if page in place.text:
            return (len(place.zero) + place.text[page]) * PAGE_BYTES
        return place.stack.get(page, place.zero.get(page)) * PAGE_BYTES

    def page_addresses(self, named):
        return [self.page_address(process, page) for process, page in named]


def lay_out(found, options):
    """Places all pages in order of first use, unless addresses are kept. Where there is no room the
    recording is cut."""
    if options.keep_addresses:
        return Kept(found, options)
    layout = Layout(found, options)
    for (process, page), first_use in zip(found.requests.named, found.requests.first_uses):
        fault = layout.put(process, page)
        if fault:
            found.cut_requests(first_use, fault)
            return lay_out(found, options)
    return layout
