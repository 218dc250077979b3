"""Writes the trace: the machine, the sections, the processes, their maps, and the requests."""

import textwrap

from keeping import Kept
from trace_limits import (CODES, GREATEST_EXTENT, LEAST_FRAMES, LETTERS, MOST_FRAMES, PAGE_BYTES, PAGEFILE, SERVICES,
                          RecordError, version_for)

PARAMETERS = {
    "PFC": (1, 8), "HILIMIT": (0, 16384), "LOLIMIT": (0, 16384), "WAITLIMIT": (1, 16384),
    "WRTCLUSTER": (1, 16), "FREELIM": (0, 4096), "FREEGOAL": (0, 4096), "AWSTIME": (0, 100000),
    "PFRATH": (0, 100000), "PFRATL": (0, 100000), "WSINC": (0, 1024), "WSDEC": (0, 1024),
    "AWSMIN": (2, 1024), "BORROWLIM": (0, 4096)}
DEFAULTS = {"HILIMIT": 128, "LOLIMIT": 32, "WAITLIMIT": 256, "FREELIM": 0, "FREEGOAL": 0}
COMMENT_BYTES = 200


def bounded(name, number, bounds):
    if not bounds[0] <= number <= bounds[1]:
        raise RecordError(f"{name} is {number}; it has to be from {bounds[0]} to {bounds[1]}")
    return number


def spread(name, numbers, processes):
    """One number for each process: a single one stands for all."""
    if len(numbers) not in (1, processes):
        raise RecordError(f"{name} has {len(numbers)} numbers, and there are {processes} processes")
    return numbers * processes if len(numbers) == 1 else numbers


def process_bounds(options, processes, version):
    """The limit, quota, extent and locks of each process."""
    limits = spread("--limit", options.limit, processes)
    quotas = spread("--quota", options.quota or limits, processes)
    extents = spread("--extent", options.extent or quotas, processes)
    locks = spread("--locks", options.locks, processes)
    bounds = list(zip(limits, quotas, extents, locks))
    for letter, (limit, quota, extent, lock) in zip(LETTERS, bounds):
        if not lock + 2 <= limit <= quota <= extent <= GREATEST_EXTENT:
            raise RecordError(f"process {letter}: locks + 2 <= limit <= quota <= extent <= "
                              f"{GREATEST_EXTENT} doesn't hold of {lock}, {limit}, {quota}, {extent}")
    pins = sum(locks) if version.pins else 0
    if max(extents) + pins + 2 > options.frames:
        also = f"the locks of all processes, {pins}, " if pins else ""
        raise RecordError(f"the greatest extent, {max(extents)}, {also}and 2 are more than the "
                          f"{options.frames} frames")
    return bounds


def check_machine(options):
    """The machine's numbers, which don't depend on what is recorded."""
    bounded("--frames", options.frames, (LEAST_FRAMES, MOST_FRAMES))
    if options.pagefile is not None:
        bounded("--pagefile", options.pagefile, PAGEFILE)
    for name, number in options.parameters.items():
        if name not in PARAMETERS:
            raise RecordError(f"\"{name}\" is no parameter; there are {', '.join(PARAMETERS)}")
        bounded(name, number, PARAMETERS[name])
    all_of = {**DEFAULTS, **options.parameters}
    if not all_of["LOLIMIT"] <= all_of["HILIMIT"] <= all_of["WAITLIMIT"]:
        raise RecordError("LOLIMIT <= HILIMIT <= WAITLIMIT doesn't hold")
    if all_of["FREELIM"] > all_of["FREEGOAL"]:
        raise RecordError("FREELIM <= FREEGOAL doesn't hold")


def plain(text):
    """The text in the bytes that a trace may have."""
    return "".join(c if " " <= c <= "~" else "?" for c in text)


def comment(text):
    pieces = textwrap.wrap(plain(text), COMMENT_BYTES, break_on_hyphens=False)
    return [f"! {piece}" for piece in pieces]


def mapping_comments(layout, named):
    """Which pages of the recording stand where, a run of neighbours in a line. Pages that kept their
    addresses need none."""
    if isinstance(layout, Kept):
        return []
    lines = ["! process place pages first-address-in-the-recording"]
    runs = []
    for (process, page), at in sorted(zip(named, layout.page_addresses(named)),
                                      key=lambda one: (one[0][0], one[1])):
        if runs and runs[-1][0] == process and page == runs[-1][2] + runs[-1][3] and \
                at == runs[-1][1] + runs[-1][3] * PAGE_BYTES:
            runs[-1][3] += 1
        else:
            runs.append([process, at, page, 1])
    return lines + [f"! {LETTERS[process]} {at:08X} {count} {page * PAGE_BYTES:X}"
                    for process, at, page, count in runs]


def service_line(letter, name, address, pages, value):
    if name == "ADJWSL":
        return f"{letter} {name} {value}"
    code = "" if value is None else f" {CODES[value]}"
    return f"{letter} {name} {address:08X} {pages}{code}"


def request_lines(requests, layout, zero):
    """The lines of the requests. What a write's value isn't known of has zero or the number of the request."""
    addresses = layout.page_addresses(requests.named)
    for number, (process, op, place, offset, width, value) in enumerate(requests, 1):
        letter, address = LETTERS[process], addresses[place] + offset
        if op == "R":
            yield f"{letter} R{width} {address:08X}"
        elif op in SERVICES:
            yield service_line(letter, op, address, width, value)
        else:
            if value is None:
                value = 0 if zero else number
            yield f"{letter} {op}{width} {address:08X} {value % (1 << 8 * width):0{2 * width}X}"


def needed_blocks(layout):
    """A page file in which every page that may want one finds a block."""
    return min(PAGEFILE[1], max(PAGEFILE[0], layout.charged_pages()))


def head_comments(options, found, layout):
    lines = comment(f"Recorded by record/{options.script} {options.words}")
    for letter, owner in zip(LETTERS, found.owners):
        lines += comment(f"process {letter} is {owner}")
    for note in [found.share(), *found.parts, *found.notes, *found.limits()]:
        lines += comment(note)
    return lines + mapping_comments(layout, found.requests.named)


def trace_lines(options, found, layout):
    """All lines of the trace. Those before the requests are checked before the first one is given."""
    version = version_for(options.frames, len(found.requests), found.pins or bool(options.common))
    bounds = process_bounds(options, len(found.owners), version)
    head = [version.first]
    head += head_comments(options, found, layout) if options.comments else []
    head += [f"FRAMES {options.frames}", f"PAGEFILE {options.pagefile or needed_blocks(layout)}"]
    head += [f"PARAM {name} {number}" for name, number in options.parameters.items()]
    head += layout.section_lines()
    head += [f"PROCESS {letter} {' '.join(map(str, four))}" for letter, four in zip(LETTERS, bounds)]
    head += layout.map_lines()
    return head + ["BODY"], request_lines(found.requests, layout, options.zero)
