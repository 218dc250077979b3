"""What a trace may have: its versions, the addresses that it can map, and its services."""

import dataclasses

PAGE_BYTES = 512
P0_PAGES = 4096
P1_PAGES = 1024
P0_END = P0_PAGES * PAGE_BYTES
P1_END = 0x80000000
P1_BEGIN = P1_END - P1_PAGES * PAGE_BYTES
S0_END = 0xC0000000
LETTERS = "ABCDEFGHIJKLMNOP"
PROCESSES = len(LETTERS)
SECTION_PAGES = 16_384
RANGE_PAGES = 4096
PAGEFILE = (1, 16384)
GREATEST_EXTENT = 1024
CODES = "NA KW KR UW EW ERKW ER SW SREW SRKW SR URSW UREW URKW UR".split()
# the words of each service behind its name
SERVICES = {"CRETVA": 3, "SETPRT": 3, "DELTVA": 2, "LKWSET": 2, "ULWSET": 2, "LCKPAG": 2, "ULKPAG": 2,
            "PURGWS": 2, "ADJWSL": 1}
PINS = ("LCKPAG", "ULKPAG")


@dataclasses.dataclass(frozen=True)
class Version:
    """What a trace with this first line may have; `pins` says that it may lock pages in memory and have
    sections in the page file, and counts the locks of all processes among the frames."""

    first: str
    frames: int
    requests: int
    pins: bool


# the first one that has what a trace needs is taken
VERSIONS = [
    Version("VMTRACE 1", frames=4096, requests=100_000, pins=False),
    Version("VMTRACE 2", frames=16_384, requests=100_000, pins=True),
    Version("LONGTRACE 2", frames=16_384, requests=8_000_000, pins=True),
]
LEAST_FRAMES = 8
MOST_FRAMES = max(one.frames for one in VERSIONS)
MOST_REQUESTS = max(one.requests for one in VERSIONS)


class RecordError(Exception):
    """What the user is told, as one sentence."""


def version_for(frames, requests, pins):
    """The first version that may have all of this."""
    return next(one for one in VERSIONS
                if frames <= one.frames and requests <= one.requests and (one.pins or not pins))


def check_address(address, size, place):
    """Whether so many bytes lie in the part of P0 or of P1 that a trace has."""
    if address + size <= P0_END or P1_BEGIN <= address and address + size <= P1_END:
        return
    if address >= 1 << 32:
        why = "has more than the 32 bits of a VAX address"
    elif address >= S0_END:
        why = "lies in the region that a VAX leaves reserved"
    elif address >= P1_END:
        why = "lies in system space (S0), and a trace has addresses of P0 and P1 alone"
    elif address < 0x40000000:
        why = f"lies beyond the {P0_PAGES} pages of P0 that a trace has; they end at {P0_END:08X}"
    else:
        why = f"lies outside of the {P1_PAGES} pages of P1 that a trace has; they begin at {P1_BEGIN:08X}"
    raise RecordError(f"{place}: the address {address:08X} {why}")
