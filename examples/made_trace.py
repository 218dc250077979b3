#!/usr/bin/env python3
"""Writes the trace that `make` makes, so that it can be studied, checked and played.

    examples/made_trace.py --seed 1 --procs 4 --refs 10000 > made.trace

`make` with the same three numbers runs this trace and counts its entries. The seed is 0 to 4294967295,
the processes are 1 to 16, the references 1 to 100000. It needs Python 3.9 and no packages.

The machine has 96 frames for each process and 32 more, and a page file of 8192 blocks. Each process maps
256 zero pages at 00000000, the shared section LIB of 256 pages at 00040000, the copy on reference
section IMG of 64 pages at 00080000, and 32 zero pages at 7FFFC000. Byte k of page i of a section is
i + k modulo 256.

The draws are those of a linear congruential generator of 64 bits, of which each draw is the upper half.
A reference takes six: the process; the region (of sixteen draws eight are the first zero pages, four
LIB, two IMG, two the last zero pages); the page, of three draws in four from the first quarter of the
region; the longword in the page; the op, half of them reads, a quarter writes, a quarter adds; the value.
"""

import sys

from scripts import ended, number, words_of

PARAMETERS = {
    "PFC": 8, "HILIMIT": 64, "LOLIMIT": 16, "WAITLIMIT": 128, "WRTCLUSTER": 16, "FREELIM": 16,
    "FREEGOAL": 32, "AWSTIME": 100, "PFRATH": 20, "PFRATL": 4, "WSINC": 16, "WSDEC": 8, "AWSMIN": 16,
    "BORROWLIM": 64,
}
SECTIONS = (("LIB", "SHARED", 256), ("IMG", "CRF", 64))
REGIONS = [(0x00000000, 256)] * 8 + [(0x00040000, 256)] * 4 + [(0x00080000, 64)] * 2 + [(0x7FFFC000, 32)] * 2


def draws(seed):
    """The draws after a seed, without an end."""
    state = seed
    while True:
        state = (state * 6364136223846793005 + 1442695040888963407) % 2**64
        yield state >> 32


def head(procs):
    """The lines before the body."""
    yield "VMTRACE 1"
    yield f"FRAMES {96 * procs + 32}"
    yield "PAGEFILE 8192"
    for name, value in PARAMETERS.items():
        yield f"PARAM {name} {value}"
    for name, kind, pages in SECTIONS:
        yield f"SECTION {name} {kind} {pages}"
        for page in range(pages):
            for offset in range(0, 512, 64):
                text = "".join(f"{(page + offset + k) % 256:02X}" for k in range(64))
                yield f"DATA {name} {512 * page + offset} {text}"
    letters = [chr(65 + number) for number in range(procs)]
    for letter in letters:
        yield f"PROCESS {letter} 48 64 80 8"
    for letter in letters:
        yield f"MAPZERO {letter} 00000000 256 UW"
        yield f"MAPSEC {letter} 00040000 256 LIB 0 UW"
        yield f"MAPSEC {letter} 00080000 64 IMG 0 UW"
        yield f"MAPZERO {letter} 7FFFC000 32 UW"


def body(seed, procs, refs):
    """The requests."""
    source = draws(seed)
    for _ in range(refs):
        who, where, page, byte, kind, value = (next(source) for _ in range(6))
        first, pages = REGIONS[where % 16]
        near = pages if page % 4 == 0 else pages // 4
        address = first + 512 * ((page // 256) % near) + 4 * (byte % 128)
        op = ("R4", "R4", "W4", "A4")[kind % 4]
        words = [chr(65 + who % procs), op, f"{address:08X}"]
        if op != "R4":
            words.append(f"{value:08X}")
        yield " ".join(words)


def main():
    words = words_of(__doc__)
    words.add_argument("--seed", type=number(0, 2**32 - 1), required=True)
    words.add_argument("--procs", type=number(1, 16), required=True)
    words.add_argument("--refs", type=number(1, 100_000), required=True)
    asked = words.parse_args()
    out = sys.stdout
    for line in head(asked.procs):
        out.write(line + "\n")
    out.write("BODY\n")
    for line in body(asked.seed, asked.procs, asked.refs):
        out.write(line + "\n")
    out.write("END\n")


if __name__ == "__main__":
    ended("made_trace", main)
