#!/usr/bin/env python3
"""Writes a trace of processes that each go round their own pages, for the lesson on thrashing.

    examples/cycling_trace.py --procs 3 --pages 6 --frames 16 --refs 600 > cycling.trace

Each process has --pages pages of zeros, and a working set that holds them all, or --limit of them. They
take turns, one reference each, a write to the process's next page, round and round, --refs of them for
each process. It needs Python 3.9 and no packages.

What would be no trace is refused: there are 1 to 16 processes, 8 to 4096 frames, at most 4096 pages for
each process and 16384 for all, a limit from 2 to 1024 that leaves two frames, and at most 8000000
references of all processes. With more than 100000 of them it is a long trace, LONGTRACE 2.
"""

import sys

from scripts import Refused, ended, number, words_of

MOST_BLOCKS = 16_384
MOST_REQUESTS = 8_000_000
MOST_SHORT_REQUESTS = 100_000
MOST_LIMIT = 1024


def asked_for():
    """The numbers of the command line, if they make a trace."""
    words = words_of(__doc__)
    bounds = {"procs": (1, 16), "pages": (1, 4096), "frames": (8, 4096), "refs": (1, MOST_REQUESTS)}
    for name, (least, most) in bounds.items():
        words.add_argument(f"--{name}", type=number(least, most), required=True, help=f"{least} to {most}")
    words.add_argument("--limit", type=number(2, MOST_LIMIT), help=f"2 to {MOST_LIMIT}; without it as many as --pages")
    asked = words.parse_args()
    if asked.limit is None:
        asked.limit = asked.pages
        if not 2 <= asked.limit <= MOST_LIMIT:
            raise Refused(f"--limit is needed, since it is 2 to {MOST_LIMIT} and --pages is {asked.pages}")
    if asked.limit + 2 > asked.frames:
        raise Refused(f"a limit of {asked.limit} and 2 are more than --frames, {asked.frames}")
    if asked.procs * asked.pages > MOST_BLOCKS:
        raise Refused(f"{asked.procs} processes with {asked.pages} pages have more than {MOST_BLOCKS} pages")
    if asked.procs * asked.refs > MOST_REQUESTS:
        raise Refused(f"{asked.procs} processes with {asked.refs} references have more than {MOST_REQUESTS} of them")
    return asked


def main():
    asked = asked_for()
    letters = [chr(65 + place) for place in range(asked.procs)]
    out = sys.stdout
    first = "VMTRACE 1" if asked.procs * asked.refs <= MOST_SHORT_REQUESTS else "LONGTRACE 2"
    out.write(f"{first}\nFRAMES {asked.frames}\nPAGEFILE {asked.procs * asked.pages}\n")
    for letter in letters:
        out.write(f"PROCESS {letter} {asked.limit} {asked.limit} {asked.limit} 0\n")
    for letter in letters:
        out.write(f"MAPZERO {letter} 00000000 {asked.pages} UW\n")
    out.write("BODY\n")
    for turn in range(asked.refs):
        for letter in letters:
            out.write(f"{letter} W1 {512 * (turn % asked.pages):08X} {turn // asked.pages % 256:02X}\n")
    out.write("END\n")


if __name__ == "__main__":
    ended("cycling_trace", main)
