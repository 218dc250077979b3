#!/usr/bin/env python3
"""Counts the instructions of `neqysbar check` on four logs, beside those of the `serial` that wrote them.

The traces are the same at each run: 90,000 requests of one process of which each third one replaces a
page, two that `make` draws from a seed, and one of 16 processes that refer to 1,000 demand zero pages each
at random, in 4,096 frames. valgrind's callgrind counts the instructions of one run of each program; they
are the same at each count. The status is 0 if `check` takes at most the wanted part of those of `serial`
on each trace, and a line of the largest log at most the wanted part of one of the smallest, else 1.
"""

import argparse
import os
import re
import shutil
import subprocess
import sys
import tempfile

import run
from run import Draws, built_program

WANTED = 2.5  # instructions of `check` over those of `serial`, on each trace
WANTED_GROWTH = 1.3  # instructions a line of the largest log over those of the smallest

REPLACED = 90_000  # requests of the form replace
PROCESSES = 16  # of the trace with many pages
PAGES = 1000  # of each of them
REFERENCES = 40_000  # of all of them

# writes the trace that `make` draws
MAKER = os.path.join(os.path.dirname(os.path.dirname(os.path.abspath(__file__))), "examples", "made_trace.py")


def replace_trace(path):
    _, frames, pages = run.FORMS[1]
    run.make_trace(path, frames, pages, REPLACED)


def made_trace(seed, processes, references):
    """What writes the trace that `make` draws."""
    numbers = ["--seed", str(seed), "--procs", str(processes), "--refs", str(references)]

    def write(path):
        with open(path, "wb") as out:
            subprocess.run([sys.executable, MAKER, *numbers], stdout=out, check=True)

    return write


def pages_trace(path):
    """Each request is of a process and to a page that are drawn."""
    draws = Draws(7)
    with open(path, "w", encoding="ascii", newline="\n") as out:
        out.write("VMTRACE 1\nFRAMES 4096\nPAGEFILE 16384\n")
        for p in range(PROCESSES):
            out.write(f"PROCESS {chr(65 + p)} 200 200 200 0\n")
        for p in range(PROCESSES):
            out.write(f"MAPZERO {chr(65 + p)} 00000000 {PAGES} UW\n")
        out.write("BODY\n")
        for _ in range(REFERENCES):
            process = chr(65 + draws.next() % PROCESSES)
            out.write(f"{process} {run.request(draws, PAGES)[2:]}")
        out.write("END\n")


# name, and what writes the trace
CASES = (
    ("replace, 90,000 requests", replace_trace),
    ("6 processes, 20,000 references", made_trace(7, 6, 20_000)),
    ("16 processes, 100,000 references", made_trace(1, 16, 100_000)),
    ("16 processes of 1,000 pages, 40,000 references", pages_trace),
)


def instructions(program, command, source, output, counts):
    """How many instructions a run takes, whose output is kept."""
    words = ["valgrind", "--tool=callgrind", "--callgrind-out-file=" + counts, program, command]
    with open(source, "rb") as lines, open(output, "wb") as sink:
        done = subprocess.run(words, stdin=lines, stdout=sink, stderr=subprocess.PIPE, check=True)
    return int(re.search(rb"Collected *: *(\d+)", done.stderr).group(1))


def lines_of(path):
    with open(path, "rb") as text:
        return text.read().count(b"\n")


def measure(program, name, write, folder):
    """The lines of the log, and the instructions of `serial` and of `check`."""
    trace, log, text, verdict = (os.path.join(folder, part) for part in ("trace", "log", "text", "verdict"))
    counts = os.path.join(folder, "counts")
    write(trace)
    serial = instructions(program, "serial", trace, log, counts)
    with open(text, "wb") as out:
        for part in (trace, log):
            with open(part, "rb") as lines:
                out.write(lines.read() + (b"LOG\n" if part == trace else b""))
    check = instructions(program, "check", text, verdict, counts)
    with open(verdict, "rb") as lines:
        if not lines.read().startswith(b"LOG OK "):
            sys.exit(f"bench: the log of {name} isn't right")
    return lines_of(text), serial, check


def main():
    words = argparse.ArgumentParser(description=__doc__.splitlines()[0])
    words.add_argument("--program", help="measure this program in place of the repository's")
    words = words.parse_args()
    if not shutil.which("valgrind"):
        sys.exit("bench: no valgrind here")
    program = os.path.abspath(words.program) if words.program else built_program()

    print(f"{'trace':46} {'lines':>8} {'serial':>14} {'check':>16} {'ratio':>6} {'a line':>8}")
    found = []
    with tempfile.TemporaryDirectory() as folder:
        for name, write in CASES:
            lines, serial, check = measure(program, name, write, folder)
            found.append((lines, check / serial, check / lines))
            print(f"{name:46} {lines:8,} {serial:14,} {check:16,} {check / serial:6.2f} {check / lines:8,.0f}", flush=True)
    ratio = max(ratio for _, ratio, _ in found)
    growth = max(found)[2] / min(found)[2]
    print(f"most over serial {ratio:.2f}, wanted at most {WANTED}: {'yes' if ratio <= WANTED else 'no'}")
    print(f"a line of the largest over one of the smallest {growth:.2f}, wanted at most {WANTED_GROWTH}: {'yes' if growth <= WANTED_GROWTH else 'no'}")
    return 0 if ratio <= WANTED and growth <= WANTED_GROWTH else 1


if __name__ == "__main__":
    sys.exit(main())
