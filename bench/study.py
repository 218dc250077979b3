#!/usr/bin/env python3
"""Measures `neqysbar study` on 100,000 references with 1,024 frames.

It makes two traces of one process that are the same at each run: one goes round 1,025 pages, which
is the worst case of the ring and of LRU; one refers to 4,096 pages at random. It takes the best time of
some runs of each, from the start of the process to its end, with the output in a file, and counts the
instructions of one run more with valgrind's callgrind, if that is there. The status is 0 if both are
below a second and below the wanted instructions, as far as they are counted, else 1.
"""

import argparse
import os
import re
import shutil
import subprocess
import sys
import tempfile
import time

from run import Draws, built_program

REFERENCES = 100_000
FRAMES = 1024
WANTED = 1.0  # seconds
MOST = 80_000_000  # instructions

HEAD = "VMTRACE 1\nFRAMES 8\nPAGEFILE 1\nPROCESS A 4 4 4 0\nBODY\n"


def make_trace(path, pages):
    with open(path, "w", encoding="ascii", newline="\n") as out:
        out.write(HEAD)
        for page in pages:
            out.write(f"A R1 {512 * page:08X}\n")
        out.write("END\n")


def command(program):
    return [program, "study", "--process", "A", "--frames", str(FRAMES)]


def instructions(program, trace, counts):
    """How many instructions a run takes; none if there is no valgrind."""
    if not shutil.which("valgrind"):
        return None
    words = ["valgrind", "--tool=callgrind", "--callgrind-out-file=" + counts, *command(program)]
    with open(trace, "rb") as source:
        run = subprocess.run(
            words, stdin=source, stdout=subprocess.DEVNULL, stderr=subprocess.PIPE, check=True
        )
    return int(re.search(rb"Collected *: *(\d+)", run.stderr).group(1))


def best_time(program, trace, output, runs):
    """The best seconds of some runs."""
    words = command(program)
    times = []
    for _ in range(runs):
        with open(trace, "rb") as source, open(output, "wb") as sink:
            begin = time.perf_counter()
            subprocess.run(words, stdin=source, stdout=sink, check=True)
            times.append(time.perf_counter() - begin)
    with open(output, "rb") as lines:
        text = lines.read()
    if not text.startswith(b"PAGES %d " % REFERENCES) or not text.endswith(b"\nSTATUS 0\n"):
        sys.exit("bench: not the lines of a study")
    return min(times)


def main():
    words = argparse.ArgumentParser(description=__doc__.splitlines()[0])
    words.add_argument("--runs", type=int, default=5, help="runs of each trace (default 5)")
    words.add_argument("--program", help="measure this program in place of the repository's")
    words = words.parse_args()
    program = os.path.abspath(words.program) if words.program else built_program()

    draws = Draws(7)
    cases = (
        ("round 1,025 pages", [i % 1025 for i in range(REFERENCES)]),
        ("4,096 pages at random", [draws.next() % 4096 for _ in range(REFERENCES)]),
    )
    slowest = 0.0
    counted = []
    with tempfile.TemporaryDirectory() as folder:
        trace = os.path.join(folder, "study.trace")
        for name, pages in cases:
            make_trace(trace, pages)
            seconds = best_time(program, trace, os.path.join(folder, "study.out"), words.runs)
            slowest = max(slowest, seconds)
            count = instructions(program, trace, os.path.join(folder, "study.counts"))
            line = f"{name:24s} {1000 * seconds:8.1f} ms"
            if count is not None:
                counted.append(count)
                line += f" {count:14,d} instructions"
            print(line)
    print(f"slowest {slowest:.3f} s, wanted below {WANTED:.0f} s: {'yes' if slowest < WANTED else 'no'}")
    most = max(counted, default=0)
    if counted:
        print(f"most instructions {most:,d}, wanted at most {MOST:,d}: {'yes' if most <= MOST else 'no'}")
    else:
        print("instructions not counted: no valgrind here")
    return 0 if slowest < WANTED and most <= MOST else 1


if __name__ == "__main__":
    sys.exit(main())
