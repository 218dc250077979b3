#!/usr/bin/env python3
"""Counts the instructions of the program's usual runs, alone or beside another build of it.

    bench/count.py                      the built program
    bench/count.py --program P          another one in its place
    bench/count.py --beside P TRACE..   beside another one, with these traces too

The runs are 30,000 requests in each form of bench/run.py, the two of `make` that it has, and the recorded
programs of examples/recorded. valgrind's callgrind counts; the counts are the same at each run, so a
change of a hundredth is seen. Without --beside the status is 0; with it, 0 if both programs wrote the same
bytes in each run and the first takes at most 1.02 times the second's instructions, and 1 if not.
"""

import argparse
import os
import pathlib
import re
import shutil
import subprocess
import sys
import tempfile

import run

WANTED = 1.02  # times the instructions of the program beside
REQUESTS = 30_000  # of each form
RECORDED = pathlib.Path(__file__).resolve().parent.parent / "examples" / "recorded"


def cases(folder, traces):
    """The runs: a name, the words, and the trace that is read, if one is."""
    for name, frames, pages in run.FORMS:
        path = os.path.join(folder, f"{frames}-{pages}.trace")
        run.make_trace(path, frames, pages, REQUESTS)
        yield f"{name}, {REQUESTS:,} requests", ["serial"], path
    for seed, processes, references in run.MADE:
        numbers = ["--seed", str(seed), "--procs", str(processes), "--refs", str(references)]
        yield "make " + " ".join(numbers), ["make"] + numbers, os.devnull
    for path in traces:
        yield pathlib.Path(path).name, ["serial"], path


def counted(program, words, trace, folder):
    """The instructions of one run, and what it wrote."""
    counts = os.path.join(folder, "counts")
    valgrind = ["valgrind", "--tool=callgrind", "--callgrind-out-file=" + counts, program] + words
    with open(trace, "rb") as lines:
        done = subprocess.run(valgrind, stdin=lines, capture_output=True, check=False)
    found = re.search(rb"Collected *: *(\d+)", done.stderr)
    if not found:
        sys.exit(f"bench: {program} was not counted: {done.stderr.decode(errors='replace')[-200:]}")
    return int(found.group(1)), done.stdout


def main():
    words = argparse.ArgumentParser(description=__doc__.splitlines()[0])
    words.add_argument("--program", help="count this program in place of the repository's")
    words.add_argument("--beside", help="count this program too, and print the ratios")
    words.add_argument("traces", nargs="*", metavar="TRACE", help="count `serial` on these too")
    asked = words.parse_args()
    if not shutil.which("valgrind"):
        sys.exit("bench: no valgrind here")
    program = os.path.abspath(asked.program) if asked.program else run.built_program()
    most, same = 0, True
    with tempfile.TemporaryDirectory() as folder:
        for name, command, trace in cases(folder, sorted(RECORDED.glob("*.trace")) + asked.traces):
            count, text = counted(program, command, trace, folder)
            line = f"{name:42} {count:14,}"
            if asked.beside:
                other, its_text = counted(os.path.abspath(asked.beside), command, trace, folder)
                most, same = max(most, count / other), same and text == its_text
                line += f" {other:14,} {count / other:7.4f}" + ("" if text == its_text else "  other bytes")
            print(line, flush=True)
    if asked.beside:
        print(f"most {most:.4f}, wanted at most {WANTED}: {'yes' if most <= WANTED else 'no'}")
    return 0 if same and most <= WANTED else 1


if __name__ == "__main__":
    sys.exit(main())
