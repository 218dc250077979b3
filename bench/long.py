#!/usr/bin/env python3
"""Measures the program `neqysbar` on a long trace, `LONGTRACE 2`, beside a short one of the same form.

The traces have one process whose pages all fit its working set, the form resident of run.py, with 100,000
and 4,000,000 requests. `serial`, `replay`, `study` of 60 frames and `check` of the log that `serial` wrote
are run on both. For each command it says how much memory a request takes beyond what the short trace takes,
and for `serial` the instructions of a request, counted with valgrind's callgrind, if that is there. It needs
GNU time for the memory. The status is 0 if all that is wanted holds, else 1.
"""

import argparse
import os
import shutil
import subprocess
import sys
import tempfile

import run
from check import instructions

SHORT, LONG = 100_000, 4_000_000
RUNS = 3  # of which the least peak counts: where memory begins differs from run to run

COMMANDS = (["serial"], ["replay"], ["study", "--process", "A", "--frames", "60"], ["check"])

WANTED_BYTES = 64  # bytes a request that `serial` takes beyond what the short trace takes
WANTED_MORE = 1.02  # instructions of a request of the long trace over those of the short one


def peak(program, words, source, output):
    """The peak memory of a run in bytes; the run has to end with the last line of a run without failures."""
    note = output + ".peak"
    with open(source, "rb") as lines, open(output, "wb") as sink:
        subprocess.run([run.TIME, "-q", "-f", "%M", "-o", note, program, *words], stdin=lines, stdout=sink, check=True)
    with open(output, "rb") as lines:
        lines.seek(max(0, os.path.getsize(output) - 9))
        if lines.read() != b"STATUS 0\n":
            sys.exit(f"bench: {words[0]} doesn't end with STATUS 0")
    with open(note, encoding="ascii") as lines:
        return 1024 * int(lines.read().split()[-1])


def peaks(program, folder, requests):
    """The peak of each command on a trace with so many requests, and the trace."""
    trace, log, text, output = (os.path.join(folder, part) for part in (f"trace{requests}", "log", "text", "output"))
    _, frames, pages = run.FORMS[0]
    run.make_trace(trace, frames, pages, requests, "LONGTRACE 2")
    found = []
    for words in COMMANDS:
        source = trace
        if words == ["check"]:
            with open(text, "wb") as out:
                for part, end in ((trace, b"LOG\n"), (log, b"")):
                    with open(part, "rb") as lines:
                        shutil.copyfileobj(lines, out)
                    out.write(end)
            source = text
        kept = log if words == ["serial"] else output
        found.append(min(peak(program, words, source, kept) for _ in range(RUNS)))
    return found, trace


def main():
    words = argparse.ArgumentParser(description=__doc__.splitlines()[0])
    words.add_argument("--program", help="measure this program in place of the repository's")
    words.add_argument("--requests", type=int, default=LONG, help="requests of the long trace (default 4000000)")
    words = words.parse_args()
    if run.TIME is None:
        sys.exit("bench: no GNU time here")
    program = os.path.abspath(words.program) if words.program else run.built_program()

    met = []
    with tempfile.TemporaryDirectory() as folder:
        (few, short), (many, long) = (peaks(program, folder, n) for n in (SHORT, words.requests))
        for command, less, more in zip(COMMANDS, few, many):
            each = (more - less) / (words.requests - SHORT)
            line = f"{command[0]:8} {less / 1e6:8.1f} MB {more / 1e6:8.1f} MB {each:8.1f} bytes a request more"
            if command == ["serial"]:
                met.append(each <= WANTED_BYTES)
                line += f", wanted at most {WANTED_BYTES}: {'yes' if met[-1] else 'no'}"
            print(line, flush=True)
        if not shutil.which("valgrind"):
            print("instructions not counted: no valgrind here")
            return 0 if all(met) else 1
        output, counts = os.path.join(folder, "output"), os.path.join(folder, "counts")
        idle = os.path.join(folder, "idle")
        run.make_trace(idle, *run.FORMS[0][1:], 0, "LONGTRACE 2")
        none, low, high = (instructions(program, "serial", source, output, counts) for source in (idle, short, long))
        first, last = (low - none) / SHORT, (high - none) / words.requests
        met.append(last / first <= WANTED_MORE)
        print(f"serial   {first:.1f} and {last:.1f} instructions a request, {last / first:.3f} times as many,"
              f" wanted at most {WANTED_MORE}: {'yes' if met[-1] else 'no'}")
    return 0 if all(met) else 1


if __name__ == "__main__":
    sys.exit(main())
