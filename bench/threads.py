#!/usr/bin/env python3
"""Tries `neqysbar replay` on many traces, and measures it beside `serial`.

    bench/threads.py races [FORM..]        runs of made traces, each of which `check` has to find legal
    bench/threads.py times                 time of `replay` and of `serial` on two large traces

The traces are those of race_traces.py, or with `--maker MAKER` those of another script: `MAKER FORM SEED`
writes the same trace to standard output for the same words. Of its traces those are run that have 2 to 16
processes. A round is a trace of each form by each way, with a seed of its own; race_ways.py has the ways in
which the threads are got out of step. A run goes well if it ends in time, with status 0, or 5 where shared
pages were left dirty, and `check` answers `LOG OK` to the trace, a line LOG and the run's output. The status
is 0 if all runs go well, else 1. The traces of those that don't are kept, and their outputs too, if a folder
is named.

It needs Python 3.9 or later, no packages, and Linux; a C compiler for the ways jitter, held and napping.
"""

import argparse
import concurrent.futures
import itertools
import os
import re
import subprocess
import sys
import tempfile
import time

import race_traces
import race_ways
from run import built_program

# how many seeds of a form are looked at for a trace with 2 processes or more
MOST_SKIPPED = 200

# seeds of runs are so far from each other, so that none is looked at for two
APART = 1000

# processes, and references of all of them
SIZES = ((4, 100_000), (16, 100_000))

# writes the trace that `make` draws
MADE = os.path.join(os.path.dirname(os.path.dirname(os.path.abspath(__file__))), "examples", "made_trace.py")

PROCESS = re.compile(rb"^[ \t]*PROCESS[ \t]", re.MULTILINE)
ENTRIES = re.compile(rb"LOG OK (\d+)\n")


def judged(program, trace, output, limit):
    """How many entries a log has. What is wrong, if `check` doesn't find it legal."""
    log = trace + (b"" if trace.endswith(b"\n") else b"\n") + b"LOG\n" + output
    try:
        done = subprocess.run([program, "check"], input=log, stdout=subprocess.PIPE, stderr=subprocess.DEVNULL, timeout=limit, check=False)
    except subprocess.TimeoutExpired:
        return 0, f"check had no end in {limit} seconds"
    entries = ENTRIES.match(done.stdout)
    if done.returncode != 0 or entries is None:
        return 0, f"check: status {done.returncode}, {done.stdout[:60]!r}"
    return int(entries.group(1)), None


class Tally:
    """What came of some runs."""

    NAMES = ("runs", "bad", "dirty", "processes", "entries", "collided", "failed", "slowest s")

    def __init__(self, processes=0):
        self.runs = self.bad = self.dirty = self.entries = self.collided = self.failed = 0
        self.most = processes
        self.slowest = 0.0

    def add(self, other):
        for name in ("runs", "bad", "dirty", "entries", "collided", "failed"):
            setattr(self, name, getattr(self, name) + getattr(other, name))
        self.most, self.slowest = max(self.most, other.most), max(self.slowest, other.slowest)

    def line(self, name):
        counts = (self.runs, self.bad, self.dirty, self.most, self.entries, self.collided, self.failed)
        return f"{name:16}" + "".join(f"{n:>11,}" for n in counts) + f"{self.slowest:11.2f}"


def race(asked, program, trace, way, seed):
    """Runs a trace and judges its log: a tally, what is wrong, if something is, and the output."""
    tally = Tally(len(PROCESS.findall(trace)))
    tally.runs = 1
    with tempfile.TemporaryDirectory() as folder:
        files = os.path.join(folder, "trace"), os.path.join(folder, "output")
        with open(files[0], "wb") as sink:
            sink.write(trace)
        begin = time.perf_counter()
        try:
            status = race_ways.Way(way, asked.library, seed).run([program, asked.command], files, asked.limit)
            wrong = None if status in (0, 5) else f"status {status}"
        except race_ways.Late as late:
            status, wrong = None, f"no end in {asked.limit} seconds; its threads: {late}"
        tally.slowest = time.perf_counter() - begin
        with open(files[1], "rb") as source:
            output = source.read()
    tally.dirty = int(status == 5)
    tally.collided = output.count(b" COLLIDE ")
    tally.failed = output.count(b" INFAIL ") + output.count(b" OUTFAIL ")
    if wrong is None:
        tally.entries, wrong = judged(program, trace, output, asked.limit)
    tally.bad = int(wrong is not None)
    return tally, wrong, output


def keep(folder, name, trace, output):
    """Writes the trace and the output of a run that went wrong."""
    os.makedirs(folder, exist_ok=True)
    for end, text in ((".trace", trace), (".out", output)):
        with open(os.path.join(folder, name + end), "wb") as sink:
            sink.write(text)


def made_trace(asked, form, seed):
    """A trace of a form with 2 to 16 processes, by that seed or the next ones."""
    for later in range(seed, seed + MOST_SKIPPED):
        if asked.maker is None:
            return race_traces.trace(form, later)
        made = subprocess.run([sys.executable, asked.maker, form, str(later)], stdout=subprocess.PIPE, check=True)
        if len(PROCESS.findall(made.stdout)) > 1:
            return made.stdout
    sys.exit(f"bench: {asked.maker} writes no trace with 2 processes for {form} and seeds from {seed} on")


def try_one(asked, program, way, form, seed):
    """One run, in a process of its own."""
    trace = made_trace(asked, form, seed)
    tally, wrong, output = race(asked, program, trace, way, seed)
    if wrong:
        print(f"{form} {seed}, {way}: {wrong}", flush=True)
        if asked.keep:
            keep(asked.keep, f"{form}-{seed}-{way}", trace, output)
    return way, form, tally


def ways_here(asked):
    """The ways that can be gone here. Of the others it is said why not."""
    for way in asked.ways.split(","):
        reason = race_ways.Way(way, asked.library, 0).why_not()
        if reason:
            print(f"not tried: {way}: {reason}")
        else:
            yield way


def races(asked, program):
    """Runs of all forms by all ways, in turn. A table by ways, and one by forms."""
    with tempfile.TemporaryDirectory() as folder:
        asked.library = race_ways.library(folder)
        ways = list(ways_here(asked))
        cases = [(way, form) for form in asked.forms for way in ways]
        if not cases:
            sys.exit("bench: no way that is asked can be gone here")
        drawn = itertools.islice(itertools.cycle(cases), asked.runs)
        seeds = (asked.first + n * (1 if asked.maker is None else APART) for n in itertools.count())
        tables = {"way": {way: Tally() for way in ways}, "form": {form: Tally() for form in asked.forms}}
        with concurrent.futures.ProcessPoolExecutor(asked.jobs) as pool:
            runs = [pool.submit(try_one, asked, program, way, form, seed) for (way, form), seed in zip(drawn, seeds)]
            for n, run in enumerate(concurrent.futures.as_completed(runs), 1):
                way, form, tally = run.result()
                tables["way"][way].add(tally)
                tables["form"][form].add(tally)
                if asked.tell and n % asked.tell == 0:
                    print(f"{n:,} runs, {sum(row.bad for row in tables['way'].values()):,} of them bad", flush=True)
    return told(tables)


def told(tables):
    """Prints the tables. The status."""
    for kind, rows in tables.items():
        print(f"{kind:16}" + "".join(f"{word:>11}" for word in Tally.NAMES))
        for name, tally in rows.items():
            print(tally.line(name))
    total = Tally()
    for tally in tables["way"].values():
        total.add(tally)
    print(f"{total.runs:,} runs, {total.bad:,} of them bad")
    return 0 if total.bad == 0 and total.runs > 0 else 1


def timed(program, command, source, sink):
    """Seconds from start to end of a run, and the seconds of processors that it took."""
    with open(source, "rb") as lines, open(sink, "wb") as out:
        begin = time.perf_counter()
        child = subprocess.Popen([program, command], stdin=lines, stdout=out)
        _, status, usage = os.wait4(child.pid, 0)
        seconds = time.perf_counter() - begin
    child.returncode = os.waitstatus_to_exitcode(status)
    if child.returncode not in (0, 5):
        sys.exit(f"bench: {command} ended with status {child.returncode}")
    return seconds, usage.ru_utime + usage.ru_stime


def times(asked, program):
    """A line for each trace and command: the best time of some runs, and the processor time of that run."""
    print(f"{'processes':>9} {'requests':>9} {'command':>8} {'wall s':>8} {'processor s':>12} {'requests/s':>11}")
    with tempfile.TemporaryDirectory() as folder:
        trace, sink = os.path.join(folder, "trace"), os.path.join(folder, "output")
        for processes, references in SIZES:
            numbers = ["--seed", "1", "--procs", str(processes), "--refs", str(references)]
            with open(trace, "wb") as out:
                subprocess.run([sys.executable, MADE, *numbers], stdout=out, check=True)
            for command in (asked.command, "serial"):
                wall, processor = min(timed(program, command, trace, sink) for _ in range(asked.runs))
                print(f"{processes:9} {references:9,} {command:>8} {wall:8.2f} {processor:12.2f} {references / wall:11,.0f}", flush=True)
    return 0


def look_at(words, asked):
    """Ends with a message if the words of `races` don't go together."""
    wrong = [way for way in asked.ways.split(",") if not race_ways.is_way(way)]
    if wrong:
        words.error(f"no way is called {wrong[0]!r}; a way is plain, or some of {', '.join(race_ways.WORDS)} with + between them")
    if asked.maker is None:
        asked.forms = asked.forms or list(race_traces.FORMS)
        unknown = [form for form in asked.forms if form not in race_traces.FORMS]
        if unknown:
            words.error(f"no form is called {unknown[0]!r}; the forms are {', '.join(race_traces.FORMS)}")
    elif not asked.forms:
        words.error("--maker needs the forms of its traces")
    for name in ("runs", "jobs", "limit"):
        if getattr(asked, name) <= 0:
            words.error(f"--{name} is above 0")


def main():
    words = argparse.ArgumentParser(description=__doc__, formatter_class=argparse.RawDescriptionHelpFormatter)
    parts = words.add_subparsers(dest="part", required=True)
    of_races = parts.add_parser("races")
    of_races.add_argument("forms", nargs="*", help="the forms of the traces (default: all)")
    of_races.add_argument("--maker", help="the script that writes traces, in place of race_traces.py")
    of_races.add_argument("--ways", default=",".join(race_ways.ALL), help="with commas (default %(default)s)")
    of_races.add_argument("--runs", type=int, default=1000, help="runs of all forms and ways together (default 1000)")
    of_races.add_argument("--jobs", type=int, default=1, help="runs at the same time (default 1)")
    of_races.add_argument("--first", type=int, default=1, help="the first seed (default 1)")
    of_races.add_argument("--limit", type=float, default=60, help="seconds that a run may take (default 60)")
    of_races.add_argument("--tell", type=int, default=0, help="a line after each so many runs (default: none)")
    of_races.add_argument("--keep", help="a folder for the traces and outputs of runs that go wrong")
    of_times = parts.add_parser("times")
    of_times.add_argument("--runs", type=int, default=3, help="runs of each case (default 3)")
    for part in (of_races, of_times):
        part.add_argument("--program", help="this program in place of the repository's")
        part.add_argument("--command", default="replay", help="the command that runs a trace (default replay)")
    asked = words.parse_args()
    if asked.part == "races":
        look_at(words, asked)
    program = os.path.abspath(asked.program) if asked.program else built_program()
    return races(asked, program) if asked.part == "races" else times(asked, program)


if __name__ == "__main__":
    sys.exit(main())
