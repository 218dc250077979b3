#!/usr/bin/env python3
"""Measures the program `neqysbar` on made traces, and beside another program if one is named.

Traces of one process of demand zero pages, with 10,000, 30,000 and 90,000 requests, the same at each
run, in three forms: all pages fit the working set; a third of them doesn't, so about each third request
faults and a page is replaced for it; and the same with 4096 frames in the place of 64. Then two traces
that `neqysbar make` makes. Each case is run some times with its output in a file that is new each time;
where another program is measured too, the two run in turn. The status is 0 if all that is wanted holds,
else 1.
"""

import argparse
import os
import shutil
import subprocess
import sys
import tempfile
import time

SIZES = (10_000, 30_000, 90_000)
LIMIT = 62

# name, frames, pages of the map
FORMS = (("resident", 64, 60), ("replace", 64, 93), ("replace in 4096 frames", 4096, 93))

# seed, processes, references of each
MADE = ((7, 6, 20_000), (1, 16, 100_000))

# GNU time, which tells a program's peak memory without that of the Python that started it
TIME = shutil.which("time")

WANTED_RATE = 1_000_000  # requests a second, on each trace of the form resident
WANTED_PEAK = 100.0  # megabytes, on each trace
WANTED_GROWTH = 1.2  # time a request of the largest trace over that of the smallest, in each form
WANTED_FRAMES = 1.1  # time a request with 4096 frames over that with 64
WANTED_BESIDE = 1.5  # time over the other program's
WANTED_MORE = 20.0  # megabytes above the other program's peak


class Draws:
    """Pseudo-random numbers of 32 bits, the same at each run."""

    def __init__(self, seed):
        self.state = seed

    def next(self):
        self.state = (self.state * 6364136223846793005 + 1442695040888963407) % 2**64
        return self.state >> 32


def request(draws, pages):
    """One reference: R1, R4, W1 or W4 at some place of some page."""
    kind = draws.next() % 4
    first = 512 * (draws.next() % pages)
    place = draws.next() % 512
    value = draws.next()
    if kind == 0:
        return f"A R1 {first + place:08X}\n"
    if kind == 1:
        return f"A R4 {first + place // 4 * 4:08X}\n"
    if kind == 2:
        return f"A W1 {first + place:08X} {value % 256:02X}\n"
    return f"A W4 {first + place // 4 * 4:08X} {value:08X}\n"


def make_trace(path, frames, pages, requests, first="VMTRACE 1"):
    draws = Draws(7)
    with open(path, "w", encoding="ascii", newline="\n") as out:
        out.write(f"{first}\nFRAMES {frames}\nPAGEFILE 128\nPROCESS A {LIMIT} {LIMIT} {LIMIT} 0\n")
        out.write(f"MAPZERO A 00000000 {pages} UW\nBODY\n")
        for _ in range(requests):
            out.write(request(draws, pages))
        out.write("END\n")


class Case:
    """What is run, how often, and what came of it: by program the best time and the peak."""

    def __init__(self, name, words, source, requests):
        self.name, self.words, self.source, self.requests = name, words, source, requests
        self.best, self.peak = [], []


def run_once(program, case, output):
    """Runs a program: seconds from start to end, and its peak memory in kilobytes."""
    if os.path.exists(output):
        os.unlink(output)
    with open(case.source, "rb") as source, open(output, "wb") as sink:
        begin = time.perf_counter()
        child = subprocess.Popen([program, *case.words], stdin=source, stdout=sink)
        _, status, usage = os.wait4(child.pid, 0)
        seconds = time.perf_counter() - begin
    child.returncode = os.waitstatus_to_exitcode(status)
    if child.returncode != 0:
        sys.exit(f"bench: {program} ended with status {child.returncode}")
    return seconds, usage.ru_maxrss


def peak_of(program, case, output, least):
    """The program's peak memory in kilobytes by one more run, else the least that is known."""
    if TIME is None:
        return least
    note = output + ".peak"
    with open(case.source, "rb") as source, open(os.devnull, "wb") as sink:
        subprocess.run([TIME, "-q", "-f", "%M", "-o", note, program, *case.words], stdin=source, stdout=sink, check=False)
    with open(note, encoding="ascii") as lines:
        return int(lines.read().split()[-1])


def check_output(case, output):
    """Each request is answered, and the status line is the last one."""
    answered = 0
    last = b""
    with open(output, "rb") as lines:
        for last in lines:
            answered += b" DONE " in last
    if case.words == ["serial"] and answered != case.requests or last != b"STATUS 0\n":
        sys.exit(f"bench: {answered} of {case.requests} requests answered, last line {last!r}")


def measure(programs, case, folder, runs):
    """Runs the programs in turn, and keeps the best time and the peak of each."""
    outputs = [os.path.join(folder, f"output{i}") for i in range(len(programs))]
    results = [[] for _ in programs]
    for _ in range(runs):
        for program, output, found in zip(programs, outputs, results):
            found.append(run_once(program, case, output))
    check_output(case, outputs[0])
    for output in outputs[1:]:
        with open(outputs[0], "rb") as one, open(output, "rb") as other:
            if one.read() != other.read():
                print(f"bench: the outputs of {case.name} differ")
    case.best = [min(seconds for seconds, _ in found) for found in results]
    ends = zip(programs, outputs, (max(peak for _, peak in found) for found in results))
    case.peak = [peak_of(program, case, output, least) / 1024 for program, output, least in ends]
    return case


def form_cases(programs, folder, runs, form):
    """The cases of a form, the first of them without requests."""
    name, frames, pages = form
    cases = []
    for n in (0, *SIZES):
        trace = os.path.join(folder, "trace")
        make_trace(trace, frames, pages, n)
        cases.append(measure(programs, Case(f"{name} {n:,}", ["serial"], trace, n), folder, runs))
    return cases


def made_case(programs, folder, runs, seed, processes, references):
    words = ["make", "--seed", str(seed), "--procs", str(processes), "--refs", str(references)]
    return measure(programs, Case(" ".join(words), words, os.devnull, references), folder, runs)


def each(case, idle):
    """Seconds for a request, without the time of a trace that has none."""
    return (case.best[0] - idle.best[0]) / case.requests


def show(case):
    line = f"{case.name:34} {1000 * case.best[0]:9.2f} {case.requests / case.best[0]:12,.0f} {case.peak[0]:8.1f}"
    if len(case.best) > 1:
        line += f" {1000 * case.best[1]:9.2f} {case.peak[1]:8.1f} {case.best[0] / case.best[1]:7.2f}"
    print(line)


def answers(forms, made):
    """What is wanted, and whether it holds."""
    resident, replace, wide = forms
    cases = [case for form in forms for case in form[1:]] + made
    rate = min(case.requests / case.best[0] for case in resident[1:])
    yield f"slowest of resident {rate:,.0f} requests/s, wanted {WANTED_RATE:,}", rate >= WANTED_RATE
    peak = max(max(case.peak[:1]) for case in cases)
    yield f"peak {peak:.1f} MB, wanted below {WANTED_PEAK:.0f}", peak < WANTED_PEAK
    for (name, _, _), form in zip(FORMS, forms):
        growth = each(form[-1], form[0]) / each(form[1], form[0])
        yield f"{name}: growth {growth:.2f}, wanted at most {WANTED_GROWTH}", growth <= WANTED_GROWTH
    frames = each(wide[-1], wide[0]) / each(replace[-1], replace[0])
    yield f"4096 frames over 64: {frames:.2f}, wanted at most {WANTED_FRAMES}", frames <= WANTED_FRAMES
    if len(cases[0].best) > 1:
        ratio, name = max((case.best[0] / case.best[1], case.name) for case in cases)
        yield f"slowest beside the other {ratio:.2f} ({name}), wanted at most {WANTED_BESIDE}", ratio <= WANTED_BESIDE
        more = max(case.peak[0] - case.peak[1] for case in cases)
        yield f"peak above the other's {more:.1f} MB, wanted at most {WANTED_MORE:.0f}", more <= WANTED_MORE


def built_program():
    """The program's path, after it has been built where it must."""
    top = os.path.dirname(os.path.dirname(os.path.abspath(__file__)))
    script = os.path.join(top, "release", "build")
    subprocess.run([script], stdin=subprocess.DEVNULL, stdout=subprocess.DEVNULL, check=False)
    program = os.path.join(top, "crates", "neqysbar", "out", "neqysbar")
    if not os.access(program, os.X_OK):
        sys.exit("bench: the program could not be built")
    return program


def main():
    words = argparse.ArgumentParser(description=__doc__.splitlines()[0])
    words.add_argument("--runs", type=int, default=9, help="runs of each case (default 9)")
    words.add_argument("--program", help="measure this program in place of the repository's")
    words.add_argument("--beside", help="measure this program too, and print the ratios")
    words = words.parse_args()
    programs = [os.path.abspath(words.program) if words.program else built_program()]
    if words.beside:
        programs.append(os.path.abspath(words.beside))

    with tempfile.TemporaryDirectory() as folder:
        forms = [form_cases(programs, folder, words.runs, form) for form in FORMS]
        made = [made_case(programs, folder, words.runs, *numbers) for numbers in MADE]

    print(f"{'case':34} {'best ms':>9} {'requests/s':>12} {'peak MB':>8}" + "   other's     peak   ratio" * (len(programs) - 1))
    for form in forms:
        for case in form[1:]:
            show(case)
    for case in made:
        show(case)
    found = list(answers(forms, made))
    for text, is_met in found:
        print(text + (": yes" if is_met else ": no"))
    return 0 if all(is_met for _, is_met in found) else 1


if __name__ == "__main__":
    sys.exit(main())
