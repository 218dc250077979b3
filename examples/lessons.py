#!/usr/bin/env python3
"""Prints the tables of the lessons of docs/TEACHING.md: runs the program, and counts its lines.

    examples/lessons.py frames        lesson 4: the same references with fewer and fewer frames
    examples/lessons.py writing       lesson 4: the same with a writer that begins sooner and sooner
    examples/lessons.py processes     lesson 5: more and more processes in the same memory
    examples/lessons.py memory        lesson 5: the same three processes in more and more memory
    examples/lessons.py limits        lesson 6: an adjusted working set limit, and fixed ones

It needs Python 3.9 and no packages. NEQYSBAR in the environment may name another program.
"""

import subprocess
import sys

sys.dont_write_bytecode = True

import summary
from scripts import HERE, Refused, ended, output_of, words_of

LESSONS = HERE / "lessons"


def entries(trace):
    """The entries of a run of this trace."""
    return summary.entries_of(output_of(["serial"], trace.encode())[0].splitlines())[0]


def counts(trace):
    """What all processes and seats did together."""
    return summary.rows_of(entries(trace))[-1]


def with_lines(trace, *lines):
    """The trace with these lines behind its PAGEFILE."""
    out = []
    for line in trace.splitlines():
        out.append(line)
        if line.startswith("PAGEFILE"):
            out.extend(lines)
    return "\n".join(out) + "\n"


def table(*rows):
    widths = [max(len(str(row[at])) for row in rows) for at in range(len(rows[0]))]
    for row in rows:
        print("  ".join(str(word).rjust(width) for word, width in zip(row, widths)))


def cycling(procs, frames):
    words = ["--procs", procs, "--pages", 6, "--frames", frames, "--refs", 600]
    done = subprocess.run([sys.executable, HERE / "cycling_trace.py", *map(str, words)], capture_output=True, text=True)
    if done.returncode:
        raise Refused(done.stderr.strip())
    return done.stdout


def frames():
    trace = (LESSONS / "second-chance.trace").read_text()
    rows = [("frames", "faults", "first touch", "free list", "modified list", "read", "read along", "written")]
    for usable in (12, 8, 6, 5, 4):
        row = counts(with_lines(trace, *(f"BAD {11 - number}" for number in range(12 - usable))))
        rows.append((usable, row["faults"], row["zero"], row["free"], row["modified"], row["read"], row["near"], row["out"]))
    table(*rows)


def writing():
    trace = (LESSONS / "second-chance.trace").read_text()
    rows = [("HILIMIT", "faults", "first touch", "free list", "modified list", "read", "written")]
    for high in (128, 4, 3, 2, 0):
        row = counts(with_lines(trace, f"PARAM HILIMIT {high}", "PARAM LOLIMIT 0"))
        rows.append((high, row["faults"], row["zero"], row["free"], row["modified"], row["read"], row["out"]))
    table(*rows)


def of_swapping(trace):
    found = entries(trace)
    row = summary.rows_of(found)[-1]
    return (row["references"], f"{100 * row['hit_rate']:.1f} %", row["left"], row["read"] + row["near"] + row["come"],
            row["out"], f"{len(found) / row['references']:.1f}")


def processes():
    rows = [("processes", "references", "hit rate", "swapped out", "read", "written", "lines a reference")]
    for procs in range(1, 7):
        rows.append((procs, *of_swapping(cycling(procs, 16))))
    table(*rows)


def memory():
    rows = [("frames", "references", "hit rate", "swapped out", "read", "written", "lines a reference")]
    for size in range(14, 20):
        rows.append((size, *of_swapping(cycling(3, size))))
    table(*rows)


def limits():
    trace = (LESSONS / "phases.trace").read_text()
    rows = [("limit", "faults", "average limit", "average pages")]
    for limit in (4, 6, 8, 10):
        fixed = trace.replace("PARAM AWSTIME 16\n", "").replace("PROCESS A 4 8 ", f"PROCESS A {limit} 10 ")
        rows.append((limit, *of_limits(fixed, limit)))
    rows.append(("adjusted", *of_limits(trace, 4)))
    table(*rows)


def of_limits(trace, limit):
    """The faults; and the limit and the pages in the working set at the references, on average."""
    found, pages, limits, held = entries(trace), 0, [], []
    for entry in found:
        if entry["kind"] == "LIMIT":
            limit = int(entry["limit"])
        elif entry["kind"] == "DONE":
            limits.append(limit)
            held.append(pages)
        elif entry["kind"] in ("ZERO", "BACK"):
            pages += 1
        elif entry["kind"] == "EVICT":
            pages -= 1
    faults = summary.rows_of(found)[-1]["faults"]
    return faults, f"{sum(limits) / len(limits):.1f}", f"{sum(held) / len(held):.1f}"


TABLES = {"frames": frames, "writing": writing, "processes": processes, "memory": memory, "limits": limits}


def main():
    words = words_of(__doc__)
    words.add_argument("table", choices=TABLES)
    TABLES[words.parse_args().table]()


if __name__ == "__main__":
    ended("lessons", main)
