#!/usr/bin/env python3
"""Sums up a run from what `serial` wrote: faults by kind and process, transfers, hit rate.

    ./neqysbar serial < examples/swapping.trace | examples/summary.py
    examples/summary.py run.log                 a file with the output, or with a trace, a line LOG and it
    examples/summary.py --csv run.log           the same as CSV, a row for each process
    examples/summary.py --json run.log          the same as JSON, an object a line
    examples/summary.py --lines --csv run.log   a row for each entry line, with its words in columns

A *reference* is a DONE or a DENIED. A *fault* is a ZERO, a BACK of a resident process, an IN for a
fault, or a COLLIDE. A *hit* is a DONE without a fault since the process's last answer; the hit rate is
hits by DONE lines. Rows are processes, then MPW and SWP if they did something, then `all`.

| column | lines |
|---|---|
| references, denied, services | DONE and DENIED, DENIED, SERVED |
| hits, faults, hit_rate | as above |
| zero | ZERO: first touches of zero pages |
| free, modified, active, writing, release | BACK from that state: no transfer was needed |
| read | IN for a fault: the page was read from its block |
| collided | COLLIDE: another seat was reading the page |
| near, come | IN of a neighbour in a cluster, and of a process that came back |
| came_free | BACK of a process that came back: the page was still in memory |
| out | OUT: writes of pages that this seat began |
| failed | INFAIL and OUTFAIL of this seat |
| evicted, reused | EVICT of this process's pages; REUSE by this seat |
| left, limits | TURN to LEAVING; LIMIT |

It needs Python 3.9 and the package in `python/`, and no packages. What isn't the output of a run is refused, with status 2.
"""

import csv
import json
import sys

from scripts import HERE, Refused, ended, words_of

sys.path.insert(0, str(HERE.parent / "python"))
from neqysbar import NoEntry, entry_of  # noqa: E402

COLUMNS = (
    "references denied services hits faults zero free modified active writing release read collided "
    "near come came_free out failed evicted reused left limits"
).split()
FIELDS = (
    "number seat kind op service address pages protection limit value reply answer frame page block "
    "role process state why start before after faults status"
).split()


class NoRun(Refused):
    """The input is no output of a run."""


def entries_of(lines):
    """The entries of a run's output, and its last status."""
    lines = [line.rstrip("\n") for line in lines]
    if "LOG" in lines:
        lines = lines[lines.index("LOG") + 1:]
    entries, status = [], None
    for number, line in enumerate(lines, 1):
        first = line.split(" ")[0]
        if first.isdecimal():
            try:
                entries.append(entry_of(line))
            except NoEntry:
                raise NoRun(f"line {number} is no entry: {line}") from None
        elif first == "STATUS":
            status = line.split(" ")[-1]
        elif first in ("TRACE", "LOG", "MADE", "PAGES", "VMTRACE", "LONGTRACE"):
            raise NoRun(f"this is no output of a run: {line}")
    if status not in ("0", "5") and not entries:
        raise NoRun("there is no entry in it, and no STATUS 0" if status is None else f"STATUS {status}")
    return entries, status


def column_of(entry, coming):
    """Whose row an entry counts in, in which column, and whether it is a fault."""
    seat, kind = entry["seat"], entry["kind"]
    if kind == "BACK":
        back = entry["process"] in coming
        return entry["process"], "came_free" if back else entry["state"].lower(), not back
    if kind == "IN":
        column = {"FAULT": "read", "NEAR": "near", "COME": "come"}[entry["role"]]
        name = entry["page"].split("/")[0] if column == "come" else seat
        return name, column, column == "read"
    if kind in ("EVICT", "TURN"):
        column = "evicted" if kind == "EVICT" else "left" if entry["status"] == "LEAVING" else None
        return entry["process"], column, False
    columns = {"DONE": "references", "DENIED": "references", "SERVED": "services", "ZERO": "zero", "COLLIDE": "collided",
               "OUT": "out", "INFAIL": "failed", "OUTFAIL": "failed", "REUSE": "reused", "LIMIT": "limits"}
    return seat, columns.get(kind), kind in ("ZERO", "COLLIDE")


def rows_of(entries):
    """The counts of each process and seat, in order of their names, and of all together."""
    rows, coming, faulted = {}, set(), set()
    for entry in entries:
        name, column, is_fault = column_of(entry, coming)
        if column:
            row = rows.setdefault(name, dict.fromkeys(COLUMNS, 0))
            row[column] += 1
        if is_fault:
            row["faults"] += 1
            faulted.add(name)
        if entry["kind"] in ("DONE", "DENIED", "SERVED"):
            row["denied"] += entry["kind"] == "DENIED"
            row["hits"] += entry["kind"] == "DONE" and name not in faulted
            faulted.discard(name)
        if entry["kind"] == "TURN":
            (coming.add if entry["status"] == "COMING" else coming.discard)(entry["process"])
    named = sorted(rows, key=lambda name: (len(name), name))
    rows["all"] = {column: sum(rows[name][column] for name in named) for column in COLUMNS}
    return [{"process": name, **rows[name], "hit_rate": rate(rows[name])} for name in [*named, "all"]]


def rate(row):
    """Hits by answered references, or nothing where there are none."""
    answered = row["references"] - row["denied"]
    return round(row["hits"] / answered, 4) if answered else None


def text_of(rows, entries, status):
    """The tables for people; a column that is 0 everywhere is left out, but for the first ones."""
    always = ("references", "hits", "faults")
    shown = [c for c in COLUMNS if c in always or any(row[c] for row in rows)]
    table = [["process", *shown, "hit rate"]]
    for row in rows:
        share = "-" if row["hit_rate"] is None else f"{100 * row['hit_rate']:.1f} %"
        table.append([row["process"], *(str(row[c]) for c in shown), share])
    widths = [max(len(line[at]) for line in table) for at in range(len(table[0]))]
    out = ["  ".join([line[0].ljust(widths[0])] + [word.rjust(width) for word, width in zip(line[1:], widths[1:])])
           for line in table]
    total = rows[-1]
    out.append(f"reads {total['read'] + total['near'] + total['come']} "
               f"(faults {total['read']}, neighbours {total['near']}, swapped in {total['come']}), "
               f"writes {total['out']}, failed {total['failed']}")
    out.append(f"entries {len(entries)}, status {'none' if status is None else status}")
    return "\n".join(out) + "\n"


def lines_of(path):
    """The lines of a file, or of standard input."""
    try:
        if path is None:
            return sys.stdin.buffer.read().decode("ascii").splitlines()
        with open(path, encoding="ascii") as source:
            return source.read().splitlines()
    except UnicodeDecodeError as fault:
        raise NoRun(f"this is no output of a run: byte {fault.start + 1} isn't ASCII") from None


def main():
    words = words_of(__doc__)
    form = words.add_mutually_exclusive_group()
    form.add_argument("--csv", action="store_true", help="write CSV")
    form.add_argument("--json", action="store_true", help="write JSON")
    words.add_argument("--lines", action="store_true", help="a row for each entry line; CSV, unless --json is there")
    words.add_argument("file", nargs="?", help="the output of a run; without it standard input is read")
    asked = words.parse_args()
    entries, status = entries_of(lines_of(asked.file))
    rows, fields = (entries, FIELDS) if asked.lines else (rows_of(entries), ["process", *COLUMNS, "hit_rate"])
    if asked.json:
        for row in rows:
            print(json.dumps(row))
    elif asked.csv or asked.lines:
        out = csv.DictWriter(sys.stdout, fields, restval="", lineterminator="\n")
        out.writeheader()
        out.writerows(rows)
    else:
        sys.stdout.write(text_of(rows, entries, status))


if __name__ == "__main__":
    ended("summary", main)
