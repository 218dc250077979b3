#!/usr/bin/env python3
"""Tests other settings for a trace, and what is measured of a run."""

import csv
import io
import subprocess
import sys
import unittest

from places import EXAMPLES, RECORDED, examples
import neqysbar
from neqysbar.measures import COUNTED, counts_of_run, counts_of_study

TRACE = (b"VMTRACE 1\n! FRAMES 3\nFRAMES 16\r\nPAGEFILE\t 8\nPARAM PFC 2\nPROCESS A 4 5 6 1\n"
         b"PROCESS B 3 4 5 0 \nMAPZERO A 00000000 8 UW\nBODY\nA R4 00000000\nEND\n")
# what changes: the settings, the text that goes and the text that comes
ROWS = (
    ({"frames": 32}, b"\nFRAMES 16\r\n", b"\nFRAMES 32\r\n"),
    ({"pagefile": 9}, b"PAGEFILE\t 8\n", b"PAGEFILE 9\n"),
    ({"PFC": 1}, b"PARAM PFC 2", b"PARAM PFC 1"),
    ({"HILIMIT": 7}, b"PAGEFILE\t 8\n", b"PAGEFILE\t 8\nPARAM HILIMIT 7\n"),
    ({"HILIMIT": 7, "LOLIMIT": 6}, b"PAGEFILE\t 8\n", b"PAGEFILE\t 8\nPARAM HILIMIT 7\nPARAM LOLIMIT 6\n"),
    ({"limit": 5, "locks": 0}, b"A 4 5 6 1\nPROCESS B 3 4 5 0 \n", b"A 5 5 6 0\nPROCESS B 5 4 5 0\n"),
    ({"quota": 6, "extent": 7}, b"A 4 5 6 1\nPROCESS B 3 4 5 0 \n", b"A 4 6 7 1\nPROCESS B 3 6 7 0\n"),
    ({}, b"", b""),
)
SUMMARY = {"references": "references", "denied": "denied", "services": "services", "hits": "hits", "faults": "faults",
           "writes": "out", "evicted": "evicted", "failed": "failed", "left": "left"}


class Settings(unittest.TestCase):
    def test_rows(self):
        for settings, old, new in ROWS:
            self.assertEqual(neqysbar.set_lines(TRACE, settings), TRACE.replace(old, new, 1), settings)

    def test_body_is_kept(self):
        """Behind BODY nothing is changed, whatever it looks like; and what is no trace stays as it is."""
        body = TRACE + b"LOG\nFRAMES 1\nPROCESS A 1 1 1 1\n"
        self.assertTrue(neqysbar.set_lines(body, {"frames": 8, "limit": 3}).endswith(body[body.index(b"BODY"):]))
        self.assertEqual(neqysbar.set_lines(b"FRAMES x y\nBODY\n", {}), b"FRAMES x y\nBODY\n")

    def test_not_set(self):
        for trace, settings in ((b"", {"frames": 8}), (b"VMTRACE 1\nBODY\n", {"PFC": 1}), (b"FRAMES 8\nPAGEFILE 2\n", {"limit": 3}),
                                (b"\xff\xff\n", {"quota": 1})):
            with self.assertRaises(neqysbar.NotSet):
                neqysbar.set_lines(trace, settings)

    def test_same_as_line(self):
        """Runs of a trace whose settings are set to what it has are the same; an added line has its effect."""
        for path in sorted(RECORDED.glob("*.trace")):
            trace = path.read_bytes()
            self.assertEqual(neqysbar.run(["serial"], neqysbar.set_lines(trace, {"PFC": 4} if b"PFC" not in trace else {})),
                             neqysbar.run(["serial"], trace))
        status, output = neqysbar.run(["serial"], neqysbar.set_lines((EXAMPLES / "first-run.trace").read_bytes(), {"HILIMIT": 500}))
        self.assertEqual((status, output.split()[2]), (2, b"OUTOFRANGE"))


class Counts(unittest.TestCase):
    def test_runs(self):
        """The counts of a run are those of examples/summary.py, its report's those of the report."""
        tried = 0
        for words, _, output in examples():
            if words != ["serial"] or b"PFN AT" not in output:
                continue
            counts = counts_of_run(output)
            told = subprocess.run([sys.executable, EXAMPLES / "summary.py", "--csv"], input=output, stdout=subprocess.PIPE, check=True)
            row = list(csv.DictReader(io.StringIO(told.stdout.decode())))[-1]
            self.assertEqual({name: counts[name] for name in SUMMARY}, {name: int(row[SUMMARY[name]]) for name in SUMMARY})
            self.assertEqual(counts["reads"], int(row["read"]) + int(row["near"]) + int(row["come"]))
            self.assertEqual(counts["entries"], sum(line[:1].isdigit() for line in output.split(b"\n")))
            tried += 1
        self.assertGreater(tried, 10)
        self.assertEqual(set(COUNTED) - set(SUMMARY), {"reads"})

    def test_study(self):
        """Those of examples/README.md."""
        output = neqysbar.run(["study", "--process", "A", "--frames", "8"], (RECORDED / "sort.trace").read_bytes())[1]
        self.assertEqual(counts_of_study(output), {"pages": 4505, "distinct": 16, "ring": 295, "lru": 174, "least": 126})


if __name__ == "__main__":
    unittest.main()
