#!/usr/bin/env python3
"""Tests the pictures: their numbers against the program and the documents, and what is drawn.

They are drawn by the first of this Python and /usr/bin/python3 that has matplotlib; Debian's package is
for the latter.
"""

import csv
import io
import json
import os
import pathlib
import re
import shutil
import subprocess
import sys
import tempfile
import unittest

from places import EXAMPLES, RECORDED, environment
import neqysbar
from neqysbar.plot_data import body_of, fault_curves, faults_over_time, loads_of, prefix_of, reports_over_time

SORT = RECORDED / "sort.trace"
PHASES = EXAMPLES / "lessons" / "phases.trace"
SECONDS = 300
# a picture of each kind, and texts that it has
PICTURES = (
    (("curves", str(SORT)), ("frames", "faults", "least recently used", "the least possible")),
    (("working-set", str(PHASES)), ("requests answered", "pages of 512 bytes", "limit of A")),
    (("working-set", str(EXAMPLES / "swapping.trace")), ("pages of A", "pages of B", "pages of C")),
    (("faults", str(RECORDED / "two-counts.trace"), "--samples", "50"), ("faults in 84 requests", "page read", "first touch of a page")),
    (("lists", str(SORT), "--title", "Both lists"), ("frames", "free list", "modified list", "Both lists")),
    (("thrashing", str(PHASES), str(EXAMPLES / "swapping.trace")), ("processes", "share of time", "as 1 reference", "as 100 references")),
)


# draws each picture of a list, in one process: a status and what standard error gets, of each
DRAW = """import contextlib, io, json, sys
from neqysbar.plot import main
for words in json.load(sys.stdin):
    told = io.StringIO()
    with contextlib.redirect_stderr(told):
        try:
            status = main(words)
        except SystemExit as end:
            status = end.code
    print(json.dumps([status, told.getvalue()]))
"""


def python_with_matplotlib():
    for python in (sys.executable, "/usr/bin/python3"):
        if os.path.exists(python) and subprocess.run([python, "-c", "import matplotlib"], stderr=subprocess.DEVNULL).returncode == 0:
            return python
    return None


class Numbers(unittest.TestCase):
    def test_curves(self):
        """Those of examples/README.md."""
        rows = dict(fault_curves(SORT.read_bytes(), "sort", "A", [8, 16]))
        self.assertEqual(rows, {8: {"ring": 295, "lru": 174, "least": 126}, 16: {"ring": 16, "lru": 16, "least": 16}})

    def test_over_time(self):
        """The run of the first requests is the begin of the whole run, and each report counts what its entries did."""
        for path in (PHASES, EXAMPLES / "swapping.trace", RECORDED / "two-counts.trace", EXAMPLES / "services.trace"):
            trace = path.read_bytes()
            whole = neqysbar.run(["serial"], trace)[1].decode().split("\nPFN AT ")[0]
            head, requests = body_of(trace)
            for number, report in reports_over_time(trace, path.name, 12):
                text = neqysbar.run(["serial"], prefix_of(head, requests[:number]))[1].decode()
                lines = text.split("PFN AT ")[0].splitlines()
                self.assertEqual(lines, whole.splitlines()[:len(lines)], (path, number))
                entries = neqysbar.read_log("\n".join(lines))
                self.assertEqual(sum(entry.kind in ("DONE", "DENIED", "SERVED") for entry in entries), number)
                reads = {row.process: {entry.number for entry in entries if entry.kind == "IN" and entry.role != "NEAR" and
                                       entry.page.startswith(row.process + "/")} for row in report.processes}
                for row in report.processes:
                    came = sum((entry.kind == "ZERO" and entry.seat == row.process) or
                               (entry.kind == "BACK" and entry.process == row.process) for entry in entries)
                    came += sum(entry.kind == "INOK" and entry.start in reads[row.process] for entry in entries)
                    left = sum(entry.kind == "EVICT" and entry.process == row.process for entry in entries)
                    self.assertEqual(row.count, came - left, (path, number))

    def test_faults(self):
        """Together they are the faults that examples/summary.py counts."""
        for path in (SORT, PHASES, EXAMPLES / "swapping.trace"):
            output = neqysbar.run(["serial"], path.read_bytes())[1]
            told = subprocess.run([sys.executable, EXAMPLES / "summary.py", "--csv"], input=output, stdout=subprocess.PIPE, check=True)
            row = list(csv.DictReader(io.StringIO(told.stdout.decode())))[-1]
            rows = faults_over_time(path.read_bytes(), path.name, 20)
            self.assertEqual(sum(sum(faults.values()) for _, faults in rows), int(row["faults"]))
            self.assertEqual(sum(faults["first touch"] for _, faults in rows), int(row["zero"]))
            self.assertEqual(sum(faults["read"] for _, faults in rows), int(row["read"]))

    def test_loads(self):
        """Three and two processes of docs/TEACHING.md."""
        made = []
        for processes in ("3", "2"):
            words = ["--procs", processes, "--pages", "6", "--frames", "16", "--refs", "600"]
            made.append(subprocess.run([sys.executable, EXAMPLES / "cycling_trace.py", *words], stdout=subprocess.PIPE, check=True).stdout)
        loads = loads_of(("cycling", trace) for trace in made)
        self.assertEqual([(load.processes, load.answered, load.transfers) for load in loads], [(2, 1200, 0), (3, 1800, 3565 + 10703)])
        self.assertEqual([load.work(1) for load in loads], [100, 100 * 1800 / (1800 + 3565 + 10703)])


class Pictures(unittest.TestCase):
    def setUp(self):
        self.python = python_with_matplotlib()
        if not self.python:
            self.skipTest("pictures: there is no matplotlib")
        self.folder = pathlib.Path(tempfile.mkdtemp())
        self.addCleanup(shutil.rmtree, self.folder)

    def drawn(self, calls):
        """The status and what standard error gets, of each call."""
        done = subprocess.run([self.python, "-c", DRAW], env=environment(), cwd=self.folder, timeout=SECONDS, check=True,
                              input=json.dumps(calls), stdout=subprocess.PIPE, text=True)
        return [tuple(json.loads(line)) for line in done.stdout.splitlines()]

    def test_kinds(self):
        """Each kind is drawn, as SVG with its texts, and as PNG."""
        calls = [[*words, "--output", f"{number}.svg", "--output", f"{number}.png"] for number, (words, _) in enumerate(PICTURES)]
        self.assertEqual(self.drawn(calls), [(0, "")] * len(PICTURES))
        for number, (_, texts) in enumerate(PICTURES):
            svg = (self.folder / f"{number}.svg").read_text(encoding="utf-8")
            for text in texts:
                self.assertIn(text, svg)
            self.assertEqual((self.folder / f"{number}.png").read_bytes()[:8], b"\x89PNG\r\n\x1a\n")

    def test_refused(self):
        (self.folder / "faulty.trace").write_text("VMTRACE 1\nFRAMES 2\n")
        rows = (
            (("lists", "no.trace", "--output", "x.svg"), "plot: no.trace can't be read: No such file or directory\n"),
            (("lists", str(SORT), "--output", "x.jpg"), "'x.jpg' ends neither with .svg nor with .png\n"),
            (("lists", str(SORT), str(SORT), "--output", "x.svg"), "plot: lists takes one trace\n"),
            (("lists", "faulty.trace", "--output", "x.svg"), "plot: faulty.trace: TRACE 2 OUTOFRANGE: FRAMES 2\n"),
            (("curves", str(SORT), "--process", "B", "--output", "x.svg"), f"plot: {SORT} has no references of process B\n"),
            (("faults", str(EXAMPLES / "no-requests.trace"), "--output", "x.svg"), "no-requests.trace has no requests\n"),
            (("lists", str(SORT), "--output", "no/x.svg"), "plot: no/x.svg can't be written: No such file or directory\n"),
            (("curves", str(SORT), "--frames", "0", "--output", "x.svg"), "plot: " + str(SORT) + ": STATUS 1\n"),
        )
        for (_, wanted), (status, told) in zip(rows, self.drawn([words for words, _ in rows])):
            self.assertEqual((status, told[-len(wanted):]), (2, wanted))
            self.assertNotIn("Traceback", told)
        self.assertEqual([path.name for path in self.folder.iterdir()], ["faulty.trace"])

    def test_stored(self):
        """The script makes the stored pictures again, byte for byte, with the matplotlib that made them."""
        stored = EXAMPLES / "pictures"
        maker = re.search(r"Matplotlib ([\d.]+)", (stored / "thrashing.svg").read_text(encoding="utf-8"))[1]
        told = subprocess.run([self.python, "-c", "import matplotlib; print(matplotlib.__version__)"], stdout=subprocess.PIPE, text=True)
        subprocess.run([stored / "make", self.folder], env={**os.environ, "PYTHON": self.python}, check=True, timeout=SECONDS)
        names = sorted(path.name for path in self.folder.iterdir())
        self.assertEqual(names, sorted(path.name for path in stored.glob("*.svg")))
        if told.stdout.strip() != maker:
            self.skipTest(f"the stored pictures byte for byte: they were made with matplotlib {maker}")
        for name in names:
            self.assertEqual((self.folder / name).read_bytes(), (stored / name).read_bytes(), name)


class WithoutMatplotlib(unittest.TestCase):
    def test_said(self):
        """Where matplotlib can't be imported a line says so."""
        code = "import sys; sys.modules['matplotlib'] = None; from neqysbar.plot import main; sys.exit(main(sys.argv[1:]))"
        done = subprocess.run([sys.executable, "-c", code, "lists", str(SORT), "--output", "x.svg"], env=environment(),
                              stderr=subprocess.PIPE, text=True)
        self.assertEqual((done.returncode, done.stderr), (2, "plot: a picture needs matplotlib, which isn't there\n"))


if __name__ == "__main__":
    unittest.main()
