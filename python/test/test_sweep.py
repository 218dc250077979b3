#!/usr/bin/env python3
"""Tests sweeps: the product, the table, going on after a break, failures, parts, and what is refused."""

import contextlib
import csv
import io
import os
import pathlib
import shutil
import signal
import subprocess
import sys
import tempfile
import time
import unittest

from places import RECORDED, environment
import neqysbar
from neqysbar.points import values_of
from neqysbar.sweep import main

SORT = str(RECORDED / "sort.trace")
VAX = str(RECORDED / "vax-sum.trace")
LIMITS = ["--limit", "4:9", "--param", "HILIMIT=2,4"]
SECONDS = 300


def sweep(*words, cwd=None):
    """A sweep's status and what it wrote to standard error."""
    done = subprocess.run([sys.executable, "-m", "neqysbar.sweep", *words], env=environment(), cwd=cwd, timeout=SECONDS,
                          stdout=subprocess.PIPE, stderr=subprocess.PIPE, text=True)
    return done.returncode, done.stderr + done.stdout


def called(*words):
    """The same of a sweep in this process."""
    told, kept = io.StringIO(), signal.getsignal(signal.SIGTERM)
    try:
        with contextlib.redirect_stderr(told), contextlib.redirect_stdout(told):
            status = main(words)
    except SystemExit as end:
        status = end.code
    finally:
        signal.signal(signal.SIGTERM, kept)
    return status, told.getvalue()


def rows_of(path):
    with open(path, encoding="utf-8", newline="") as source:
        return list(csv.DictReader(source))


def heeds():
    """In a child: SIGINT counts, though whoever started these tests in the background had it ignored."""
    signal.signal(signal.SIGINT, signal.SIG_DFL)


class Sweep(unittest.TestCase):
    def setUp(self):
        self.folder = pathlib.Path(tempfile.mkdtemp())
        self.addCleanup(shutil.rmtree, self.folder)
        self.table = str(self.folder / "table.csv")

    def test_values(self):
        for text, values in (("4", [4]), ("4,2,4", [4, 2]), ("4:7", [4, 5, 6, 7]), ("4:10:4", [4, 8]), ("4:12:4,1", [4, 8, 12, 1])):
            self.assertEqual(values_of(text), values)
        for text in ("", "x", "4,", "4:2", "4:8:0", "-1", "1:2:3:4", "0:999999", "٣"):
            with self.assertRaises(ValueError, msg=text):
                values_of(text)

    def test_product(self):
        """Each point of the product is there once, in order, with what the library says of that trace."""
        status, told = sweep(SORT, *LIMITS, "--command", "serial", "--output", self.table)
        self.assertEqual(status, 0, told)
        rows = rows_of(self.table)
        self.assertEqual([(row["limit"], row["HILIMIT"]) for row in rows],
                         [(str(limit), high) for limit in range(4, 10) for high in ("2", "4")])
        text = pathlib.Path(SORT).read_text().replace("A 8 10 14 0", "A 5 10 14 0").replace("HILIMIT 4", "HILIMIT 2")
        output = neqysbar.run(["serial"], text.encode())[1].decode()
        row = rows[2]
        self.assertEqual(int(row["evicted"]), output.count(" EVICT "))
        self.assertEqual(int(row["reads"]), output.count(" IN "))
        self.assertEqual(int(row["free_frames"]), neqysbar.read_report(output).counts["FREE"])

    def test_study(self):
        status, told = sweep(SORT, VAX, "--frames", "1:16", "--command", "study", "--process", "A", "--output", self.table)
        self.assertEqual(status, 0, told)
        rows = rows_of(self.table)
        self.assertEqual(len(rows), 32)
        self.assertEqual([rows[7][name] for name in ("ring", "lru", "least")], ["295", "174", "126"])
        self.assertEqual(rows[20]["trace"], VAX)

    def test_one_process(self):
        """Tables of one process and of several are the same bytes."""
        for jobs, name in (("1", "one.csv"), ("3", "three.csv")):
            self.assertEqual(sweep(SORT, *LIMITS, "--command", "serial", "--jobs", jobs, "--output", name, cwd=self.folder)[0], 0)
        self.assertEqual((self.folder / "one.csv").read_bytes(), (self.folder / "three.csv").read_bytes())

    def test_failures(self):
        """A setting that the trace's rules refuse is named, and the others are run; both are in the table."""
        words = (SORT, "--limit", "9:12", "--command", "serial", "--output", self.table)
        for _ in range(2):
            status, told = sweep(*words)
            self.assertEqual(status, 1)
            self.assertIn(f"sweep: {SORT} serial limit=11: TRACE 27 OUTOFRANGE: PROCESS A 11 10 14 0\n", told)
            self.assertIn("4 points in ", told)
            self.assertIn("2 failed, 0 not run", told)
        self.assertEqual([row["status"] for row in rows_of(self.table)], ["0", "0", "2", "2"])

    def test_nothing_to_measure(self):
        """A process that the trace doesn't declare has no references; a line that is no text is shown as far as it is."""
        status, told = sweep(SORT, "--frames", "3", "--command", "study", "--process", "B", "--output", self.table)
        self.assertEqual(status, 1)
        self.assertIn(f"sweep: {SORT} study frames=3: the trace has no references of this process\nsweep: 1 point in", told)
        bytes_alone = self.folder / "bytes, \u00fc.trace"
        bytes_alone.write_bytes(b"\xff\x00\x1b[1mA\n")
        status, told = sweep(str(bytes_alone), "--command", "serial", "--output", str(self.folder / "bytes.csv"))
        self.assertIn(f"sweep: {bytes_alone} serial: TRACE 1 NOTASCII: ???[1mA\n", told)
        self.assertEqual(rows_of(self.folder / "bytes.csv")[0]["trace"], str(bytes_alone))

    def test_going_on(self):
        """What is in the table isn't run again: a row that says something else stays; a broken line is run again."""
        words = (SORT, *LIMITS, "--command", "serial", "--output", self.table)
        self.assertEqual(sweep(*words)[0], 0)
        whole = pathlib.Path(self.table).read_bytes()
        lines = whole.splitlines(keepends=True)
        planted = lines[1].replace(b",4505,", b",9999,")
        pathlib.Path(self.table).write_bytes(lines[0] + planted + b"".join(lines[5:]) + lines[2][:30])
        self.assertEqual(sweep(*words)[0], 0)
        self.assertEqual(pathlib.Path(self.table).read_bytes(), lines[0] + planted + b"".join(lines[2:]))

    def test_more_points(self):
        """A sweep of more values takes what is there, and leaves no point out."""
        self.assertEqual(sweep(SORT, "--limit", "6,8", "--command", "serial", "--output", self.table)[0], 0)
        self.assertEqual(sweep(SORT, "--limit", "5:7", "--command", "serial", "--output", self.table)[0], 0)
        self.assertEqual([row["limit"] for row in rows_of(self.table)], ["5", "6", "7", "8"])

    def broken_off(self, number):
        """A sweep that a signal breaks off, with its status; some of its points are finished by then."""
        words = [SORT, "--limit", "4:9", "--param", "PFRATH=1:10", "--command", "serial", "--jobs", "2", "--output", self.table]
        begun = subprocess.Popen([sys.executable, "-m", "neqysbar.sweep", *words], env=environment(),
                                 stderr=subprocess.PIPE, text=True, start_new_session=True, preexec_fn=heeds)
        until = time.monotonic() + SECONDS
        while not os.path.exists(self.table) or pathlib.Path(self.table).read_bytes().count(b"\n") < 6:
            self.assertLess(time.monotonic(), until)
            time.sleep(0.02)
        begun.send_signal(number)
        told = begun.communicate(timeout=SECONDS)[1]
        return words, begun.returncode, told

    def test_broken_off(self):
        """Of a sweep that is broken off no finished point is lost, and it goes on to the same table."""
        whole = str(self.folder / "whole.csv")
        for number, wanted in ((signal.SIGINT, 130), (signal.SIGTERM, 130), (signal.SIGKILL, -9)):
            words, status, told = self.broken_off(number)
            self.assertEqual(status, wanted, told)
            self.assertNotIn("Traceback", told)
            before = pathlib.Path(self.table).read_bytes()
            before = before[:before.rfind(b"\n") + 1].splitlines()
            self.assertLess(len(before), 61)
            status, told = sweep(*words)
            self.assertEqual(status, 0, told)
            after = pathlib.Path(self.table).read_bytes()
            self.assertEqual(set(before) - set(after.splitlines()), set())
            if not os.path.exists(whole):
                sweep(*words[:-1], whole)
            self.assertEqual(after, pathlib.Path(whole).read_bytes())
            os.remove(self.table)

    def test_parts(self):
        """The tables of parts, taken together, are the table of the whole."""
        words = (SORT, *LIMITS, "--command", "serial")
        self.assertEqual(sweep(*words, "--output", self.table)[0], 0)
        taken = []
        for part in (1, 2, 3):
            path = str(self.folder / f"part-{part}.csv")
            self.assertEqual(sweep(*words, "--part", f"{part}/3", "--output", path)[0], 0)
            self.assertEqual(len(rows_of(path)), 4)
            taken += ["--take", path]
        together = str(self.folder / "together.csv")
        self.assertEqual(sweep(*words, *taken, "--output", together)[0], 0)
        self.assertEqual(pathlib.Path(together).read_bytes(), pathlib.Path(self.table).read_bytes())

    def test_list(self):
        status, told = sweep(VAX, "--limit", "6,7", "--command", "serial", "--output", self.table, "--list")
        self.assertEqual((status, told), (0, f"{VAX} serial limit=6\n{VAX} serial limit=7\n"))
        self.assertFalse(os.path.exists(self.table))

    def test_refused(self):
        """What can't begin says why, in a line, with status 2, and leaves a table as it is."""
        other = self.folder / "other.csv"
        other.write_text("a,b\n1,2\n")
        text = self.folder / "text"
        text.write_text("what isn't a table")
        serial, study = ("--command", "serial", "--output", self.table), ("--command", "study", "--output", self.table)
        rows = (
            (("no.trace", *serial), "no.trace can't be read: No such file or directory"),
            ((SORT, *study, "--frames", "8"), "study needs --process"),
            ((SORT, *study, "--process", "A"), "study needs --frames"),
            ((SORT, *study, "--process", "A", "--frames", "8", "--limit", "4"), "limit would change nothing"),
            ((SORT, *serial, "--process", "A"), "--process is for study"),
            ((SORT, *serial, "--limit", "8:4"), "8:4 has no numbers"),
            ((SORT, *serial, "--param", "PFC"), "'PFC' isn't NAME=VALUES"),
            ((SORT, *serial, "--param", "PFC=1", "--param", "PFC=2"), "--param PFC is given twice"),
            ((SORT, *serial, "--part", "4/3"), "'4/3' isn't K/N with K from 1 to N"),
            ((SORT, *serial, "--jobs", "0"), "'0' isn't a number from 1 to 9999"),
            ((SORT, *serial, "--take", "no.csv"), "no.csv can't be read"),
            ((SORT, "--command", "serial", "--output", str(other)), "its columns are a, b, and would be version, trace"),
            ((SORT, "--command", "serial", "--output", str(self.folder / "no" / "t.csv")), "can't be opened"),
            ((SORT, "--command", "serial", "--output", str(text)), "is no table of a sweep; it is left as it is"),
            ((SORT, "--command", "serial", "--output", "/dev/zero"), "/dev/zero is no file"),
            (("/dev/zero", *serial), "/dev/zero can't be read: it is no file"),
            ((SORT, "--command", "curve", "--output", self.table), "invalid choice: 'curve'"),
        )
        for words, wanted in rows:
            status, told = called(*words)
            self.assertEqual(status, 2, (words, told))
            self.assertIn(wanted, told)
            self.assertNotIn("Traceback", told)
        self.assertEqual((other.read_text(), text.read_text()), ("a,b\n1,2\n", "what isn't a table"))

    def test_no_library(self):
        env = {**environment(), "NEQYSBAR_LIBRARY": "/no/such/library.so"}
        done = subprocess.run([sys.executable, "-m", "neqysbar.sweep", SORT, "--command", "serial", "--output", self.table],
                              env=env, stderr=subprocess.PIPE, text=True)
        self.assertEqual((done.returncode, done.stderr),
                         (2, "sweep: there is no /no/such/library.so; NEQYSBAR_LIBRARY may name the library\n"))

    def test_parquet(self):
        parquet = str(self.folder / "table.parquet")
        status, told = sweep(SORT, "--limit", "9:11", "--command", "serial", "--output", self.table, "--parquet", parquet)
        try:
            import pandas
            pandas.io.parquet.get_engine("auto")
        except ImportError:
            self.assertEqual((status, told), (2, "sweep: --parquet needs pandas and pyarrow, which aren't there\n"))
            self.skipTest("tables as Parquet: there is no pandas with pyarrow")
        self.assertEqual(status, 1, told)
        self.assertEqual([str(value) for value in pandas.read_parquet(parquet)["references"]], ["4505", "4505", "<NA>"])


if __name__ == "__main__":
    unittest.main()
