#!/usr/bin/env python3
"""Tests the scripts of this folder: python3 examples/test_scripts.py [PROGRAM]

PROGRAM is the one whose output is summed up; without it the script `neqysbar` of the repository runs.
"""

import contextlib
import csv
import importlib
import io
import json
import os
import pathlib
import subprocess
import sys
import tempfile
import unittest

sys.dont_write_bytecode = True

HERE = pathlib.Path(__file__).resolve().parent
sys.path.insert(0, str(HERE))

import scripts
import summary

PROGRAM = str(HERE.parent / "neqysbar")
# the words of an entry line in the order of the line, by the columns of a row
ORDER = ("op service address pages protection limit value reply why answer".split(), {
    "REUSE": "frame page", "ZERO": "address frame", "BACK": "process address frame state",
    "COLLIDE": "address frame start", "IN": "frame block role page", "INOK": "frame start",
    "INFAIL": "frame start before after", "OUT": "frame block", "OUTOK": "frame start",
    "OUTFAIL": "frame start before after", "EVICT": "process address frame why state",
    "LIMIT": "limit faults", "TURN": "process status"})


def run(*words, text=None):
    """The status, the output and the messages of a program."""
    done = subprocess.run([str(word) for word in words], input=text, capture_output=True, text=True)
    return done.returncode, done.stdout, done.stderr


def script(name, *words, text=None):
    return run(sys.executable, HERE / name, *words, text=text)


def called(name, *words):
    """The same of a script that is called in this process, which is quicker, and that opens no file."""
    output, messages, status = io.StringIO(), io.StringIO(), 0
    before, sys.argv = sys.argv, [f"{name}.py", *map(str, words)]
    try:
        with contextlib.redirect_stdout(output), contextlib.redirect_stderr(messages):
            scripts.ended(name, importlib.import_module(name).main)
    except SystemExit as end:
        status = end.code
    finally:
        sys.argv = before
    return status, output.getvalue(), messages.getvalue()


class Summary(unittest.TestCase):
    def rows(self, name):
        status, text, messages = script("summary.py", "--csv", HERE / f"{name}.out")
        self.assertEqual((status, messages), (0, ""))
        return {row["process"]: row for row in csv.DictReader(io.StringIO(text))}

    def test_counts_that_were_made_by_hand(self):
        wanted = {
            "first-run": {"A": "references 3 denied 1 hits 1 faults 1 zero 1 hit_rate 0.5"},
            "write-cluster": {"A": "references 6 hits 0 faults 6 zero 5 read 1 out 3 evicted 4 reused 2"},
            "read-cluster": {"A": "read 2 near 3 free 1"},
            "copy-on-reference": {"A": "references 2 hits 1 read 1", "B": "references 1 hits 0 read 1"},
            "failing-disk": {"A": "denied 1 failed 1", "MPW": "out 3 failed 1 references 0"},
            "swapping": {"A": "left 1 come 1 came_free 3 out 4", "B": "left 1 out 0", "C": "out 4",
                         "all": "references 10 hits 1 faults 9"},
        }
        for name, processes in wanted.items():
            rows = self.rows(name)
            for process, text in processes.items():
                words = text.split()
                for column, value in zip(words[::2], words[1::2]):
                    with self.subTest(f"{name} {process} {column}"):
                        self.assertEqual(rows[process][column], value)

    def test_json_says_what_csv_says(self):
        status, text, _ = script("summary.py", "--json", HERE / "failing-disk.out")
        self.assertEqual(status, 0)
        told = [{name: "" if value is None else str(value) for name, value in json.loads(line).items()}
                for line in text.splitlines()]
        self.assertEqual(told, list(self.rows("failing-disk").values()))

    def test_each_entry_line_is_told_whole(self):
        kinds = set()
        for path in HERE.glob("*.out"):
            lines = [line for line in path.read_text().splitlines() if line.split(" ")[0].isdecimal()]
            for line in lines:
                entry = summary.entry_of(line)
                kinds.add(entry["kind"])
                names = ORDER[1].get(entry["kind"])
                names = names.split() if names else [name for name in ORDER[0] if name in entry]
                words = [str(entry[name]) for name in ("number", "seat", "kind", *names)]
                self.assertEqual(" ".join(words), line)
        self.assertEqual(len(kinds), 15)

    def test_a_log_behind_its_trace(self):
        self.assertEqual(script("summary.py", HERE / "checked-run.trace")[:2],
                         script("summary.py", HERE / "shared-section.out")[:2])

    def test_what_is_no_run_is_refused(self):
        for text, word in (("TRACE 3 OUTOFRANGE\nSTATUS 2\n", "TRACE 3 OUTOFRANGE"), ("", "no entry"),
                           ("VMTRACE 1\n", "VMTRACE"), ("LONGTRACE 2\n", "LONGTRACE"), ("1 A ZERO\n", "line 1"), ("STATUS 6\n", "STATUS 6")):
            status, output, messages = script("summary.py", text=text)
            self.assertEqual((status, output), (2, ""))
            self.assertIn(word, messages)


class MadeTrace(unittest.TestCase):
    def test_serial_counts_what_make_counts(self):
        for seed, procs, refs in ((1, 4, 3000), (0, 1, 500), (4294967295, 16, 1000)):
            asked = ("--seed", seed, "--procs", procs, "--refs", refs)
            status, trace, _ = script("made_trace.py", *asked)
            self.assertEqual(status, 0)
            status, output, _ = run(PROGRAM, "serial", text=trace)
            kinds = [entry["kind"] for entry in summary.entries_of(output.splitlines())[0]]
            counts = {kind: kinds.count(kind) for kind in
                      ("DONE", "DENIED", "ZERO", "BACK", "IN", "OUT", "EVICT", "TURN", "LIMIT")}
            made, text, _ = run(PROGRAM, "make", *asked)
            words = text.split()
            self.assertEqual(words[:4], ["MADE", *map(str, asked[1::2])])
            self.assertEqual({kind: int(words[words.index(kind) + 1]) for kind in counts}, counts)
            self.assertEqual(int(words[words.index("ENTRIES") + 1]), len(kinds))
            self.assertEqual(made, status)

    def test_numbers_out_of_range_are_refused(self):
        for words in (("--seed", 1, "--procs", 17, "--refs", 1), ("--seed", -1, "--procs", 1, "--refs", 1),
                      ("--seed", 1, "--procs", 1)):
            self.assertEqual(script("made_trace.py", *words)[0], 2)


class Curves(unittest.TestCase):
    def test_the_picture_is_drawn_anew(self):
        with tempfile.TemporaryDirectory() as folder:
            path = pathlib.Path(folder) / "curves.svg"
            status, _, messages = script("study_curves.py", HERE / "recorded" / "sort.trace", "A", 16, path)
            self.assertEqual((status, messages), (0, ""))
            self.assertEqual(path.read_bytes(), (HERE / "sort-study.svg").read_bytes())


SCRIPTS = "summary made_trace cycling_trace study_curves lessons".split()
CYCLING = {"procs": 3, "pages": 6, "frames": 16, "refs": 20}


def cycling(**changed):
    return [f"--{name}={value}" for name, value in {**CYCLING, **changed}.items() if value is not None]


class CyclingTrace(unittest.TestCase):
    def test_what_it_writes_is_a_trace(self):
        for changed in ({}, {"procs": 1}, {"procs": 16, "refs": 10}, {"pages": 1, "limit": 2}, {"pages": 14},
                        {"frames": 8}, {"frames": 4096, "pages": 1024}, {"limit": 14}, {"limit": 2}, {"refs": 1},
                        {"procs": 4, "pages": 4096, "limit": 2}, {"procs": 1, "refs": 100000},
                        {"procs": 1, "refs": 100001},
                        {"frames": 1026, "limit": 1024}):
            status, trace, messages = called("cycling_trace", *cycling(**changed))
            self.assertEqual((status, messages), (0, ""), changed)
            self.assertEqual(run(PROGRAM, "serial", text=trace)[0], 0, changed)

    def test_what_would_be_no_trace_is_refused(self):
        for changed in ({"procs": 0}, {"procs": 17}, {"procs": -1}, {"procs": "x"}, {"procs": ""}, {"procs": None},
                        {"pages": 0}, {"pages": 1}, {"pages": 4097}, {"pages": 15}, {"frames": 7}, {"frames": 4097},
                        {"refs": 0}, {"refs": 8000001}, {"refs": 2666667}, {"limit": 0}, {"limit": 1}, {"limit": 15},
                        {"limit": 1025, "frames": 4096}, {"pages": 1025, "frames": 4096},
                        {"procs": 5, "pages": 4096, "limit": 2}, {"pages": "\u0665"}):
            status, trace, messages = called("cycling_trace", *cycling(**changed))
            self.assertEqual((status, trace), (2, ""), changed)
            self.assertRegex(messages, r"^(usage|cycling_trace): ", changed)
            self.assertNotIn("Traceback", messages)


SORT = HERE / "recorded" / "sort.trace"
# a script, words that are wrong, and what the message has
WRONG = (
    ("study_curves", (), "required: trace"),
    ("study_curves", (HERE / "none.trace", "A", 3, "x.svg"), "none.trace: No such file"),
    ("study_curves", (HERE, "A", 3, "x.svg"), "Is a directory"),
    ("study_curves", (SORT, "A", 5000, "x.svg"), "5000 is not 1 to 1024"),
    ("study_curves", (SORT, "A", 0, "x.svg"), "0 is not 1 to 1024"),
    ("study_curves", (SORT, "A", "x", "x.svg"), "x is not"),
    ("study_curves", (SORT, "a", 3, "x.svg"), "invalid choice"),
    ("study_curves", (SORT, "B", 3, "x.svg"), "doesn't declare"),
    ("study_curves", (SORT, "A", 1, "none/x.svg"), "no folder none"),
    ("study_curves", (SORT, "A", 1, HERE), "is a folder"),
    ("study_curves", (HERE / "sort-study.svg", "A", 1, "x.svg"), "neqysbar: line 1:"),
    ("study_curves", (HERE / "no-requests.trace", "A", 1, "x.svg"), "has no references"),
    ("lessons", (), "required: table"),
    ("lessons", ("frame",), "invalid choice: 'frame'"),
    ("lessons", ("frames", "x"), "unrecognized"),
    ("summary", ("--cvs",), "--cvs"),
    ("summary", ("a", "b"), "unrecognized"),
    ("summary", ("--csv", "--json"), "not allowed with"),
    ("summary", (HERE / "none.out",), "none.out: No such file"),
    ("summary", (HERE,), "Is a directory"),
    ("summary", (HERE / "first-run.dump",), "isn't ASCII"),
    ("made_trace", ("--seed", 1), "required: --procs, --refs"),
    ("made_trace", ("--seed", 1, "--procs", 17, "--refs", 1), "17 is not 1 to 16"),
)


class Endings(unittest.TestCase):
    """Words and ends that fail are said in a line or two, with status 2."""

    def test_each_script_is_run_by_its_name(self):
        for name in SCRIPTS:
            status, output, messages = run(HERE / f"{name}.py", "--help")
            self.assertEqual((status, messages), (0, ""))
            self.assertIn(f"examples/{name}.py", output)
            self.assertIn("Python 3.9", output)

    def test_wrong_words(self):
        for name, words, wanted in WRONG:
            with tempfile.TemporaryDirectory() as folder:
                done = subprocess.run([sys.executable, HERE / f"{name}.py", *map(str, words)], capture_output=True, text=True,
                                      stdin=subprocess.DEVNULL, cwd=folder)
                self.assertEqual((done.returncode, done.stdout), (2, ""), (name, words))
                self.assertIn(wanted, done.stderr)
                self.assertNotIn("Traceback", done.stderr)
                self.assertEqual(list(pathlib.Path(folder).iterdir()), [])

    def test_no_program(self):
        programs = {"none": "none can't be run: No such file", "/": "/ can't be run", "/bin/false": "ends with status 1"}
        for named, wanted in programs.items():
            for name, words in (("lessons", ["frames"]), ("study_curves", [HERE / "lessons" / "belady.trace", "A", 2, "x.svg"])):
                done = subprocess.run([sys.executable, HERE / f"{name}.py", *map(str, words)], capture_output=True, text=True,
                                      env={**os.environ, "NEQYSBAR": named})
                self.assertEqual((done.returncode, done.stdout), (2, ""))
                self.assertIn(wanted, done.stderr)
                self.assertNotIn("Traceback", done.stderr)

    def test_output_that_is_not_taken(self):
        calls = {"made_trace": ["--seed", "1", "--procs", "1", "--refs", "9000"], "cycling_trace": cycling(refs=3000),
                 "summary": ["--lines", HERE / "sort-stack.out"], "lessons": ["frames"],
                 "study_curves": [HERE / "lessons" / "belady.trace", "A", "3", os.devnull]}
        for name, words in calls.items():
            words = [sys.executable, str(HERE / f"{name}.py"), *map(str, words)]
            with open("/dev/full", "wb") as full:
                done = subprocess.run(words, stdout=full, stderr=subprocess.PIPE, text=True)
            self.assertEqual((done.returncode, done.stderr), (2, f"{name}: standard output: No space left on device\n"))
            done = subprocess.run(["bash", "-c", '"$@" | head -n 1 >/dev/null; exit "${PIPESTATUS[0]}"', "bash", *words],
                                  stderr=subprocess.PIPE, text=True)
            self.assertEqual((done.returncode in (0, 141), done.stderr), (True, ""), name)


if __name__ == "__main__":
    if len(sys.argv) > 1 and not sys.argv[1].startswith("-"):
        PROGRAM = os.environ["NEQYSBAR"] = str(pathlib.Path(sys.argv.pop(1)).resolve())
    unittest.main()
