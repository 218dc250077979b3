"""What the tests of the recorder and of the converter share: calls, and what is looked at in a trace."""

import contextlib
import io
import os
import pathlib
import subprocess
import sys
import tempfile
import unittest

from checker import check

HERE = pathlib.Path(__file__).resolve().parent
sys.path.append(str(HERE.parent))

import record
from options import run

TOP = HERE.parent.parent
SAMPLES = HERE / "samples"
EXAMPLES = TOP / "examples" / "recorded"
# the program that is built here, or the one of the release
PROGRAM = next((path for path in (TOP / "crates" / "neqysbar" / "out" / "neqysbar",
                                  TOP / "release" / "neqysbar") if path.exists()), None)


def script(name, *words, **more):
    """The status, the output and the messages of one call."""
    done = subprocess.run([sys.executable, str(HERE.parent / name), *map(str, words)], capture_output=True,
                          check=False, **more)
    return done.returncode, done.stdout.decode(), done.stderr.decode()


def call(module, name, *words):
    """The status, the output and the messages of a call in this process; a fault of the program isn't caught."""
    kept, sys.argv = sys.argv, [f"{name}.py", *map(str, words)]
    output, messages = io.StringIO(), io.StringIO()
    try:
        with contextlib.redirect_stdout(output), contextlib.redirect_stderr(messages):
            status = run(name, module.work)
    except SystemExit as end:   # faulty words
        status = end.code
    finally:
        sys.argv = kept
    return status, output.getvalue(), messages.getvalue()


def serial(trace):
    """The status and the lines of the run of a trace."""
    done = subprocess.run([PROGRAM, "serial"], input=trace.encode(), capture_output=True, check=False)
    return done.returncode, done.stdout.decode().splitlines()


def lines_of(trace, *firsts):
    """The trace's lines that begin with one of these words."""
    return [line for line in trace.splitlines() if line.split()[0] in firsts]


def body(trace):
    lines = trace.splitlines()
    return lines[lines.index("BODY") + 1:lines.index("END")]


class Case(unittest.TestCase):
    """A folder for recordings, and a call whose trace has to keep the format."""

    def setUp(self):
        self.folder = tempfile.TemporaryDirectory()
        self.addCleanup(self.folder.cleanup)

    def file(self, name, text):
        path = pathlib.Path(self.folder.name) / name
        path.write_text(text, encoding="latin-1")
        return path

    def trace(self, *words, tool=record):
        status, trace, messages = call(tool, tool.__name__, *words)
        self.assertEqual((status, check(trace)), (0, ""), messages)
        return trace

    def refused(self, message, *words, tool=record):
        status, trace, messages = call(tool, tool.__name__, *words)
        self.assertEqual((status, trace), (2, ""), messages)
        self.assertIn(message, messages)

    def tried(self, tool, data, *words):
        """The status and the messages of a call that reads this data by its last word, after a look at the trace: it is
        right, or none, and nothing else is left."""
        sample, out = (pathlib.Path(self.folder.name) / one for one in ("sample", "out.trace"))
        sample.write_bytes(data)
        status, _, messages = call(tool, tool.__name__, *words[:1], "--output", out, *words[1:], sample)
        trace = out.read_text(encoding="ascii") if out.exists() else ""
        out.unlink(missing_ok=True)
        self.assertEqual(sorted(os.listdir(self.folder.name)), ["sample"])
        self.assertEqual(check(trace) if status == 0 else (trace, status), "" if status == 0 else ("", 2), messages)
        return status, messages


def changed(data, chance):
    """The data with one byte changed, added or left out, or with some of it twice."""
    at, byte = chance.randrange(len(data)), bytes([chance.randrange(256)])
    return chance.choice([data[:at] + byte + data[at + 1:], data[:at] + byte + data[at:],
                          data[:at] + data[at + 1:], data[:at] + data[at:at + 40] + data[at:]])
