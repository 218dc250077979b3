"""Where the tests find things. With NEQYSBAR_TEST_INSTALLED set they test the package that is installed."""

import os
import pathlib
import sys

TEST = pathlib.Path(__file__).resolve().parent
PYTHON = TEST.parent
TOP = PYTHON.parent
EXAMPLES = TOP / "examples"
RECORDED = EXAMPLES / "recorded"
if not os.environ.get("NEQYSBAR_TEST_INSTALLED"):
    sys.path.insert(0, str(PYTHON))


def examples():
    """Words, input and output of each example."""
    for output in sorted(EXAMPLES.glob("*.out")):
        trace = output.with_suffix(".trace")
        if trace.exists():
            data = trace.read_bytes()
            yield ["check" if b"\nLOG\n" in data else "serial"], data, output.read_bytes()


def status_of(output):
    return int(output.split()[-1])


def environment():
    """The environment of a program that imports this package."""
    kept = dict(os.environ)
    if not os.environ.get("NEQYSBAR_TEST_INSTALLED"):
        kept["PYTHONPATH"] = str(PYTHON)
    return kept
