#!/usr/bin/env python3
"""The corpus of conformance/ for the module, which is no program that can be started.

    corpus.py [--small]

As a program it asks on standard output and is answered on standard input. A question is a line of JSON, with
the words of a command line and how many bytes of input follow, and an answer one with the status and how
many bytes of output follow. What it finds goes to standard error; the exit status is 1 if something differs.
"""

import importlib.machinery
import importlib.util
import json
import pathlib
import sys

sys.dont_write_bytecode = True

FILE = pathlib.Path(__file__).resolve().parents[2] / "conformance" / "run"


def load_run():
    loader = importlib.machinery.SourceFileLoader("conformance_run", str(FILE))
    module = importlib.util.module_from_spec(importlib.util.spec_from_loader(loader.name, loader))
    loader.exec_module(module)
    return module


class Corpus(load_run().Corpus):
    """The corpus over a function that is given words and input and returns output and status."""

    def __init__(self, outcome):
        super().__init__(None, None)
        self.outcome = outcome


def ask(words, data):
    head = json.dumps({"words": words, "length": len(data)})
    QUESTIONS.write(head.encode("ascii") + b"\n" + data)
    QUESTIONS.flush()
    line = sys.stdin.buffer.readline()
    if not line:
        sys.exit("corpus: no answer came")
    answer = json.loads(line)
    return sys.stdin.buffer.read(answer["length"]), answer["status"]


def main():
    corpus = Corpus(ask)
    corpus.small()
    if "--small" not in sys.argv[1:]:
        corpus.large()
    print(f"the corpus: {corpus.passed} passed, {corpus.failed} failed")
    return 1 if corpus.failed else 0


if __name__ == "__main__":
    QUESTIONS = sys.stdout.buffer
    sys.stdout = sys.stderr
    sys.exit(main())
