#!/usr/bin/env python3
"""Runs all tests of this folder, or those of some of its files; what isn't tried, since something isn't there, is said
in a line each.

    python/test/all.py [NAME..]       NAME is that of a file, without .py
"""

import pathlib
import sys
import unittest


def main():
    here = str(pathlib.Path(__file__).resolve().parent)
    loader = unittest.defaultTestLoader
    sys.path.insert(0, here)
    tests = loader.loadTestsFromNames(sys.argv[1:]) if len(sys.argv) > 1 else loader.discover(here)
    result = unittest.TextTestRunner(verbosity=0).run(tests)
    for reason in sorted({reason for _, reason in result.skipped}):
        print(f"python: not tried: {reason}")
    sys.exit(0 if result.wasSuccessful() and result.testsRun else 1)


if __name__ == "__main__":
    main()
