#!/usr/bin/env python3
"""Tests the calls of the library: examples, faulty words, threads, and that nothing is left."""

import pathlib
import resource
import subprocess
import sys
import threading
import unittest
from unittest import mock

from places import EXAMPLES, examples, environment, status_of
import neqysbar

STATM = pathlib.Path("/proc/self/statm")


def process_size():
    """The bytes of the process's address space, touched or not."""
    return int(STATM.read_text(encoding="ascii").split()[0]) * resource.getpagesize()


class Runs(unittest.TestCase):
    def test_examples(self):
        tried = 0
        for words, data, output in examples():
            self.assertEqual(neqysbar.run(words, data), (status_of(output), output))
            tried += 1
        self.assertGreater(tried, 10)

    def test_words(self):
        data = (EXAMPLES / "first-run.trace").read_bytes()
        for words, status in ((["study", "--process", "A", "--frames", "3"], 0), ([], 1), ([""], 1), (["serial", "x"], 1),
                              ([b"\xff"], 1), (["make", "--seed", "1", "--procs", "2", "--refs", "5000"], 0)):
            told = neqysbar.run(words, data)
            self.assertEqual((told[0], status_of(told[1])), (status, status), words)
        with self.assertRaises(ValueError):
            neqysbar.run(["serial\0"], data)
        for words, given in (("serial", data), (b"serial", data), (["serial"], data.decode())):
            with self.assertRaises(TypeError):
                neqysbar.run(words, given)

    def test_messages(self):
        """What is wrong is said as the program says it, and nothing where nothing is wrong."""
        data = (EXAMPLES / "first-run.trace").read_bytes()
        self.assertEqual(neqysbar.run_with_message(["serial"], data), (*neqysbar.run(["serial"], data), ""))
        faulty = (EXAMPLES / "faulty-line.trace").read_bytes()
        told = neqysbar.run_with_message(["serial"], faulty)
        self.assertEqual(told.message, (EXAMPLES / "faulty-line.err").read_text())
        self.assertEqual((told.status, told.output), neqysbar.run(["serial"], faulty))
        self.assertEqual(neqysbar.run_with_message(["serials"]).message.splitlines()[0], "neqysbar: no such command: serials")
        self.assertEqual(neqysbar.output_of(["serial"], data), neqysbar.run(["serial"], data)[1])
        with self.assertRaisesRegex(neqysbar.NotDone, "line 5: the address is a multiple of 512") as caught:
            neqysbar.output_of(["serial"], faulty)
        self.assertEqual(caught.exception.told, told)

    def test_no_library(self):
        """What isn't there is named, whether the call or the environment asked for it."""
        with self.assertRaisesRegex(OSError, "/no/such/library.so"):
            neqysbar.run(["serial"], b"", path="/no/such/library.so")
        told = subprocess.run(
            [sys.executable, "-c", "import neqysbar\ntry:\n    neqysbar.run([])\nexcept OSError as fault:\n    print(fault)"],
            env={**environment(), "NEQYSBAR_LIBRARY": "/no/such/library.so"}, stdout=subprocess.PIPE, text=True, check=True)
        self.assertEqual(told.stdout, "there is no /no/such/library.so; NEQYSBAR_LIBRARY may name the library\n")

    def test_machine(self):
        """The library that a repository has is looked for where the one for this machine is."""
        top = neqysbar.calls.HERE.parent.parent
        for machine, folder in (("x86_64", "release"), ("aarch64", "release/aarch64")):
            with mock.patch("platform.machine", return_value=machine):
                self.assertEqual(neqysbar.calls.places()[1], top / folder / "libneqysbar.so")

    def test_version(self):
        self.assertEqual(neqysbar.__version__, (EXAMPLES.parent / "VERSION").read_text().strip())

    def test_more_than_there_is_room_for(self):
        trace = b"VMTRACE 1\nFRAMES 16\nPAGEFILE 16\nPROCESS A 4 4 8 0\nMAPZERO A 00000000 8 UW\nBODY\n"
        trace += b"".join(b"A R4 %08X\n" % (512 * (n % 8)) for n in range(20000)) + b"END\n"
        status, output = neqysbar.run(["serial"], trace)
        self.assertEqual(status, 0)
        self.assertGreater(len(output), 16 * len(trace) // 10)
        self.assertEqual(sum(entry.kind == "DONE" for entry in neqysbar.read_log(output.decode())), 20000)

    def test_threads(self):
        cases = list(examples())
        wrong = []

        def work():
            for words, data, output in cases:
                if neqysbar.run(words, data) != (status_of(output), output):
                    wrong.append(words)

        threads = [threading.Thread(target=work) for _ in range(4)]
        for thread in threads:
            thread.start()
        for thread in threads:
            thread.join()
        self.assertEqual(wrong, [])

    @unittest.skipUnless(STATM.exists(), "the system doesn't tell the size of a process")
    def test_nothing_is_left(self):
        """A thousand calls leave the process as large as it was, up to 1 KiB a call."""
        for words, name in ((["serial"], "first-run"), (["serial"], "swapping"), (["serial"], "failing-disk"), (["check"], "checked-run"),
                            (["study", "--process", "A", "--frames", "3"], "first-run"), (["dump"], "first-run"),
                            (["make", "--seed", "1", "--procs", "2", "--refs", "50"], "first-run")):
            data = (EXAMPLES / name).with_suffix(".trace").read_bytes()
            for _ in range(20):
                self.assertIn(neqysbar.run(words, data)[0], (0, 5))
            before = process_size()
            for _ in range(1000):
                neqysbar.run(words, data)
            self.assertLessEqual(process_size() - before, 2 ** 20, (words, name))


if __name__ == "__main__":
    unittest.main()
